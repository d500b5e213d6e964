#!/usr/bin/env python3
"""Tries `view` and `explain` of the built program over stores that were changed, cut, exchanged or taken from elsewhere.

What is expected of a store is told by a reader of its own, written here from docs/FORMATS.md over `hashlib`: the first
refusal of its bytes, or none. Files are those of `check_files.py`, seals those of Python's `hmac`.
"""
import hmac
import importlib.util
import subprocess
import sys
import tempfile
from hashlib import sha256
from pathlib import Path

TOP = Path(__file__).resolve().parent.parent
PROGRAM = TOP / "crates" / "acl_cli" / "out" / "acl_cli"
spec = importlib.util.spec_from_file_location("check_files", TOP / ".ci" / "check_files.py")
files = importlib.util.module_from_spec(spec)
spec.loader.exec_module(files)

DOCUMENT, SEAL = bytes(range(16)), bytes(range(32))
WARD = files.WARD.encode().split(b" ")


# ---- texts

def keys_of(document=DOCUMENT, seal=SEAL):
    return f"document {document.hex()}\nseal {seal.hex()}\n".encode()


def seal_of(body, key=SEAL):
    return hmac.new(key, body, sha256).hexdigest()


def licence_of(root, *rules, user="Ana", key=SEAL):
    body = "".join(f"{line}\n" for line in ("licence 1", f"root {root.hex()}", f"user {user}", *rules, "end")).encode()
    return f"seal {seal_of(body, key)}\n".encode() + body


def lines(text):
    """The bytes of lines that are written one behind the other."""
    return "".join(f"{line}\n" for line in text.split(" ; ") if line).encode()


def file_of(document, key=DOCUMENT):
    return files.file_of(key, files.element(document))


# ---- what a store's bytes are refused for

class Refused(Exception):
    pass


def digest(*parts):
    return sha256(b"".join(parts)).digest()


class Reader:
    """Reads a file's fragments in order, each with the digests beside its way up."""

    def __init__(self, file, root, key):
        self.file = file
        header = self.read(0, 64)
        tree, dictionary, names, depth = (int.from_bytes(header[at:end], "big") for at, end in ((8, 16), (16, 20), (20, 22), (22, 24)))
        in_form = header[:8] == b"SKIPIDX1" and not any(header[40:]) and 1 <= names <= 256 and 1 <= depth <= 255
        if not in_form or tree < 1 or dictionary < 2 + 2 * names or tree + dictionary > 1 << 25:
            raise Refused("30 BadHeader")
        self.levels = [-(-(tree + dictionary) // 256)]
        while self.levels[-1] > 1:
            self.levels.append((self.levels[-1] + 1) // 2)
        self.top = self.read(self.place(len(self.levels) - 1, 0), 32)
        made = digest(b"\2", header, self.top)
        if made != root:
            raise Refused(f"31 WrongRoot want={root.hex()} made={made.hex()}")
        want, made = header[24:40], digest(b"\4", key)[:16]
        if want != made:
            raise Refused(f"32 WrongKey want={want.hex()} made={made.hex()}")

    def read(self, at, asked):
        got = self.file[at:at + asked]
        if len(got) < asked:
            raise Refused(f"33 StoreShort at={at + len(got)}")
        return got

    def place(self, level, index):
        return 64 + 256 * self.levels[0] + 32 * (sum(self.levels[:level]) + index)

    def fragment(self, index, kept):
        """Checks a fragment, and gives the digest of its chunk. `kept` is that of the fragment before, in the same chunk."""
        made = chunk = digest(b"\0", index.to_bytes(8, "big"), self.read(64 + 256 * index, 256))
        highest = len(self.levels) - 1
        for level in range(4 if kept and highest > 4 else highest):
            beside = (index >> level) ^ 1
            there = beside < self.levels[level]
            sibling = self.read(self.place(level, beside), 32) if there else bytes(32)
            made = digest(b"\1", *((sibling, made) if index >> level & 1 else (made, sibling)))
            chunk = made if level == 3 else chunk
        want = kept if kept and highest > 4 else self.top
        if made != want:
            raise Refused(f"35 BadFragment index={index} want={want.hex()} made={made.hex()}")
        return chunk


def refusal(file, root, key=DOCUMENT):
    """The first refusal of a store's bytes, or None."""
    try:
        reader, kept = Reader(file, root, key), None
        for index in range(reader.levels[0]):
            kept = reader.fragment(index, kept if index % 16 else None)
    except Refused as refused:
        return str(refused)
    return None


def refusal_of_licence(licence, key=SEAL):
    """The refusal of a licence whose body is in its grammar where its seal is right, or None."""
    first, found, body = licence.partition(b"\n")
    digits = first[5:].decode("latin-1")
    if not found or first[:5] != b"seal " or len(digits) != 64 or set(digits.lower()) - set("0123456789abcdef"):
        return "22 BadLicence line=1"
    made = seal_of(body, key)
    return None if digits.lower() == made else f"20 BadSeal given={digits.lower()} made={made}"


# ---- the program

class Trials:
    def __init__(self, folder):
        self.folder, self.count, self.wrong = Path(folder), 0, 0

    def put(self, name, content):
        (self.folder / name).write_bytes(content)
        return str(self.folder / name)

    def run(self, words, given):
        ended = subprocess.run([PROGRAM, *words], input=given, stdout=subprocess.PIPE, stderr=subprocess.PIPE)
        return ended.returncode, ended.stdout, ended.stderr

    def expect(self, what, words, given, refused, written=b""):
        """A run that is refused so, with nothing written; or one that writes all of this."""
        self.count += 1
        want = (int(refused.split(" ")[0]), b"", f"acl: {refused}\n".encode()) if refused else (0, written, b"")
        status, out, error = self.run(words, given)
        line, more = error[:error.find(b"\n") + 1], error[error.find(b"\n") + 1:]
        if (status, out, line) != want or (more == b"" and refused) or (more and not refused):
            self.wrong += 1
            print(f"{what}: status {status}, {out[:60]!r}, {error[:200]!r} in place of {want[0]}, {want[1][:60]!r}, {want[2][:200]!r}")

    def view(self, what, file, licence, written, root, key=DOCUMENT):
        """The view of a store's file: its first refusal, or all of the view."""
        self.expect(what, ["view", self.put("keys", keys_of(key)), self.put("store", file)], licence, refusal(file, root, key), written)


# ---- what is tried

def views(trials):
    """What the same file shows to several readers."""
    file, root = file_of(WARD)
    words = [trials.put("keys", keys_of()), trials.put("ward", file)]
    admin = "(- ; (- ; (Admin ; (SSN ; -123 ; )SSN ; (Fname ; -Li ; )Fname ; )Admin ; )- ; )-"
    folder = "(- ; (Folder ; (- ; (SSN ; -123 ; )SSN ; )- ; (Act ; (RPhys ; -Ana ; )RPhys ; (Details ; -calm ; )Details ; )Act ; )Folder ; )-"
    act = "(- ; (- ; (Act ; (RPhys ; -Ana ; )RPhys ; )Act ; )- ; )-"
    nearest = ("+ A //Folder", "- B //Admin", "+ C //SSN")
    acts = ("+ A //Act", "- B //Details")
    rows = [
        ("view", ("+ R1 /Hospital/Folder/Admin",), [], admin),
        ("view", (), [], ""),
        ("view", nearest, [], folder),
        ("view", ("+ P //SSN", "- N //SSN"), [], ""),
        ("view", ('+ R //Folder[Act/RPhys = "Ana"]/Admin',), [], admin),
        ("view", ("+ R //Folder[Act/RPhys = USER]/Admin",), [], admin),
        ("view", ('+ R //Folder[Act/RPhys = "Bea"]/Admin',), [], ""),
        ("view", acts, ["--query", "//Act[Details]"], ""),
        ("view", acts, ["--query=//Act[RPhys]"], act),
        ("explain", (), [], "- closed /"),
        ("explain", nearest, [], "- closed / ; + A /1 ; - B /1/1 ; + C /1/1/1"),
        ("explain", ("+ P //SSN", "- N //SSN"), [], "- closed / ; - N /1/1/1"),
        ("explain", ('+ R //Folder[Act/RPhys = "Ana"]/Admin',), [], "- closed / ; + R /1/1"),
    ]
    for command, rules, options, written in rows:
        trials.expect(f"{command} {rules} {options}", [command, *words, *options], licence_of(root, *rules), None, lines(written))
    trials.expect("a query that is no path", ["view", *words, "--query", "Act"], licence_of(root), "26 BadQuery at=0")
    trials.expect("a query behind a licence that is refused", ["view", *words, "--query", "Act"], b"", "22 BadLicence line=1")
    for faulty in (["view"], ["view", words[0]], ["view", *words, "--query"], ["view", *words, "x"], ["explain", *words, "--query", "/a"], ["explain", words[0]]):
        trials.expect(f"words {faulty}", faulty, licence_of(root), "2 Usage")


def changed_bytes(trials):
    """Each byte of a file and of a licence changed, and the file cut everywhere."""
    file, root = file_of(WARD)
    licence = licence_of(root, "+ R /Hospital/Folder/Admin")
    written = lines("(- ; (- ; (Admin ; (SSN ; -123 ; )SSN ; (Fname ; -Li ; )Fname ; )Admin ; )- ; )-")
    for at in range(len(file)):
        for turned in (1, 128, 255):
            trials.view(f"byte {at} turned by {turned}", file[:at] + bytes([file[at] ^ turned]) + file[at + 1:], licence, written, root)
        trials.view(f"cut to {at} bytes", file[:at], licence, written, root)
    trials.view("bytes behind the file", file + b"more", licence, written, root)
    words = ["view", trials.put("keys", keys_of()), trials.put("store", file)]
    for at in range(len(licence)):
        other = licence[:at] + bytes([licence[at] ^ 1]) + licence[at + 1:]
        trials.expect(f"byte {at} of the licence changed", words, other, refusal_of_licence(other))
    upper = b"seal " + licence[5:69].upper() + licence[69:]
    trials.expect("a seal in capitals", words, upper, None, written)


def keys_and_stores(trials):
    """Other keys, and stores that are none."""
    file, root = file_of(WARD)
    licence = licence_of(root, "+ R /Hospital")
    trials.view("another document key", file, licence, b"", root, bytes(16))
    other = bytes(32)
    trials.expect("another seal key", ["view", trials.put("other", keys_of(seal=other)), trials.put("store", file)], licence, refusal_of_licence(licence, other))
    trials.expect("a licence of another seal key", ["view", trials.put("keys", keys_of()), trials.put("store", file)],
                  licence_of(root, "+ R /Hospital", key=other), refusal_of_licence(licence_of(root, "+ R /Hospital", key=other)))
    trials.expect("short keys", ["view", trials.put("short", b"document 00\n"), trials.put("store", file)], licence, "25 BadKeys line=1")
    trials.expect("keys of one line", ["view", trials.put("short", keys_of().split(b"\n")[0] + b"\n"), trials.put("store", file)], licence, "25 BadKeys line=2")
    for what, place in (("no store", trials.folder / "nowhere"), ("a folder as a store", trials.folder)):
        trials.expect(what, ["view", trials.put("keys", keys_of()), str(place)], licence, "34 StoreFault")
        trials.expect(f"{what}, behind a licence that is refused", ["view", trials.put("keys", keys_of()), str(place)], licence[1:], "22 BadLicence line=1")
    for place in (trials.folder / "nowhere", trials.folder):
        trials.expect("no keys", ["view", str(place), trials.put("store", file)], licence, "3 KeysFault")


def exchanged(trials):
    """Files of many fragments: exchanged, doubled, of another document, and with an old licence."""
    sample = trials.run(["sample", "40"], b"")[1]
    older = trials.run(["sample", "39"], b"")[1]
    file, root = file_of(sample.split(b"\n"))
    old_file, old_root = file_of(older.split(b"\n"))
    licence = licence_of(root, "+ R /Hospital")
    trials.view("the whole sample", file, licence, sample, root)

    def with_fragments(*changes):
        made = bytearray(file)
        for at, of, index in changes:
            made[64 + 256 * at:320 + 256 * at] = of[64 + 256 * index:320 + 256 * index]
        return bytes(made)

    trials.view("fragments 1 and 2 exchanged", with_fragments((1, file, 2), (2, file, 1)), licence, sample, root)
    trials.view("fragments of two chunks exchanged", with_fragments((3, file, 17), (17, file, 3)), licence, sample, root)
    trials.view("a fragment doubled", with_fragments((2, file, 1)), licence, sample, root)
    trials.view("a fragment of another document", with_fragments((17, old_file, 17)), licence, sample, root)
    trials.view("another document's file", old_file, licence, sample, root)
    trials.view("an old licence", file, licence_of(old_root, "+ R /Hospital"), sample, old_root)
    for at in [*range(0, len(file), 211), *range(len(file) - 3200, len(file), 32)]:
        trials.view(f"byte {at} of the sample changed", file[:at] + bytes([file[at] ^ 4]) + file[at + 1:], licence, sample, root)
        trials.view(f"the sample cut to {at}", file[:at], licence, sample, root)


def streams(trials):
    """Files with right digests: one whose stream is of no document, one of 41 fragments, and a large sample."""
    def spoiled(bytes_of):
        plain = bytearray(bytes_of)
        plain[4] = 0x20
        return bytes(plain)

    file, root = files.file_of(DOCUMENT, files.element(b"(a -hi )a".split(b" ")), spoiled)
    trials.expect("a stream of no document", ["view", trials.put("keys", keys_of()), trials.put("store", file)], licence_of(root, "+ R /a"), "38 BadIndex")
    long = [b"(r", b"(x", b"-" + b"z" * 10240, b")x", b"(y", b"-1", b")y", b")r"]
    file, root = file_of(long)
    trials.view("41 fragments", file, licence_of(root, "+ R /r/y"), lines("(- ; (y ; -1 ; )y ; )-"), root)
    sample = trials.run(["sample", "2000"], b"")[1]
    rule = '+ S //Folder[Act/RPhys = "Ana"]/Admin'
    shown = trials.run(["preview", trials.put("rules", licence_of(bytes(32), rule).partition(b"\n")[2])], sample)[1]
    keys = trials.put("keys", keys_of())
    status, file, note = trials.run(["encode", keys], sample)
    root = bytes.fromhex(note[5:69].decode())
    sealed = trials.run(["seal", keys], licence_of(root, rule).partition(b"\n")[2])[1]
    trials.expect("a sample of 2,000 folders, encoded and sealed", ["view", keys, trials.put("store", file)], sealed, None, shown)


def main():
    if not files.Cipher and not files.shutil.which("openssl"):
        print("No view was tried: neither cryptography nor openssl is installed.")
        return 0
    with tempfile.TemporaryDirectory() as folder:
        trials = Trials(folder)
        for part in (views, changed_bytes, keys_and_stores, exchanged, streams):
            part(trials)
    print(f"{trials.count} views of stores were tried, {trials.wrong} were not as expected.")
    return 1 if trials.wrong else 0


if __name__ == "__main__":
    sys.exit(main())
