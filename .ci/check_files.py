#!/usr/bin/env python3
"""Makes encrypted files by another implementation, and compares the vectors in the tests of `skip_encode` with them.

The stream of a document is laid out here from its lines, enciphered by `cryptography` or `openssl`, and hashed by
`hashlib`. Where neither is installed, one line says that nothing was compared.

    check_files.py                compares the vectors
    check_files.py KEY <LINES     writes the file of a document under a key of 32 hexadecimal digits, and its root to
                                  standard error
"""
import hashlib
import re
import shutil
import subprocess
import sys
from itertools import count
from pathlib import Path

try:
    from cryptography.hazmat.primitives.ciphers import Cipher, algorithms, modes
except ImportError:
    Cipher = None

TESTS = Path(__file__).resolve().parent.parent / "crates" / "skip_encode" / "src" / "tests" / "files.rt"
KEY = bytes(range(16))
WARD = "(Hospital (Folder (Admin (SSN -123 )SSN (Fname -Li )Fname )Admin (Act (RPhys -Ana )RPhys (Details -calm )Details )Act )Folder )Hospital"

# The document of each vector, its lines one behind the other.
DOCUMENTS = {"SMALL": "(a -hi )a", "WARD": WARD, "LONG": f"(a -{'z' * 600} )a"}


# ---- documents

def element(lines):
    """The root: an element is its name, its attributes, and its items, of which a text is bytes."""
    waiting, around = [], [("", [], [])]
    for line in lines:
        kind, rest = line[:1], line[1:]
        if kind == b"A":
            waiting.append(rest)
        elif kind == b"(":
            around.append((rest, waiting, []))
            waiting = []
        elif kind == b")":
            ended = around.pop()
            around[-1][2].append(ended)
        elif kind == b"-":
            around[-1][2].append(rest)
    return around[0][2][0]


def started(root):
    """The names, in the order in which elements of each one first start."""
    yield root[0]
    for item in root[2]:
        if not isinstance(item, bytes):
            yield from started(item)


# ---- the stream

def measured(piece):
    return len(piece).to_bytes(4, "big") + piece


def bits(number, width):
    return format(number, f"0{width}b") if width else ""


def head(members, width, tag, below, long):
    """The head of an element, within its parent's members and the width that the parent has for lengths."""
    own = "1" + "".join("01"[member in below] for member in members) if below else "0"
    text = "1" + bits(members.index(tag), (len(members) - 1).bit_length()) + own + bits(long, width)
    text += "0" * (-len(text) % 8)
    return int(text, 2).to_bytes(len(text) // 8, "big")


def joined(front, members, parts):
    """The front and the parts, in the least width that fits them."""
    for width in count():
        content = front
        for part in parts:
            content += measured(part) if isinstance(part, bytes) else head(members, width, *part[:2], len(part[2])) + part[2]
        if len(content) < 1 << width:
            return content


def branch(of, names):
    """An element: its name's number, its tag set and its content."""
    name, attributes, items = of
    parts = [item if isinstance(item, bytes) else branch(item, names) for item in items]
    below = {number for part in parts if not isinstance(part, bytes) for number in {part[0], *part[1]}}
    front = len(attributes).to_bytes(2, "big") + b"".join(map(measured, attributes))
    return names.index(name), below, joined(front, sorted(below), parts)


def depth(of):
    return 1 + max((depth(item) for item in of[2] if not isinstance(item, bytes)), default=0)


# ---- the file

def enciphered(key, blocks):
    if Cipher:
        encryptor = Cipher(algorithms.AES(key), modes.ECB()).encryptor()
        return encryptor.update(blocks) + encryptor.finalize()
    command = ["openssl", "enc", "-aes-128-ecb", "-nopad", "-K", key.hex()]
    return subprocess.run(command, input=blocks, stdout=subprocess.PIPE, check=True).stdout


def digest(*parts):
    return hashlib.sha256(b"".join(parts)).digest()


def file_of(key, root, changed=bytes):
    """The file of a document, and its root. The stream may be changed before it is enciphered."""
    names = list(dict.fromkeys(started(root)))
    dictionary = len(names).to_bytes(2, "big") + b"".join(bytes([len(name)]) + name for name in names)
    tree = joined(b"", range(len(names)), [branch(root, names)])
    plain = dictionary + tree
    plain = changed(plain + bytes(-len(plain) % 256))
    masked = (int.from_bytes(plain[at:at + 16], "big") ^ at // 16 for at in range(0, len(plain), 16))
    cipher = enciphered(key, b"".join(block.to_bytes(16, "big") for block in masked))
    numbers = zip((len(tree), len(dictionary), len(names), depth(root)), (8, 4, 2, 2))
    header = b"SKIPIDX1" + b"".join(number.to_bytes(size, "big") for number, size in numbers) + digest(b"\4", key)[:16] + bytes(24)
    level = [digest(b"\0", (at // 256).to_bytes(8, "big"), cipher[at:at + 256]) for at in range(0, len(cipher), 256)]
    table = level
    while len(level) > 1:
        level = [digest(b"\1", *(level[at:at + 2] + [bytes(32)])[:2]) for at in range(0, len(level), 2)]
        table = table + level
    return header + cipher + b"".join(table), digest(b"\2", header, level[0])


# ---- the vectors

def numbers_of(file, root):
    """The numbers of a vector: the length, the first block behind the header, and the halves of the two digests."""
    halves = [whole[at:at + 16] for whole in (digest(file), root) for at in (0, 16)]
    return [len(file), *(int.from_bytes(part, "big") for part in (file[64:80], *halves))]


def main():
    if not Cipher and not shutil.which("openssl"):
        print("The vectors of skip_encode were not compared: neither cryptography nor openssl is installed.")
        return 0
    if len(sys.argv) > 1:
        file, root = file_of(bytes.fromhex(sys.argv[1]), element(sys.stdin.buffer.read().split(b"\n")))
        sys.stdout.buffer.write(file)
        print("root", root.hex(), file=sys.stderr)
        return 0
    vectors = dict(re.findall(r"const (\w+): Vector = Vector \{(.*?)\};", TESTS.read_text(), re.S))
    wrong = sorted(set(vectors) ^ set(DOCUMENTS))
    for name in sorted(set(vectors) & set(DOCUMENTS)):
        told = [int(number, 0) for number in re.findall(r"\b0x[0-9a-f_]+|\b\d[\d_]*", vectors[name])]
        made = numbers_of(*file_of(KEY, element(DOCUMENTS[name].encode().split(b" "))))
        if told != made:
            wrong.append(name)
            print(f"The file of {name} has {made[0]} bytes, and then {', '.join(f'{it:#034x}' for it in made[1:])}")
    print(f"{len(vectors)} vectors of skip_encode were compared, {len(wrong)} of them wrong.")
    return 1 if wrong or not vectors else 0


if __name__ == "__main__":
    sys.exit(main())
