#!/usr/bin/env python3
"""Tries tools/check_rules.py, tools/inspect.py, tools/explain_names.py and tools/why.py: what they write and their status, on small files.

What is expected is worked by hand from docs/FORMATS.md and the files of examples/; only check_rules.py runs the built program.
For why.py the rest is in try_mistakes.py.
"""
import subprocess
import sys
import tempfile
from pathlib import Path

TOP = Path(__file__).resolve().parent.parent
EXAMPLES = TOP / "examples"
PROGRAM = TOP / "crates" / "acl_cli" / "out" / "acl_cli"
ROOT = "192458bf220db5d92fd62d4af0d3cecb63490b62c211eba93d9f548995a1a1d0"
CHECK = "ef0e107d08768fb3e3391ffba4c7e31b"

# Two shelves: names with a prefix, in two spellings, and prices of which one has a point.
SHOP = b"""(shop
(s:shelf
Aname CDATA low
(book
(price
-9
)price
)book
(book
(price
-12.50
)price
)book
)s:shelf
(s:shelf
)s:shelf
)shop
"""


def body_of(*rules, root=ROOT, user="Ana"):
    return "".join(f"{line}\n" for line in ("licence 1", f"root {root}", f"user {user}", *rules, "end")).encode()


class Trials:
    def __init__(self, folder):
        self.folder, self.wrong, self.count = Path(folder), 0, 0

    def put(self, name, content):
        (self.folder / name).write_bytes(content)

    def run(self, tool, *words, given=b""):
        words = [sys.executable, TOP / "tools" / tool, *words]
        ended = subprocess.run(words, input=given, capture_output=True, cwd=self.folder)
        return ended.returncode, ended.stdout.decode(), ended.stderr.decode()

    def expect(self, what, made, want):
        self.count += 1
        if made != want:
            self.wrong += 1
            print(f"{what}: {made} in place of {want}")


def rules(trials):
    """check_rules.py: the whole report on good rules, and the warnings and the status on others."""
    trials.put("the shop.esis", SHOP)
    trials.put("my shop.rules", body_of("+ shop /shop", "- dear //book[price>10]", "+ books //book"))

    def check(body, document="the shop.esis"):
        return trials.run("check_rules.py", body, document, "--acl", PROGRAM)

    # `>` holds neither of 9 nor of 12.50, so the denial selects no book.
    trials.expect("a report", check("my shop.rules"), (1, """my shop.rules: user Ana, 3 rules, on the shop.esis with 7 elements

  rule     selects  decides  path
  + shop         1        1  /shop
  - dear         0        0  //book[price>10]
  + books        2        2  //book

The view has 17 lines: 7 elements shown, 0 kept as '-', 0 hidden.

my shop.rules:5: warning: the denial 'dear' selects nothing, so it hides nothing
my shop.rules:5: warning: the comparison 'price>10' is with a whole number, and 1 value, such as '12.50', is none: """
                  "so it doesn't hold there\n", ""))
    for rule, status, warnings in [
        ("+ a //book", 0, []),
        ("- a //book", 0, []),
        ("+ a //Book", 0, ["the grant 'a' selects nothing, so it shows nothing",
                           "the document has no element 'Book'; the nearest name is 'book' (upper and lower case differ)"]),
        ("- a //shelf", 1, ["the denial 'a' selects nothing, so it hides nothing",
                            "the document has no element 'shelf'; the nearest name is 's:shelf' (the prefix differs)"]),
        ("- a //book/prize", 1, ["the denial 'a' selects nothing, so it hides nothing",
                                 "the document has no element 'prize'; the nearest name is 'price' (the spelling differs)"]),
        ("- a //book[ @name = 'x>1' ]", 1, ["the denial 'a' selects nothing, so it hides nothing"]),
        ("+ a //*[.//price!=3]", 0, ["the comparison 'price!=3' is with a whole number, and 1 value, such as '12.50', is none: "
                                     "so it holds there"]),
        ("+ a //price[.<3]", 0, ["the grant 'a' selects nothing, so it shows nothing",
                                 "the comparison 'price<3' is with a whole number, and 1 value, such as '12.50', is none: "
                                 "so it doesn't hold there"]),
        ("- closed /shop", 0, []),
    ]:
        trials.put("one.rules", body_of(rule))
        ended, written, _ = check("one.rules")
        found = [line.split("warning: ")[1] for line in written.splitlines() if "warning: " in line]
        trials.expect(rule, (ended, found), (status, warnings))
    trials.put("two.rules", body_of("+ one //nought", "- two //naught", "+ shop /shop", "+ again /shop"))
    ended, written, _ = check("two.rules")
    trials.expect("denials first", [line.split(": ")[0] for line in written.splitlines() if "selects nothing" in line],
                  ["two.rules:5", "two.rules:4"])
    trials.expect("a rule after another", "two.rules:7: warning: 'again' decides nowhere: it selects 1 element, "
                  "and there another rule decides\n" in written, True)
    trials.put("none.rules", body_of())
    trials.expect("no rules", check("none.rules"), (0, "none.rules: user Ana, 0 rules, on the shop.esis with 7 elements\n\n"
                                                    "The view is empty: nothing is shown.\n", ""))
    trials.put("bad.rules", body_of("+ a book"))
    trials.expect("a path that is refused", check("bad.rules")[:2], (2, ""))
    trials.expect("its name", "bad.rules: a path must begin with" in check("bad.rules")[2], True)
    trials.expect("no document", check("my shop.rules", "no\x1bthing"),
                  (2, "", "check_rules.py: no\\x1bthing: No such file or directory\n"))
    trials.expect("no document's lines", check("my shop.rules", "my shop.rules")[:2], (2, ""))


def looks(trials):
    """inspect.py: a file, a licence, a body and keys; what fits and what doesn't; what is none of them."""
    for name in ("hospital.file", "physician.licence", "physician.rules", "keys", "hospital.esis"):
        trials.put(f"a {name}", (EXAMPLES / name).read_bytes())

    def inspect(*names):
        status, written, said = trials.run("inspect.py", *names)
        trials.expect(f"{names}: nothing is said", said, "")
        return status, written

    # The header of the example, and the lengths of the file, are those that docs/FORMATS.md lists.
    store = f"""a hospital.file: encrypted file
    root {ROOT}
    tree: 60 bytes
    list of names: 52 bytes
    names: 8
    depth: 4 open elements at most
    size: 352 bytes, 1 fragment
    key check {CHECK}
"""
    keys = f"a keys: keys\n    files under them carry the key check {CHECK}\n"
    rest = f"""
    root {ROOT}
    user Ana
    1 rule:
      + own //Folder[Act/RPhys=USER]/Admin
"""
    licence = "a physician.licence: licence" + rest
    body = "a physician.rules: licence body, not sealed" + rest
    trials.expect("a file", inspect("a hospital.file"), (0, store))
    trials.expect("a licence", inspect("a physician.licence"), (0, licence))
    trials.expect("a body", inspect("a physician.rules"), (0, body))
    trials.expect("keys", inspect("a keys"), (0, keys))
    trials.expect("a file and keys", inspect("a hospital.file", "a keys"),
                  (0, store + keys + "a hospital.file and a keys fit: the file was encoded with these keys\n"))
    trials.expect("a licence and a file", inspect("a physician.licence", "a hospital.file"),
                  (0, licence + store + "a physician.licence and a hospital.file fit: the licence is for this file\n"))
    trials.expect("keys and a licence", inspect("a keys", "a physician.licence"),
                  (0, keys + licence + "a keys and a physician.licence fit: the licence was sealed with these keys\n"))
    trials.expect("keys and a body", inspect("a keys", "a physician.rules"), (0, keys + body))

    file = (EXAMPLES / "hospital.file").read_bytes()
    trials.put("other keys", f"document {'00' * 16}\nseal {'AB' * 32}".encode())
    trials.put("other.file", file[:-1] + bytes([file[-1] ^ 1]))
    trials.put("forged.licence", (EXAMPLES / "physician.licence").read_bytes().replace(b"Ana", b"Bea"))
    for names, told in [
        (("a hospital.file", "other keys"), "do not fit: the file was encoded with another document key"),
        (("a physician.licence", "other.file"), "do not fit: the licence is for another file"),
        (("a physician.rules", "other.file"), "do not fit: the licence is for another file"),
        (("a physician.licence", "other keys"), "do not fit: the licence was changed since it was sealed, or sealed with other keys"),
        (("forged.licence", "a keys"), "do not fit: the licence was changed since it was sealed, or sealed with other keys"),
    ]:
        status, written = inspect(*names)
        trials.expect(f"{names}", (status, written.splitlines()[-1]), (1, f"{names[0]} and {names[1]} {told}"))
        digits = ("ab" * 8, "00" * 8, (EXAMPLES / "keys").read_text().split()[1], (EXAMPLES / "keys").read_text().split()[3])
        trials.expect(f"{names}: no key", [key for key in digits if key in written.lower()], [])

    trials.put("short.file", file[:-40])
    trials.put("long.file", file + b"more")
    trials.put("header.file", file[:24] + bytes(15) + file[39:63] + b"x" + file[64:])
    trials.put("swapped keys", f"seal {'cd' * 32}\ndocument {'cd' * 16}\n".encode())
    trials.put("long keys", f"document {'cd' * 16}\nseal {'cd' * 32}\n\n".encode())
    trials.put("user.rules", body_of(user="Zoë\u009b"))
    for name, status, told in [
        ("short.file", 1, "    cut off: 40 bytes missing at the end\n"),
        ("long.file", 0, "    4 bytes after its end, which nobody reads\n"),
        ("header.file", 1, "header.file: its first 64 bytes are no header of acl\n"),
        ("swapped keys", 1, "swapped keys: line 2 can't stand there in a licence\n"),
        ("long keys", 1, "long keys: keys are the lines `document` with 32 digits and `seal` with 64, and nothing else\n"),
        ("user.rules", 0, "    user Zoë\\x9b\n    0 rules\n"),
        ("a hospital.esis", 1, "a hospital.esis: it is neither an encrypted file, a licence, a licence body nor keys\n"),
    ]:
        ended, written = inspect(name)
        trials.expect(name, (ended, told in written, "cdcd" in written), (status, True, False))
    trials.expect("no file", trials.run("inspect.py", "no\nthing"), (2, "", "inspect.py: no\\x0athing: No such file or directory\n"))


def paths(trials):
    """explain_names.py: paths by names, and what gets none."""
    trials.put("the shop.esis", SHOP)
    explanation = b"- closed /\n+ a /1\n- b.2 /1/1\n+ a /1/2/1\n- c /2\n"
    trials.expect("names", trials.run("explain_names.py", "the shop.esis", given=explanation), (0, """- closed / /shop
+ a /1 /shop/s:shelf[1]
- b.2 /1/1 /shop/s:shelf[1]/book[1]
+ a /1/2/1 /shop/s:shelf[1]/book[2]/price
- c /2 /shop/s:shelf[2]
""", ""))
    trials.expect("no explanation", trials.run("explain_names.py", "the shop.esis"), (0, "", ""))
    trials.put("control.esis", b"(a\xc2\x85\xff\n)a\xc2\x85\xff\n")
    trials.expect("a control", trials.run("explain_names.py", "control.esis", given=b"+ a /"), (0, "+ a / /a\\x85\\xff\n", ""))
    for given, document, told in [
        (b"+ a /1\n+ b /3\n", "the shop.esis", "standard input: line 2: the document has no element /3"),
        (b"+ a /0\n", "the shop.esis", "standard input: line 1 is not a line of an explanation"),
        (SHOP, "the shop.esis", "standard input: line 1 is not a line of an explanation"),
        (b"+ a /\n", "cut.esis", "cut.esis: the end of an element is missing"),
        (b"+ a /\n", "xml", "xml: line 1 is not a line of a document"),
        (b"+ a /\n", "nothing", "nothing: there is no element"),
    ]:
        trials.put("cut.esis", SHOP[:-6])
        trials.put("xml", b"<a/>\n")
        trials.put("nothing", b"")
        trials.expect(f"{given} on {document}", trials.run("explain_names.py", document, given=given),
                      (1, "", f"explain_names.py: {told}\n"))
    trials.expect("no document", trials.run("explain_names.py", "nowhere"),
                  (2, "", "explain_names.py: nowhere: No such file or directory\n"))


def reasons(trials):
    """why.py: files of each kind, the line and the byte that are refused, and no line of keys."""
    kinds = {
        "a keys": "keys; they are given as KEYS",
        "a physician.rules": "a licence body; preview takes it as RULES, and seal reads it from standard input",
        "a physician.licence": "a sealed licence; view and explain read it from standard input",
        "a hospital.esis": "lines of a document; encode and preview read them from standard input",
        "a hospital.file": "an encrypted file, which acl encode writes; view and explain take it as STORE",
    }
    for name in kinds:
        trials.put(name, (EXAMPLES / name.removeprefix("a ")).read_bytes())
    trials.expect("good files", trials.run("why.py", *kinds), (0, "".join(f"{name}: {kind}\n" for name, kind in kinds.items()), ""))
    body, licence, keys = (kinds[name] for name in ("a physician.rules", "a physician.licence", "a keys"))
    digits, rule = "c0ffee" * 5, "+ own //Folder[Act and Admin]"
    start, path = 70 * "x", "and isn't supported: write two predicates, as in //a[b][c]"
    for name, content, status, told in [
        ("ana.rules", body_of(rule), 1, f"{body}\nana.rules:4: {path}\n    {rule}\n                       ^\n"),
        ("ana.licence", b"seal " + 64 * b"0" + b"\n" + body_of(rule), 1,
         f"{licence}\nana.licence:5: {path}\n    {rule}\n                       ^\n"),
        ("long.rules", body_of(f"+ own /{start}/@a"), 1,
         f"{body}\nlong.rules:4: an attribute: a path selects elements, and all their attributes with them\n"
         f"    ...{59 * 'x'}/@a\n{67 * ' '}^\n"),
        ("control.rules", body_of("+ own /a\x1b[2J"), 1,
         f"{body}\ncontrol.rules:4: this can't stand there\n    + own /a\\x1b[2J\n            ^\n"),
        ("quoted.rules", body_of("+ own /a[b='USER']"), 0,
         f"{body}\nquoted.rules:4: warning: USER in quotes is a text, and not the user's name\n"
         f"    + own /a[b='USER']\n               ^\n"),
        ("no end", body_of("+ own /a")[:-4], 1, f"{body}\nno end:5: the last line 'end' is missing\n"),
        ("digits", f"document {digits}\nseal {2 * digits}\n".encode(), 1, f"{keys}\ndigits:1: 30 digits in place of 32\n"),
        ("word", f"Document {digits}\ndocument {digits}\n".encode(), 1,
         f"{keys}\nword:1: the line begins with the word 'document', then a space and 32 hexadecimal digits\n"),
        ("spelled", b"License 1\n", 1, f"{body}\nspelled:1: the first line is 'licence 1', and nothing else\n    License 1\n"),
        ("prose", b"what is this?\n", 1, "neither keys, a licence body, a licence, a document nor an encrypted file\n"),
    ]:
        trials.put(name, content)
        made = trials.run("why.py", name)
        trials.expect(name, made, (status, f"{name}: {told}", ""))
        trials.expect(f"{name}: no key", digits in made[1], False)
    trials.expect("a query", trials.run("why.py", "--query", "//a[1]"),
                  (1, "the query: positions such as [1] aren't supported\n    //a[1]\n        ^\n", ""))
    trials.expect("a good query", trials.run("why.py", "--query", "//a"), (0, "the query: nothing is wrong with its form\n", ""))
    trials.expect("another name", trials.run("why.py", "--name", "b\x1b", "a keys"), (0, f"b\\x1b: {keys}\n", ""))
    trials.expect("no file", trials.run("why.py", "no\nthing"), (2, "", "why.py: no\\x0athing: No such file or directory\n"))
    trials.expect("no words", trials.run("why.py")[0], 2)


def main():
    with tempfile.TemporaryDirectory() as folder:
        trials = Trials(folder)
        for part in (paths, looks, rules, reasons):
            part(trials)
    print(f"{trials.count} runs of the tools were tried, {trials.wrong} were not as expected.")
    return 1 if trials.wrong else 0


if __name__ == "__main__":
    sys.exit(main())
