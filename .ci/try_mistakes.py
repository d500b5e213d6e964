#!/usr/bin/env python3
"""Makes typical mistakes of a new user on small files, and compares how the built program ends, what it says, and what the
tools say of the file at fault.

    try_mistakes.py [PROGRAM]           tries all, and checks that docs/FORMATS.md has exactly the table of them
    try_mistakes.py [PROGRAM] --weak    the same, and lists those whose sentence doesn't help
    try_mistakes.py --table             writes the table, and tries nothing

Outcomes, lines and byte offsets are worked by hand from docs/FORMATS.md; sentences are those of crates/acl_usage. tools/why.py
must say what is wrong in the file, and mark the byte that the program names. After a refusal nothing may be on standard output.
"""
import argparse
import hmac
import os
import re
import shlex
import subprocess
import sys
import tempfile
from dataclasses import dataclass, field
from hashlib import sha256
from pathlib import Path

TOP = Path(__file__).resolve().parent.parent
EXAMPLES = TOP / "examples"
PROGRAM = TOP / "crates" / "acl_cli" / "out" / "acl_cli"
PAGE = TOP / "docs" / "FORMATS.md"
SECTION = "## What a first run is refused for\n"

# The good files of each trial, by the names of docs/GUIDE.md.
GOOD = {
    "my.keys": EXAMPLES / "keys", "my.xml": EXAMPLES / "hospital.xml", "my.esis": EXAMPLES / "hospital.esis",
    "my.file": EXAMPLES / "hospital.file", "my.rules": EXAMPLES / "physician.rules",
    "my.licence": EXAMPLES / "physician.licence",
}
GOOD = {name: path.read_bytes() for name, path in GOOD.items()}
WHOLE, VIEW = GOOD["my.esis"], (EXAMPLES / "physician.out").read_bytes()
LARGE = b"(a\n" + b"-a text\n" * 20_000 + b")a\n"

COMMANDS = ("preview", "encode", "seal", "view", "explain", "sample")
ENCODE = "acl encode my.keys <my.esis"
PREVIEW = "acl preview my.rules <my.esis"
SEAL = "acl seal my.keys <my.rules"
SHOW = "acl view my.keys my.file <my.licence"


# ---- what is said

NO_FILE = "{}: not found, or not a readable file"
NO_INPUT = "standard input: cannot be read"
MORE = "; tools/why.py FILE says more"
KEYS = ("{}: expected 'document', a space and 32 hexadecimal digits" + MORE, "{}: expected 'seal', a space and 64 hexadecimal digits" + MORE,
        "{}: something follows the two lines of the keys")
TITLE = "{}: expected the line 'licence 1', without a seal or anything else" + MORE
ROOT = "{}: expected the line that acl encode prints: 'root' and 64 hexadecimal digits"
USER = "{}: expected 'user' and a name"
RULE = "{}: expected a rule ('+' or '-', a unique id and a path, with one space between them), or 'end' as the last line" + MORE
SEAL_LINE = "standard input: expected the seal line, which acl seal writes before the body" + MORE
BAD_SEAL = "standard input: the licence was changed since it was sealed, or sealed with other keys"
NO_SLASH = "{}: a path must begin with / or //"
BAD_PATH = "{}: the path is invalid after its first {} bytes, or ends too early; tools/why.py {} shows the place"
XML = "; tools/why.py FILE says why, and examples/xml.sh converts XML files"
NO_LINE = "standard input: not a line of a document" + XML
KIND = "standard input: documents have no lines of this kind" + XML
UNBALANCED = "standard input: the line is not allowed here, or the end of an element is missing"
NO_FILE_OF_ACL = "{}: not a file made by acl encode"
WRONG_ROOT = "my.file: the licence is for another file, or this one was changed; the root in a licence body is the one " \
    "that acl encode prints"
ENDS = "my.file: unexpected end of file"
STATES = "the rules together, or the query: more than 256 steps, 256 tests in predicates or 64 predicates"
NOTHING = ""
ORDER = "; options come after the command and its files"
ONCE = "; --query and --explain are given at most once, and not together"
INPUT = "; the input is read from standard input: write < before its file"


def unexpected(word, hint=""):
    return f"unexpected argument '{word}'{hint}"


def missing(word):
    return f"an argument is missing after '{word}'"


# ---- how a file is changed: each gives the new bytes for the old ones

def whole(content):
    return lambda old: content


def before(front):
    return lambda old: front + old


def exchanged(one, other):
    """One piece in place of another, which must stand there."""
    def change(old):
        assert one in old, (one, old)
        return old.replace(one, other)
    return change


def lines(at, *new):
    """These lines in place of the one with this number, counted from 1. None of them: it is dropped."""
    def change(old):
        stand = old.splitlines(keepends=True)
        stand[at - 1:at] = [f"{line}\n".encode() for line in new]
        return b"".join(stand)
    return change


def front_of(at, line):
    """One more line before the one with this number; after the last where there are not so many."""
    def change(old):
        stand = old.splitlines(keepends=True)
        stand.insert(at - 1, f"{line}\n".encode())
        return b"".join(stand)
    return change


def cut(size):
    return lambda old: old[:size]


def byte(at):
    return lambda old: old[:at] + bytes([old[at] ^ 1]) + old[at + 1:]


def indented(blank):
    return lambda old: b"".join(blank + line for line in old.splitlines(keepends=True))


CARRIAGE_RETURNS = exchanged(b"\n", b"\r\n")
MARK = before(b"\xef\xbb\xbf")


# ---- licences and files, by docs/FORMATS.md

def digest(*parts):
    return sha256(b"".join(parts)).digest()


def seal_of(body, seal_key):
    return hmac.new(seal_key, body, sha256).hexdigest()


def key_check(document_key):
    return digest(b"\4", document_key)[:16]


def root_of(file):
    return digest(b"\2", file[:64], file[-32:]).hex()


def sealed(body, seal_key=bytes(range(32))):
    return f"seal {seal_of(body, seal_key)}\n".encode() + body


def file_of(check=GOOD["my.file"][24:40], fragment=GOOD["my.file"][64:320]):
    """The example's file with another key check or another fragment: its only digest is the top."""
    header = GOOD["my.file"][:24] + check + bytes(24)
    return header + fragment + digest(b"\0", bytes(8), fragment)


def body_for(file):
    return GOOD["my.rules"].replace(root_of(GOOD["my.file"]).encode(), root_of(file).encode())


OTHER_FILE = file_of(fragment=bytes(256))
OTHER_KEY_FILE = file_of(check=key_check(bytes(16)))


def digests(folder):
    """The digests that an outcome's line can have, of the files in this folder."""
    licence, file, keys = ((folder / name).read_bytes() for name in ("my.licence", "my.file", "my.keys"))
    document_key, seal_key = (bytes.fromhex(line.split()[1]) for line in keys.decode().splitlines())
    seal, _, body = licence.partition(b"\n")
    return {
        "given": seal[5:].decode(), "sealed": seal_of(body, seal_key), "named": body.split()[3].decode(), "root": root_of(file),
        "its_check": file[24:40].hex(), "my_check": key_check(document_key).hex(), "top": file[-32:].hex(),
        "leaf": digest(b"\0", bytes(8), file[64:320]).hex(),
    }


# ---- the rows

@dataclass
class Mistake:
    name: str
    # The command line that is typed, and the files that are changed before it.
    typed: str
    files: dict
    # The outcome's number, name and fields; digests are named in braces. What is said after `acl: ` in the second line.
    outcome: str
    said: str
    # The file of which tools/why.py says more, and a piece of what it says of it.
    asked: str = ""
    why: str = ""
    # What neither says and would help.
    weak: str = ""
    # What a run without a refusal writes, and what that is called.
    written: bytes = b""
    shown: str = ""
    # The same mistake in another place, which has no row of its own in the table.
    beside: list = field(default_factory=list)


def command(name, typed, said, outcome="2 Usage", files=None, asked="", why=""):
    return Mistake(name, typed, files or {}, outcome, said, asked, why)


def in_keys(name, change, line, why):
    return Mistake(name, ENCODE, {"my.keys": change}, f"25 BadKeys line={line}", KEYS[line - 1].format("my.keys"), "my.keys", why)


def in_document(name, change, outcome, said, why):
    return Mistake(name, ENCODE, {"my.esis": change}, outcome, said, "my.esis", why)


def in_body(name, change, line, why):
    said = {1: TITLE, 2: ROOT, 3: USER}.get(line, RULE).format("my.rules")
    return Mistake(name, PREVIEW, {"my.rules": change}, f"22 BadLicence line={line}", said, "my.rules", why)


def in_licence(name, change, outcome, said, why=""):
    return Mistake(name, SHOW, {"my.licence": change}, outcome, said, "my.licence" if why else "", why)


def in_store(name, change, outcome, said):
    return Mistake(name, SHOW, {"my.file": change}, outcome, said)


def in_path(name, marked, why):
    """A path that is refused at the `^` in it, both in a rule and as a query."""
    path, at = marked.replace("^", ""), len(marked.partition("^")[0].encode())
    name = f"{name}: `{path}`" if path == path.rstrip() else name
    said = BAD_PATH if at else NO_SLASH
    asked = Mistake(f"{name}, in a query", f"acl view my.keys my.file --query {shlex.quote(path)} <my.licence", {},
                    f"26 BadQuery at={at}", said.format("the query", at, "--query P"), f"--query={path}", why)
    return Mistake(name, PREVIEW, {"my.rules": lines(4, f"+ own {path}")}, f"21 BadRule line=4 at={at}",
                   said.format("my.rules", at, "FILE"), "my.rules", why, beside=[asked])


def silent(name, rules, written, shown, asked, why, files=None):
    """Rules that are no mistake for the program: what they show isn't what was meant. Here `asked` is a tool with its words."""
    return Mistake(name, PREVIEW, {"my.rules": lines(4, *rules), **(files or {})}, "0 Done", NOTHING, asked, why, written=written,
                   shown=shown)


# What tools/why.py says of several mistakes.
RETURN = "a carriage return"
BYTE_ORDER = "begins with a byte order mark"
ONE_SPACE = "one space stands between"
AFTER_END = "nothing may follow the line 'end'"
NO_SPACE = "a space: none may stand there"
QUOTES = "a value is a text between \" or '"
TOO_EARLY = "the path ends too early"
CHECK = "check_rules.py my.rules my.esis"

MISTAKES = [
    # the command line
    command("no command", "acl", NOTHING),
    command("an unknown command", "acl show my.file", unexpected("show")),
    command("`acl --help`", "acl --help", NOTHING),
    command("`acl view --help`", "acl view --help", NOTHING),
    command("no keys", "acl encode <my.esis", missing("encode")),
    command("no store", "acl view my.keys <my.licence", missing("my.keys")),
    command("no rules", "acl preview <my.esis", missing("preview")),
    command("the document without `<`", "acl encode my.keys my.esis", unexpected("my.esis", INPUT)),
    command("the body without `<`", "acl seal my.keys my.rules", unexpected("my.rules", INPUT)),
    command("the licence without `<`", "acl view my.keys my.file my.licence", unexpected("my.licence", INPUT)),
    command("the output as an option, `-o my.file`", "acl encode my.keys -o my.file <my.esis", 
            unexpected("-o", "; the output is written to standard output: write > before its file")),
    command("`--query` before the files", "acl view --query //Admin my.keys my.file <my.licence", unexpected("my.keys", ORDER)),
    command("`--explain` before the file", "acl preview --explain my.rules <my.esis", unexpected("my.rules", ORDER)),
    command("`--query` before the command", "acl --query //Admin view my.keys my.file <my.licence", unexpected("--query", ORDER)),
    command("`--query` twice", "acl preview my.rules --query //Admin --query //Act <my.esis", unexpected("--query", ONCE)),
    command("`--query` and `--explain`", "acl preview my.rules --query //Admin --explain <my.esis", unexpected("--explain", ONCE)),
    command("`--query` without a path", "acl view my.keys my.file --query <my.licence", missing("--query")),
    command("`--query` with an empty path", "acl view my.keys my.file --query '' <my.licence", unexpected("", "; it is empty")),
    command("`explain` with `--query`", "acl explain my.keys my.file --query //Admin <my.licence", unexpected("--query")),
    command("`view` with `--explain`", "acl view my.keys my.file --explain <my.licence", 
            unexpected("--explain", "; 'acl explain' writes the explanation")),
    command("`sample` without a number", "acl sample", missing("sample")),
    command("`sample 0`", "acl sample 0", unexpected("0")),
    command("`sample 20001`", "acl sample 20001", unexpected("20001")),
    command("`sample x`", "acl sample x", unexpected("x")),

    # which file is where
    command("keys that don't exist", "acl encode no.keys <my.esis", NO_FILE.format("no.keys"), outcome="3 KeysFault"),
    command("a folder as keys", "acl encode folder <my.esis", NO_FILE.format("folder"), outcome="3 KeysFault"),
    command("keys that may not be read", "chmod 0 my.keys; " + ENCODE, NO_FILE.format("my.keys"), outcome="3 KeysFault"),
    command("rules that don't exist", "acl preview no.rules <my.esis", NO_FILE.format("no.rules"), outcome="3 KeysFault"),
    command("a store that doesn't exist", "acl view my.keys no.file <my.licence", NO_FILE.format("no.file"), outcome="34 StoreFault"),
    command("a folder as the store", "acl view my.keys folder <my.licence", NO_FILE.format("folder"), outcome="34 StoreFault"),
    command("a folder as the input", "acl encode my.keys <folder", NO_INPUT, outcome="18 SourceFault"),
    command("no input, `<&-`", "acl encode my.keys <&-", NO_INPUT, outcome="18 SourceFault"),
    command("no space on the disk", SHOW + " >/dev/full", "standard output: cannot be written", outcome="40 SinkFault"),
    command("store and keys swapped", "acl view my.file my.keys <my.licence", KEYS[0].format("my.file"), outcome="25 BadKeys line=1", asked="my.file", why="an encrypted file,"),
    command("document and keys swapped", "acl encode my.esis <my.keys", KEYS[0].format("my.esis"), outcome="25 BadKeys line=1", asked="my.esis", why="lines of a document;"),
    command("document and rules swapped", "acl preview my.esis <my.rules", TITLE.format("my.esis"), outcome="22 BadLicence line=1", asked="my.esis", why="lines of a document;"),
    command("the keys as rules", "acl preview my.keys <my.esis", TITLE.format("my.keys"), outcome="22 BadLicence line=1", asked="my.keys", why="keys;"),
    command("a sealed licence as rules", "acl preview my.licence <my.esis", TITLE.format("my.licence"), outcome="22 BadLicence line=1", asked="my.licence", why="a sealed licence;"),
    command("a licence sealed again", "acl seal my.keys <my.licence", TITLE.format("standard input"), outcome="22 BadLicence line=1", asked="my.licence", why="a sealed licence;"),
    command("a document sealed", "acl seal my.keys <my.esis", TITLE.format("standard input"), outcome="22 BadLicence line=1", asked="my.esis", why="lines of a document;"),
    command("an empty body sealed", SEAL, TITLE.format("standard input"), outcome="22 BadLicence line=1", files={"my.rules": whole(b"")}),
    command("a large document sealed", "acl seal my.keys <my.esis", "the keys or standard input: longer than 131,072 bytes",
            "17 InputTooLong limit=131072", {"my.esis": whole(LARGE)}),
    command("a body that isn't sealed, as a licence", "acl view my.keys my.file <my.rules", SEAL_LINE, outcome="22 BadLicence line=1", asked="my.rules", why="a licence body;"),
    command("a document as a licence", "acl view my.keys my.file <my.esis", SEAL_LINE, outcome="22 BadLicence line=1", asked="my.esis", why="lines of a document;"),
    command("the keys as the store", "acl view my.keys my.keys <my.licence", NO_FILE_OF_ACL.format("my.keys"), outcome="30 BadHeader", asked="my.keys", why="keys;"),
    command("a document that isn't encoded, as the store", "acl view my.keys my.esis <my.licence", NO_FILE_OF_ACL.format("my.esis"),
          outcome="30 BadHeader"),
    command("a body encoded", "acl encode my.keys <my.rules", NO_LINE, outcome="10 BadLine line=1", asked="my.rules", why="a licence body;"),
    command("a licence encoded", "acl encode my.keys <my.licence", KIND, "11 Unsupported line=1 kind=115", asked="my.licence", why="a sealed licence;"),
    command("a file encoded again", "acl encode my.keys <my.file", KIND, "11 Unsupported line=1 kind=83", asked="my.file", why="an encrypted file,"),

    # documents
    in_document("an empty document", whole(b""), "13 NoRoot", "standard input: the document has no element", "an empty file"),
    in_document("XML in place of lines", whole(GOOD["my.xml"]), "10 BadLine line=1", NO_LINE, "XML; examples/xml.sh"),
    in_document("a byte order mark before a document", MARK, "10 BadLine line=1", NO_LINE, BYTE_ORDER),
    in_document("a document with carriage returns", CARRIAGE_RETURNS, "10 BadLine line=1", NO_LINE, RETURN),
    in_document("a space after a name", lines(3, "(Admin "), "10 BadLine line=3", NO_LINE, "a space follows the name"),
    in_document("lines that are indented by tabs", lines(2, "\t(Folder"), "10 BadLine line=2", NO_LINE, "the line is indented"),
    in_document("an attribute without a type, `AId f1`", front_of(2, "AId f1"), "10 BadLine line=2", NO_LINE,
                "an attribute has a type between its name and its value"),
    in_document("a line break in a text", lines(16, "-calm", "but tired"), "10 BadLine line=17", NO_LINE,
                r"a line break in a text is written \n\012"),
    in_document("an empty line at a document's end", front_of(21, ""), "10 BadLine line=21", NO_LINE, "the line is empty"),
    in_document("a document that was cut off after line 8", cut(WHOLE.index(b")Fname")), "12 Unbalanced line=9", UNBALANCED,
                "the end of 'Fname' is missing: was the file cut off?"),
    in_document("a document that was cut off in line 9", cut(WHOLE.index(b")Fname") + 4), "12 Unbalanced line=9", UNBALANCED,
                "the element that is open is 'Fname'"),
    in_document("an end in small letters, `)ssn`", lines(6, ")ssn"), "12 Unbalanced line=6", UNBALANCED,
                "the element that is open is 'SSN'"),
    in_document("a text after the root", front_of(21, "-text"), "12 Unbalanced line=21", UNBALANCED,
                "a text stands outside of the root element"),
    in_document("two roots", lambda old: old + old, "14 SecondRoot line=21", "standard input: something follows the end of the root",
                "something follows the end of the root"),

    # keys
    in_keys("empty keys", whole(b""), 1, "an empty file"),
    in_keys("the two lines of the keys swapped", lambda old: b"".join(reversed(old.splitlines(keepends=True))), 1,
            "the line 'document' comes first"),
    in_keys("a digit of the document key missing", exchanged(b"0e0f\nseal", b"0e0\nseal"), 1, "31 digits in place of 32"),
    in_keys("a digit of the seal key missing", cut(len(GOOD["my.keys"]) - 2), 2, "63 digits in place of 64"),
    in_keys("no seal key", lines(2), 2, "the line 'seal' with 64 hexadecimal digits is missing"),
    in_keys("a line after the keys", front_of(3, "# for the ward"), 3, "nothing may follow the two lines"),
    in_keys("an empty line after the keys", front_of(3, ""), 3, "nothing may follow the two lines"),
    in_keys("digits without the word `document`", exchanged(b"document ", b""), 1, "the line begins with the word 'document'"),
    in_keys("a tab after `document`", exchanged(b"document ", b"document\t"), 1, ONE_SPACE),
    in_keys("a space at a key's end", exchanged(b"\nseal", b" \nseal"), 1, "a space ends the line"),
    in_keys("keys with carriage returns", CARRIAGE_RETURNS, 1, RETURN),
    in_keys("a byte order mark before keys", MARK, 1, BYTE_ORDER),
    Mistake("keys in capital digits", SHOW, {"my.keys": lambda old: re.sub(rb"(?<= )\w+", lambda digits: digits[0].upper(), old)},
            "0 Done", NOTHING, written=VIEW, shown="the right view"),

    # bodies
    in_body("empty rules", whole(b""), 1, "an empty file"),
    in_body("no line `licence 1`", lines(1), 1, "the first line is 'licence 1'"),
    in_body("a byte order mark before rules", MARK, 1, BYTE_ORDER),
    in_body("rules with carriage returns", CARRIAGE_RETURNS, 1, RETURN),
    in_body("rules that are indented", indented(b"    "), 1, "the line is indented"),
    in_body("a space after `licence 1`", lines(1, "licence 1 "), 1, "a space ends the line"),
    in_body("no root", lines(2), 2, "the line of the root is missing"),
    in_body("a digit of the root missing", exchanged(b"d0\n", b"d\n"), 2, "63 digits in place of 64"),
    in_body("a refusal of `encode` in place of the root", lines(2, "acl: 10 BadLine line=1"), 2, "a refusal of acl encode"),
    in_body("no user", lines(3), 3, "the line of the user is missing"),
    in_body("a user without a name", lines(3, "user "), 3, "the user has no name"),
    in_body("a rule without an id", lines(4, "+ //Admin"), 4, "the rule has no id"),
    in_body("a rule without a sign", lines(4, "own //Admin"), 4, "a rule begins with + or -"),
    in_body("two spaces after the sign", lines(4, "+  own //Admin"), 4, ONE_SPACE),
    in_body("a tab after the sign", lines(4, "+\town //Admin"), 4, ONE_SPACE),
    in_body("an id with a colon, `own:`", lines(4, "+ own: //Admin"), 4, "an id has only letters"),
    in_body("an id of 33 letters", lines(4, f"+ {33 * 'x'} //Admin"), 4, "an id of 33 bytes: it has at most 32"),
    in_body("the same id twice", front_of(5, "- own //SSN"), 5, "the id 'own' is that of the rule in line 4"),
    in_body("an empty line between rules", front_of(4, ""), 4, "the line is empty"),
    in_body("a comment between rules", front_of(4, "# her own patients"), 4, "a comment: bodies have none"),
    in_body("no `end`", lines(5), 5, "the last line 'end' is missing"),
    in_body("an empty line after `end`", front_of(6, ""), 6, AFTER_END),
    in_body("a rule after `end`", front_of(6, "- number //SSN"), 6, AFTER_END),
    Mistake("65 rules", PREVIEW, {"my.rules": lines(4, *(f"+ r{at} //Admin" for at in range(65)))}, "23 TooManyRules",
            "my.rules: more than 64 rules", "my.rules", "at most 64 rules"),
    Mistake("rules with 257 steps together", PREVIEW, {"my.rules": lines(4, "+ one /a", *(f"+ r{at} {8 * '/a'}" for at in range(32)))},
            "24 TooManyStates", STATES, "my.rules", "257 steps, and 256 are the most"),

    # paths
    in_path("a path without a slash", "^Admin/SSN", "a path begins with / or //"),
    in_path("two spaces before a path", "^ //Admin", "a space before the path: one space"),
    in_path("a slash at the end", "//Admin/^", TOO_EARLY),
    in_path("three slashes", "//^/Admin", "a third slash"),
    in_path("a space after a slash", "//^ Admin", NO_SPACE),
    in_path("a space before a predicate", "//Folder^ [Act]", NO_SPACE),
    in_path("a space at a path's end", "//Admin^ ", "a space at the end of the path"),
    in_path("a tab", "//Folder[^\tAct]", "a tab: only spaces may stand there"),
    in_path("a parent", "//SSN/^..", "parents aren't supported"),
    in_path("an attribute at the end", "//Folder/^@Id", "a path selects elements, and all their attributes with them"),
    in_path("`text()`", "//SSN/text^()", "a path selects elements, and their texts with them"),
    in_path("a position", "//Act[^1]", "positions such as [1] aren't supported"),
    in_path("a function", "//Act[contains^(Details,'calm')]", "functions aren't supported"),
    in_path("`not()`", "//Folder[not^(Act)]", "not() isn't supported"),
    in_path("`and`", "//Folder[Act ^and Admin]", "write two predicates"),
    in_path("`or`", "//Folder[Act ^or Admin]", "or isn't supported: write a rule for each"),
    in_path("two paths in one", "//Admin^|//Act", "write a rule for each of the two paths"),
    in_path("a dot alone", "//SSN[.^]", ". needs a comparison"),
    in_path("a dot and a slash", "//Folder[./^Act]", "a predicate begins with a name or with .//"),
    in_path("a number with a point", "//Act[Price>10^.5]", "numbers are whole"),
    in_path("a text without quotes", "//Folder[Act/RPhys=^Ana]", QUOTES),
    in_path("typographic quotes", "//Folder[Act/RPhys=^“Ana”]", "a typographic quote"),
    in_path("`user` in small letters", "//Folder[Act/RPhys=^user]", "the user is written USER"),
    in_path("the value before the name", "//Folder[USER=^Act/RPhys]", "the value stands after the sign"),
    in_path("two equals signs", "//Folder[Act/RPhys=^=USER]", "a second ="),
    in_path("no quote at a text's end", "//Folder[Act/RPhys='Ana]^", "the text has no ' at its end"),
    in_path("no bracket at the end", "//Folder[Act/RPhys=USER^", "the predicate has no ] at its end"),
    in_path("a carriage return at the end of a rule", "//Admin^\r", RETURN),

    # licences
    in_licence("an empty licence", whole(b""), "22 BadLicence line=1", SEAL_LINE, "an empty file"),
    in_licence("a licence with carriage returns", CARRIAGE_RETURNS, "22 BadLicence line=1", SEAL_LINE, RETURN),
    in_licence("a changed byte of a licence", exchanged(b"user Ana", b"user Ane"), "20 BadSeal given={given} made={sealed}", BAD_SEAL),
    in_licence("a licence that was sealed with other keys", whole(sealed(GOOD["my.rules"], bytes(32))),
               "20 BadSeal given={given} made={sealed}", BAD_SEAL),
    in_licence("a licence without its last line feed", cut(-1), "20 BadSeal given={given} made={sealed}", BAD_SEAL),
    in_licence("the licence of another file, or a root that isn't this file's", whole(sealed(body_for(OTHER_FILE))),
               "31 WrongRoot want={named} made={root}", WRONG_ROOT),

    # stores
    in_store("an empty store", whole(b""), "33 StoreShort at=0", ENDS),
    # The read of the top digest is at 320. It gets no byte, so that is where its bytes end.
    in_store("a store that was cut off after 300 bytes", cut(300), "33 StoreShort at=320", ENDS),
    in_store("the file of another document, or of a later edition", whole(OTHER_FILE), "31 WrongRoot want={named} made={root}",
             WRONG_ROOT),
    in_store("a changed byte of the file's first 64", byte(30), "31 WrongRoot want={named} made={root}", WRONG_ROOT),
    in_store("a changed byte after the first 64", byte(100), "35 BadFragment index=0 want={top} made={leaf}",
             "my.file: the file was changed"),
    Mistake("a file that was encoded with other keys", SHOW,
            {"my.file": whole(OTHER_KEY_FILE), "my.licence": whole(sealed(body_for(OTHER_KEY_FILE)))},
            "32 WrongKey want={its_check} made={my_check}", "my.file: encrypted with another document key"),

    # what isn't refused
    silent("a space after the user's name", ["+ own //Folder[Act/RPhys=USER]/Admin"], b"", "an empty view",
           "why.py my.rules", "a blank at the end or the beginning of the user's name", {"my.rules": lines(3, "user Ana ")}),
    silent("a name in other letters, `//FOLDER`", ["+ own //FOLDER"], b"", "an empty view", CHECK,
           "the nearest name is 'Folder'"),
    silent("an axis, `/child::Hospital`", ["+ own /child::Hospital"], b"", "an empty view", "why.py my.rules",
           "axes aren't supported"),
    silent("`USER` in quotes", ["+ own //Folder[Act/RPhys='USER']"], b"", "an empty view", "why.py my.rules",
           "USER in quotes is a text"),
    silent("a denial that selects nothing, `//Ssn`", ["+ all /Hospital", "- number //Ssn"], WHOLE, "too much", CHECK,
           "the denial 'number' selects nothing"),
    silent("a comparison of `12.50` with a number", ["+ all /Hospital", "- dear //Act[Details>10]"], WHOLE.replace(b"calm", b"12.50"),
           "too much", CHECK, "1 value, such as '12.50', is none", {"my.esis": exchanged(b"calm", b"12.50")}),
]


# ---- the trials

def can_be_made(mistake):
    """Nothing is unreadable for root, and some systems have no full device."""
    if "chmod" in mistake.typed:
        return os.geteuid() != 0
    return "/dev/full" not in mistake.typed or Path("/dev/full").exists()


class Trials:
    def __init__(self, folder, program):
        self.folder, self.count, self.wrong, self.left_out = Path(folder), 0, 0, []
        (self.folder / "bin").mkdir()
        (self.folder / "bin" / "acl").symlink_to(program)
        self.environment = {"PATH": f"{self.folder / 'bin'}:/usr/bin:/bin"}

    def made(self, mistake):
        """A folder with the files of this mistake."""
        self.count += 1
        folder = self.folder / str(self.count)
        (folder / "folder").mkdir(parents=True)
        for name, content in GOOD.items():
            change = mistake.files.get(name, lambda old: old)
            (folder / name).write_bytes(change(content))
        return folder

    def attempt(self, mistake):
        if not can_be_made(mistake):
            self.left_out.append(mistake.name)
            return
        folder = self.made(mistake)
        try:
            ended = subprocess.run(["sh", "-c", mistake.typed], cwd=folder, env=self.environment, timeout=10,
                                   stdin=subprocess.DEVNULL, stdout=subprocess.PIPE, stderr=subprocess.PIPE)
        except subprocess.TimeoutExpired:
            self.wrong += 1
            print(f"{mistake.name}: no end after 10 seconds")
            return
        wanted = mistake.outcome.format(**digests(folder)) if "{" in mistake.outcome else mistake.outcome
        number = int(wanted.split()[0])
        line, _, more = ended.stderr.decode(errors="replace").partition("\n")
        compared = [
            ("status", ended.returncode, number),
            ("standard output", ended.stdout, mistake.written),
            ("the outcome's line", line, f"acl: {wanted}" if number else ""),
            ("what is said", *self.sentence(mistake, number, more)),
        ]
        compared += self.told(mistake, folder)
        others = [f"{what} {got!r} in place of {want!r}" for what, got, want in compared if got != want]
        if others:
            self.wrong += 1
            print(f"{mistake.name}: {', '.join(others)}")

    def told(self, mistake, folder):
        """Whether a tool says the piece that it should, with a mark under the byte that `acl` names."""
        if not mistake.asked:
            return
        words = mistake.asked.split() if ".py " in mistake.asked else ["why.py", mistake.asked]
        if words[0] == "check_rules.py":
            words += ["--acl", self.folder / "bin" / "acl"]
        ended = subprocess.run([sys.executable, TOP / "tools" / words[0], *words[1:]], cwd=folder, capture_output=True, check=False)
        said = ended.stdout.decode()
        yield f"of {mistake.why!r} in what {words[0]} says", said if mistake.why not in said or ended.stderr else "", ""
        if at := re.search(r" at=(\d+)", mistake.outcome):
            column = len("    " if "--query" in mistake.asked else "    + own ") + int(at[1])
            yield "the column of the mark", [len(line) - 1 for line in said.splitlines() if line.strip() == "^"], [column]

    def sentence(self, mistake, number, more):
        """What follows the outcome's line, and what is wanted. After Usage the help page of the command must follow too."""
        wanted = f"acl: {mistake.said}\n" if mistake.said else ""
        if number != 2:
            return more, wanted
        named = (*mistake.typed.split(), "")[1]
        page = f"Usage: acl {named if named in COMMANDS else '<COMMAND>'}"
        said = "".join(line for line in more.splitlines(keepends=True) if line.startswith("acl: "))
        return said + ("" if page in more else f"without {page}"), wanted


# ---- the table

def cells(mistake):
    """The outcome without digests, and what is said after the name of a file or stream, for the table."""
    outcome = re.sub(r" \w+=\{\w+\}", "", mistake.outcome)
    if mistake.shown:
        outcome += f": {mistake.shown}"
    if mistake.outcome == "2 Usage":
        return outcome, f"{mistake.said}; the page" if mistake.said else "the page of all commands"
    return outcome, mistake.said.partition(": ")[2] or "nothing"


def table():
    """The lines of the table, by outcomes; mistakes that are answered alike share a line."""
    groups = {}
    for mistake in MISTAKES:
        groups.setdefault(cells(mistake), []).append(mistake.name)

    def rank(row):
        numbers = [int(number) for number in re.findall(r"\b\d+\b", row[0][0])]
        return numbers[0] == 0, numbers
    rows = sorted(groups.items(), key=rank)
    written = [["mistake", "outcome", "what is said"]] + [["; ".join(names), outcome, said] for (outcome, said), names in rows]
    written = ["| " + " | ".join(cell.replace("|", r"\|").replace("\t", r"\t") for cell in row) + " |" for row in written]
    return [written[0], "|---|---|---|", *written[1:]]


def page_has_table():
    """Whether the last section of the page has this table and no other."""
    _, found, section = PAGE.read_text(encoding="utf-8").partition(SECTION)
    stands = [line for line in section.splitlines() if line.startswith("|")]
    if found and "\n## " not in section and stands == table():
        return True
    print("The last section of docs/FORMATS.md hasn't the table that try_mistakes.py --table writes:")
    for line in [f"  - {line}" for line in stands if line not in table()] + [f"  + {line}" for line in table() if line not in stands]:
        print(line)
    return False


def main():
    reader = argparse.ArgumentParser(description=__doc__.partition("\n")[0])
    reader.add_argument("program", nargs="?", type=Path, default=PROGRAM, help="the built program")
    reader.add_argument("--weak", action="store_true", help="list the mistakes after which what is said doesn't help")
    reader.add_argument("--table", action="store_true", help="write the table of docs/FORMATS.md, and try nothing")
    asked = reader.parse_args()
    if asked.table:
        print("\n".join(table()))
        return 0
    if not os.access(asked.program, os.X_OK):
        print(f"there is no program {asked.program}")
        return 2
    with tempfile.TemporaryDirectory() as folder:
        trials = Trials(folder, asked.program.resolve())
        for mistake in MISTAKES:
            for one in (mistake, *mistake.beside):
                trials.attempt(one)
    if trials.left_out:
        print(f"Not tried here: {'; '.join(trials.left_out)}.")
    ended_well = page_has_table() and not trials.wrong
    if asked.weak:
        for mistake in MISTAKES:
            if mistake.weak:
                print(f"{mistake.name} ({cells(mistake)[0]}): should say {mistake.weak}")
    print(f"{len(MISTAKES)} mistakes were made in {trials.count} runs; {trials.wrong} answers were not as expected.")
    return 0 if ended_well else 1


if __name__ == "__main__":
    sys.exit(main())
