"""What kind of file some bytes are, and the first line in them that `acl` refuses, with the reason in words.

Kinds and lines are those of docs/FORMATS.md. A fault has the number of its line, or None where it isn't at a line. It
has a place where it is at a byte of that line.
"""
import re
from collections import namedtuple

from bodies import ROOT, USER
from documents import ATTRIBUTE, NAME, lines_of
from path_faults import fault_in_path, met_in_path
from path_names import TEST, steps_of
from plain_text import counted, shown

Fault = namedtuple("Fault", "line words place", defaults=(None,))

MARK = b"\xef\xbb\xbf"
MOST_RULES, MOST_STEPS, MOST_TESTS, MOST_PREDICATES = 64, 256, 256, 64
MOST_OPEN, LONGEST_NAME, MOST_ATTRIBUTES, LONGEST_ID, LONGEST_USER = 255, 255, 65_535, 32, 255
LONGEST_BODY, LONGEST_DOCUMENT = 131_072, 33_554_432
KINDS = {
    "store": "an encrypted file, which acl encode writes; view and explain take it as STORE",
    "keys": "keys; they are given as KEYS",
    "licence": "a sealed licence; view and explain read it from standard input",
    "body": "a licence body; preview takes it as RULES, and seal reads it from standard input",
    "document": "lines of a document; encode and preview read them from standard input",
    "xml": "XML; examples/xml.sh makes the lines of a document of it",
    "refusal": "a refusal of acl, and no output of it",
    "empty": "an empty file",
    "unknown": "neither keys, a licence body, a licence, a document nor an encrypted file",
}
NO_KIND = ("xml", "refusal", "empty", "unknown")
TITLE = re.compile(rb"licence 1")
SEAL = re.compile(rb"seal [0-9a-fA-F]{64}")
KEY_LINES = ((b"document", 32), (b"seal", 64))


def kind_of(data):
    """What these bytes are most likely meant to be: a key of KINDS."""
    data = data.removeprefix(MARK)
    lines = [line.strip() for line in lines_of(data)[:MOST_RULES + 6]]
    first = next((line for line in lines if line), b"")
    words = {line.split()[0] for line in lines if line}
    if not first:
        return "empty"
    if data.startswith(b"SKIPIDX1"):
        return "store"
    if first.startswith(b"<"):
        return "xml"
    if first.startswith(b"acl: "):
        return "refusal"
    if b"document" in words or re.fullmatch(rb"[0-9a-fA-F]{32}", first):
        return "keys"
    if first.startswith(b"seal"):
        return "licence" if len(lines) > 1 else "keys"
    if first.lower().startswith((b"licence", b"license", b"+ ")) or words & {b"licence", b"root", b"user", b"end"}:
        return "body"
    return "document" if first[:1] in (b"(", b"A", b"?") else "unknown"


def _around(line):
    """What is before, after or in a line of any kind that no line may have there. None if nothing."""
    if line.startswith(MARK):
        return "the file begins with a byte order mark: save it as UTF-8 without one"
    if line.endswith(b"\r"):
        return "a carriage return ends the line: lines end with a line feed alone"
    if not line:
        return "the line is empty"
    if line[:1] in b" \t":
        return "the line is indented"
    return None


def _blanks(line):
    """What is wrong with the blanks of a line whose parts have one space between them. None if nothing."""
    if line[-1:] in b" \t":
        return "a tab ends the line" if line.endswith(b"\t") else "a space ends the line"
    if b"\t" in line:
        return "a tab is in the line: one space stands between its parts"
    return "two spaces are in the line: one space stands between its parts" if b"  " in line else None


# ---- keys

def fault_of_keys(data):
    """Says nothing of the digits."""
    lines = lines_of(data)
    for number, (word, count) in enumerate(KEY_LINES, 1):
        if len(lines) < number:
            return Fault(None, f"the line '{word.decode()}' with {count} hexadecimal digits is missing")
        line = lines[number - 1]
        if not re.fullmatch(rb"%s [0-9a-fA-F]{%d}" % (word, count), line):
            return Fault(number, _of_key_line(line, word, count))
    if len(lines) > len(KEY_LINES):
        return Fault(len(KEY_LINES) + 1, "nothing may follow the two lines of the keys, "
                                         "not even an empty line or a comment")
    return None


def _of_key_line(line, word, count):
    if words := _around(line):
        return words
    other = next((other for other, _ in KEY_LINES if other != word))
    if line.startswith(other):
        return f"the line '{other.decode()}' stands there: the line 'document' comes first, then the line 'seal'"
    if not line.startswith(word):
        return f"the line begins with the word '{word.decode()}', then a space and {count} hexadecimal digits"
    if words := _blanks(line):
        return words
    digits = line[len(word):].strip()
    if re.fullmatch(rb"[0-9a-fA-F]*", digits) and line[len(word):len(word) + 1] == b" ":
        return f"{counted(len(digits), 'digit')} in place of {count}"
    return f"'{word.decode()}', a space and {count} hexadecimal digits are expected"


# ---- bodies and licences

def fault_of_licence(data):
    first, _, body = data.partition(b"\n")
    if not SEAL.fullmatch(first) or b"\n" not in data:
        words = _around(first) or _blanks(first) or "'seal', a space and 64 hexadecimal digits are expected"
        return Fault(1, words)
    found = fault_of_body(body)
    return found and found._replace(line=found.line and found.line + 1)


def fault_of_body(data):
    if len(data) > LONGEST_BODY:
        return Fault(None, f"a licence body has at most {LONGEST_BODY:,} bytes")
    lines = lines_of(data)
    for number, (form, words_for) in enumerate(((TITLE, _of_title), (ROOT, _of_root),
                                                (USER, _of_user)), 1):
        line = lines[number - 1] if len(lines) >= number else b""
        if not form.fullmatch(line):
            return Fault(number, words_for(line))
    return _fault_of_rules(lines)


def _of_title(line):
    if words := _around(line):
        return words
    return _blanks(line) if line.strip() == b"licence 1" else \
        "the first line is 'licence 1', and nothing else"


def _of_root(line):
    if line.startswith(b"acl: "):
        return ("a refusal of acl encode stands there: its line for a file is 'root' "
                "and 64 hexadecimal digits")
    if not line.strip().startswith(b"root"):
        return "the line of the root is missing: 'root' and 64 hexadecimal digits, as acl encode prints it"
    if words := _around(line) or _blanks(line):
        return words
    digits = line[5:]
    return f"{counted(len(digits), 'digit')} in place of 64" if line[4:5] == b" " and digits.isalnum() \
        and len(digits) != 64 else "'root', a space and 64 hexadecimal digits are expected"


def _of_user(line):
    if not line.strip().startswith(b"user"):
        return "the line of the user is missing: 'user', a space and a name"
    if words := _around(line):
        return words
    if not line[5:]:
        return "the user has no name"
    if len(line) > LONGEST_USER + 5:
        return f"a user's name has at most {LONGEST_USER} bytes"
    return "'user', a space and a name without control characters are expected"


def _fault_of_rules(lines):
    paths, ids = [], {}
    for number, line in enumerate(lines[3:], 4):
        if line == b"end":
            if len(lines) > number:
                return Fault(number + 1, "nothing may follow the line 'end', an empty line neither")
            return _too_many_states(paths)
        if len(paths) == MOST_RULES and line[:1] in b"+-":
            return Fault(number, f"a body has at most {MOST_RULES} rules")
        rule = re.fullmatch(rb"[+-] ([A-Za-z0-9_.-]{1,%d}) (.*)" % LONGEST_ID, line, re.S)
        if not rule:
            return Fault(number, _of_rule(line))
        name, path = rule.groups()
        if name in ids:
            return Fault(number, f"the id '{shown(name)}' is that of the rule in line {ids[name]}: "
                                 "no two rules have the same id")
        at = fault_in_path(path)
        if at is not None:
            return Fault(number, met_in_path(path, at), rule.start(2) + at)
        ids[name] = number
        paths.append(path)
    return Fault(len(lines) + 1, "the last line 'end' is missing")


def _of_rule(line):
    """What is wrong with a line that is no rule."""
    if words := _around(line):
        return words
    if line.startswith(b"#"):
        return "a comment: bodies have none"
    if line.strip() == b"end":
        return _blanks(line)
    if line[:1] not in b"+-":
        return "a rule begins with + or -; the last line is 'end'"
    after = line[1:]
    if not after.startswith(b" ") or after.startswith((b"  ", b" \t")) or b"\t" in after.split(b"/")[0]:
        return "one space stands between the sign, the id and the path, and no tab"
    name, _, path = after[1:].partition(b" ")
    if name.startswith(b"/"):
        return "the rule has no id: a name of its own stands between the sign and the path, as in '+ own //Admin'"
    if not path and re.fullmatch(rb"[A-Za-z0-9_.-]+", name):
        return "the rule has no path"
    if len(name) > LONGEST_ID:
        return f"an id of {len(name)} bytes: it has at most {LONGEST_ID}"
    return "an id has only letters of ASCII, digits, '_', '-' and '.'"


def _too_many_states(paths):
    steps = [step for path in paths for step in steps_of(path)]
    bodies = [body for _, predicates in steps for body, _, _ in predicates]
    tests = sum(not test.startswith(b"@")
                for body in bodies for test in re.findall(rb"@?%s" % TEST, body))
    for count, most, word in ((len(steps), MOST_STEPS, "step"), (tests, MOST_TESTS, "test in predicates"),
                              (len(bodies), MOST_PREDICATES, "predicate")):
        if count > most:
            words = counted(count, word, "tests in predicates" if "test" in word else None)
            return Fault(None, f"all rules together have {words}, and {most} are the most")
    return None


# ---- what is accepted and is probably not meant

def warnings_of_body(data):
    """What a body that is accepted probably doesn't mean, as faults."""
    lines = lines_of(data)
    start = 1 if lines and SEAL.fullmatch(lines[0]) else 0
    user = lines[start + 2]
    if user != user.rstrip() or user[5:] != user[5:].lstrip():
        yield Fault(start + 3, "a blank at the end or the beginning of the user's name is part of it")
    for number, line in enumerate(lines[start + 3:-1], start + 4):
        path = line.split(b" ", 2)[2]
        if b"::" in path:
            yield Fault(number, "axes aren't supported: a name with :: in it is a name", line.index(b"::"))
        for found in re.finditer(rb"(['\"])USER\1", path):
            yield Fault(number, "USER in quotes is a text, and not the user's name",
                        len(line) - len(path) + found.start())


# ---- documents

def fault_of_document(data):
    if len(data) > LONGEST_DOCUMENT:
        return Fault(None, f"a document has at most {LONGEST_DOCUMENT:,} bytes")
    around, waiting, ended, lines = [], 0, False, lines_of(data)
    for number, line in enumerate(lines, 1):
        kind, name = line[:1], line[1:]
        if words := _of_form(line, lines[number - 2:number - 1] == [b"C"]):
            return Fault(number, words)
        if kind == b"(":
            if ended or len(around) == MOST_OPEN:
                return Fault(number, "something follows the end of the root element" if ended else
                             f"more than {MOST_OPEN} elements are open")
            around.append(name)
            waiting = 0
        elif kind == b"A":
            waiting += 1
            if ended or waiting > MOST_ATTRIBUTES:
                return Fault(number, "something follows the end of the root element" if ended else
                             f"an element has at most {MOST_ATTRIBUTES:,} attributes")
        elif kind in b")-C" and (words := _of_place(kind, name, around, waiting)):
            return Fault(number, words)
        elif kind == b")":
            around.pop()
            ended = not around
    if around:
        return Fault(len(lines) + 1,
                     f"the end of '{shown(around[-1])}' is missing: was the file cut off?")
    if waiting:
        return Fault(len(lines) + 1, "attributes stand before no element")
    return None if ended else Fault(None, "there is no element")


def _of_place(kind, name, around, waiting):
    """What is wrong with an end, a text or a `C` at its place. None if nothing."""
    if waiting:
        return "attributes stand before the start of their element"
    if kind == b"C":
        return f"the end of '{shown(around[-1])}' is missing" if around else None
    if not around:
        return "a text stands outside of the root element" if kind == b"-" else "no element is open"
    if kind == b")" and name != around[-1]:
        return f"the element that is open is '{shown(around[-1])}'"
    return None


def _of_form(line, is_after_end):
    """What is wrong with the form of a document's line. None if nothing."""
    kind, name = line[:1], line[1:]
    if is_after_end:
        return "nothing may follow the line C"
    if kind and kind in b"-?L#" or line == b"C":
        return None
    if kind and kind in b"()" and re.fullmatch(NAME, name) or kind == b"A" and ATTRIBUTE.fullmatch(line):
        return None if len(re.match(NAME, name)[0]) <= LONGEST_NAME else f"a name has at most {LONGEST_NAME} bytes"
    if words := _around(line):
        return words
    if kind in b"()":
        return f"a {'space' if name.endswith(b' ') else 'tab'} follows the name" if name[-1:] in b" \t" else \
            "this is no name of an element"
    if kind == b"A":
        return "an attribute has a type between its name and its value, as in 'AId CDATA f1'"
    if kind in b"&DaNEISTspf{}ieo":
        return f"documents have no lines that begin with {kind.decode()}"
    return r"no line of a document begins like this: a line break in a text is written \n\012"


FINDERS = {"keys": fault_of_keys, "licence": fault_of_licence, "body": fault_of_body, "document": fault_of_document}


def fault_in(kind, data):
    """The first fault of a file of this kind, or None."""
    return FINDERS[kind](data) if kind in FINDERS else None
