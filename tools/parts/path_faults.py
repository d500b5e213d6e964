"""Where a path is refused (docs/FORMATS.md), and what is there."""
import re

from documents import NAME

LONGEST_PATH, LONGEST_NAME, LONGEST_LITERAL, MOST_DIGITS = 1024, 255, 255, 18
SIGN = re.compile(rb"!=|<=|>=|=|<|>")
TYPOGRAPHIC = tuple(quote.encode() for quote in "\u2018\u2019\u201a\u201c\u201d\u201e\u00ab\u00bb")


class _Refused(Exception):
    """The path is refused at byte `at`."""

    def __init__(self, at):
        super().__init__(f"byte {at}")
        self.at = at


class _Reader:
    """Reads a path by the grammar of docs/FORMATS.md."""

    def __init__(self, path):
        self.path, self.at = path, 0

    def next_is(self, piece):
        """Whether this piece is next; it is read if so."""
        found = self.path.startswith(piece, self.at)
        self.at += len(piece) if found else 0
        return found

    def need(self, piece):
        """Reads this piece, byte by byte."""
        for byte in piece:
            if not self.next_is(bytes([byte])):
                raise _Refused(self.at)

    def spaces(self):
        while self.next_is(b" "):
            pass

    def name(self):
        found = re.compile(NAME).match(self.path, self.at)
        if not found:
            raise _Refused(self.at)
        self.at = min(found.end(), self.at + LONGEST_NAME)

    def test(self):
        if not self.next_is(b"*"):
            self.name()

    def steps(self):
        self.need(b"/")
        while True:
            self.next_is(b"/")
            self.test()
            while self.next_is(b"["):
                self.predicate()
            if self.at == len(self.path):
                return
            self.need(b"/")

    def predicate(self):
        self.spaces()
        needs_sign = self.body()
        self.spaces()
        if not needs_sign and self.next_is(b"]"):
            return
        if sign := SIGN.match(self.path, self.at):
            self.at = sign.end()
        else:
            # a `!` alone begins a sign
            raise _Refused(self.at + self.path.startswith(b"!", self.at))
        self.spaces()
        self.operand()
        self.spaces()
        self.need(b"]")

    def body(self):
        """What is compared. Returns whether it needs a comparison."""
        if self.next_is(b"@"):
            self.name()
            return False
        if self.next_is(b"."):
            if not self.next_is(b"/"):
                return True
            self.need(b"/")
        self.test()
        while self.next_is(b"/"):
            if self.next_is(b"@"):
                self.name()
                break
            self.next_is(b"/")
            self.test()
        return False

    def operand(self):
        for quote in (b'"', b"'"):
            if self.next_is(quote):
                self.literal(quote)
                return
        if self.path.startswith(b"U", self.at):
            self.need(b"USER")
            return
        self.next_is(b"-")
        digits = re.compile(rb"[0-9]{1,%d}" % MOST_DIGITS).match(self.path, self.at)
        if not digits:
            raise _Refused(self.at)
        self.at = digits.end()

    def literal(self, quote):
        most = self.at + LONGEST_LITERAL
        end = self.path.find(quote, self.at)
        self.at = min(most, len(self.path) if end < 0 else end)
        self.need(quote)


def fault_in_path(path):
    """The byte offset at which this path is refused, or None if `acl` accepts it."""
    reader = _Reader(path)
    try:
        reader.steps()
    except _Refused as fault:
        return min(fault.at, LONGEST_PATH)
    return LONGEST_PATH if len(path) > LONGEST_PATH else None


def _open_parts(before):
    """Whether a predicate is open after these bytes, and the quote of an open literal or None."""
    brackets, quote = 0, None
    for byte in before:
        if quote is not None:
            quote = None if byte == quote else quote
        elif byte in b"\"'":
            quote = byte
        else:
            brackets += (byte == ord("[")) - (byte == ord("]"))
    return brackets > 0, quote


FUNCTIONS = {
    b"text": "text() isn't supported: a path selects elements, and their texts with them",
    b"node": "node() isn't supported: * passes every element",
    b"not": "not() isn't supported: deny by a rule that begins with '-' what it should leave out",
    b"position": "positions aren't supported",
    b"last": "positions aren't supported",
}


def _at_end(before, in_predicate, quote):
    if quote is not None:
        return f"the text has no {chr(quote)} at its end"
    if re.search(rb"[=<>] *$", before):
        return "a value is missing after the sign"
    if in_predicate and not before.endswith((b"/", b"[", b"@")):
        return "the predicate has no ] at its end"
    return "the path ends too early: a name is missing" if before.endswith((b"/", b"@")) else "the path ends too early"


def _at_white_space(before, rest, in_predicate):
    if rest.startswith(b"\r"):
        return "a carriage return: lines end with a line feed alone"
    word = "tab" if rest.startswith(b"\t") else "space"
    if not rest.strip():
        return f"a {word} at the end of the path"
    if not before:
        return f"a {word} before the path: one space stands between the id and the path"
    if word == "space" or not in_predicate:
        return f"a {word}: none may stand there"
    return "a tab: only spaces may stand there"


def _after_sign(before, rest):
    """What is there in place of a value."""
    if rest.startswith(b"="):
        return "a second =: equality is a single ="
    if rest[:4].lower() == b"user":
        return "the user is written USER, in capitals"
    if rest.startswith(b"$"):
        return "variables aren't supported: the user is written USER"
    if re.search(rb"\[ *(?:USER|-?[0-9]+) *(?:!=|<=|>=|=|<|>) *$", before):
        return "a name: the value stands after the sign, as in [Act/RPhys=USER]"
    if rest.startswith((b".", b"+")) and rest[1:2].isdigit():
        return "numbers are whole: digits, and a - may stand before them"
    return "a value is a text between \" or ', a whole number, or USER"


def _by_byte(before, rest, in_predicate):
    """What a single byte that stands there means. None where there is no more to say than that."""
    first = rest[:1]
    if first == b"|":
        return "unions aren't supported: write a rule for each of the two paths"
    if first == b"@" and not in_predicate:
        return "an attribute: a path selects elements, and all their attributes with them"
    if first == b"/" and before.endswith(b"//"):
        return "a third slash: a step begins with / or //"
    if first == b"[" and in_predicate:
        return "a predicate can't have another one in it"
    if first in (b"'", b'"') and re.search(rb"\[ *$", before):
        return "a text: the value stands after the sign, as in [Act/RPhys='Ana']"
    if first in (b"+", b"*", b"-") and in_predicate:
        return "arithmetic isn't supported"
    if first == b"." and before[-1:].isdigit():
        return "numbers are whole: neither 10.5 nor 10,5 is supported"
    return None


def _in_predicate(before, rest):
    """What is met in a predicate, where it isn't a value. None where it is nothing known."""
    for word, words in ((b"and", "and isn't supported: write two predicates, as in //a[b][c]"),
                        (b"or", "or isn't supported: write a rule for each of the two"),
                        (b"div", "arithmetic isn't supported"), (b"mod", "arithmetic isn't supported")):
        if re.match(rb"%s\b" % word, rest) and before.endswith((b" ", b"]", b'"', b"'")):
            return words
    if re.search(rb"\[ *$", before) and rest[:1].isdigit():
        return "positions such as [1] aren't supported"
    if re.search(rb"\[ *\. *$", before) and not rest.startswith(b"."):
        return "[.] alone isn't supported: . needs a comparison, as in [.='x']"
    if re.search(rb"\[ *\./$", before):
        return "a predicate begins with a name or with .//, not with ./"
    if re.search(rb"[=<>] *$", before):
        return _after_sign(before, rest)
    if before.endswith(b"!"):
        return "a ! stands only before =, as in !="
    return None


def met_in_path(path, at):
    """What is at byte `at` of a path that is refused there, in words."""
    before, rest = path[:at], path[at:]
    in_predicate, quote = _open_parts(before)
    if at >= LONGEST_PATH:
        return f"a path has at most {LONGEST_PATH:,} bytes"
    if not rest:
        return _at_end(before, in_predicate, quote) if before else "the path is missing"
    if quote is not None:
        return f"a text has at most {LONGEST_LITERAL} bytes between its quotes"
    if rest[:1] in b" \t\r":
        return _at_white_space(before, rest, in_predicate)
    if not before:
        return "a path begins with / or //"
    if rest.startswith(TYPOGRAPHIC):
        return "a typographic quote: a text stands between \" or '"
    if rest.startswith(b"("):
        called = re.search(rb"%s$" % NAME, before)
        other = "functions aren't supported"
        return FUNCTIONS.get(called[0], other) if called else other
    if rest.startswith(b"..") or (rest.startswith(b".") and re.search(rb"\[ *\.$|/\.$", before)):
        return "parents aren't supported: a path only goes down"
    if before.endswith(b"::"):
        return "axes aren't supported"
    if in_predicate and (words := _in_predicate(before, rest)):
        return words
    return _by_byte(before, rest, in_predicate) or "this can't stand there"
