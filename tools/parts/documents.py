"""Reads the lines of a document (docs/FORMATS.md), and finds elements by their places."""
import re

NAME = rb"[A-Za-z_:\x80-\xff][A-Za-z0-9_:.\x80-\xff-]*"
START = re.compile(rb"\((%s)" % NAME)
ATTRIBUTE = re.compile(rb"A(%s) ([A-Z]+)(?: (.*))?" % NAME, re.S)
PLACE = re.compile(r"/|(?:/[1-9][0-9]*)+")
# A line break, a backslash, and a byte by its three octal digits, as onsgmls writes them.
ESCAPE = re.compile(rb"\\n\\012|\\n|\\\\|\\([0-3][0-7]{2})")


class BadDocument(Exception):
    """Lines that are not a document."""


def unescaped(text):
    """A text or a value with the escapes of onsgmls replaced by what they mean."""
    def byte_of(found):
        if found[1]:
            return bytes([int(found[1], 8)])
        return b"\\" if found[0] == b"\\\\" else b"\n"
    return ESCAPE.sub(byte_of, text) if b"\\" in text else text


def lines_of(data):
    """The lines of these bytes. What follows the last line feed is a line if it isn't empty."""
    lines = data.split(b"\n")
    if lines[-1] == b"":
        lines.pop()
    return lines


class Document:
    """A document as lists with an entry for each element, in document order. Element 0 is the root.

    names       the element's name
    parents     its parent; -1 for the root
    ends        the first element after it that isn't inside it
    attributes  its attributes as (name, type, value); only elements that have some are in this map
    texts       each text of the document with its element, in document order
    first_texts, last_texts   where the texts inside the element begin and end in `texts`
    """

    def __init__(self, data):
        self.lines = lines_of(data)
        self.names, self.parents, self.ends, self.attributes = [], [], [], {}
        self.texts, self.first_texts, self.last_texts = [], [], []
        self._children = None
        self._read()

    def _read(self):
        waiting, around = [], []
        for number, line in enumerate(self.lines, 1):
            kind = line[:1]
            if kind == b"(" and START.fullmatch(line) and (around or not self.names):
                self._start(line[1:], around, waiting)
                waiting = []
            elif kind == b")" and around and not waiting and self.names[around[-1]] == line[1:]:
                ended = around.pop()
                self.ends[ended] = len(self.names)
                self.last_texts[ended] = len(self.texts)
            elif kind == b"-" and around and not waiting:
                self.texts.append((around[-1], line[1:]))
            elif kind == b"A" and (found := ATTRIBUTE.fullmatch(line)):
                waiting.append((found[1], found[2], found[3] or b""))
            elif kind not in (b"?", b"L", b"#") and line != b"C":
                raise BadDocument(f"line {number} is not a line of a document")
        if around or waiting or not self.names:
            raise BadDocument("the end of an element is missing" if self.names else
                              "there is no element")

    def _start(self, name, around, waiting):
        element = len(self.names)
        if waiting:
            self.attributes[element] = waiting
        self.parents.append(around[-1] if around else -1)
        self.names.append(name)
        self.ends.append(0)
        self.first_texts.append(len(self.texts))
        self.last_texts.append(0)
        around.append(element)

    def __len__(self):
        return len(self.names)

    def children(self, element):
        """The element children of an element."""
        if self._children is None:
            self._children = [[] for _ in self.names]
            for child, parent in enumerate(self.parents[1:], 1):
                self._children[parent].append(child)
        return self._children[element]

    def element_at(self, place):
        """The element at a place such as `/1/2`, or None."""
        if not PLACE.fullmatch(place):
            return None
        element = 0
        for number in place.split("/")[1:] if place != "/" else []:
            children = self.children(element)
            if int(number) > len(children):
                return None
            element = children[int(number) - 1]
        return element

    def value(self, element, most):
        """The text inside an element (XPath 1.0, 5.2), or None if it has more bytes than `most`."""
        joined = b""
        for _, text in self.texts[self.first_texts[element]:self.last_texts[element]]:
            joined += text
            if len(joined) > most:
                return None
        return joined
