#!/usr/bin/env python3
"""Writes the lines of a document or a view as XML: examples/to_xml.py [--namespaces FILE] [NAME] <FILE.out >FILE.xml

An element that is kept only for what is inside it has the name `-`, which is no name in XML. It gets the name `hidden`,
or NAME. Instructions (`?` lines) are left out.

A view lacks the namespaces that are declared by elements which it doesn't show. FILE has those of the document, as
examples/xml.sh writes them. The outermost element declares those that the view uses: a prefix in a name, a prefix that
is followed by a colon in a text or a value, and the default namespace where an element without a prefix is shown.

Status 1: the lines are not those of a document or a view, FILE is of another document, or nothing is shown. Nothing is
written then. 2: the arguments are not as above, or FILE can't be read.
"""
import argparse
import os
import re
import sys

NAME = re.compile(rb"[A-Za-z_:\x80-\xff][A-Za-z0-9_:.\x80-\xff-]*")
# A line of a file of namespaces: a prefix, or `-` for the default namespace, and a URI.
DECLARATION = re.compile(rb"(-|[A-Za-z_\x80-\xff][A-Za-z0-9_.\x80-\xff-]*) ([!-~]+)\n")
# A table that replaces each byte that is neither part of a name nor a colon by a space.
NAMES_ALONE = bytes(byte if byte >= 0x80 or chr(byte).isalnum() or byte in b"_.-:" else 0x20 for byte in range(256))
XML, XMLNS = b"http://www.w3.org/XML/1998/namespace", b"http://www.w3.org/2000/xmlns/"
# A line break, a backslash, and a byte by its three octal digits, as onsgmls writes them.
ESCAPE = re.compile(rb"\\n\\012|\\n|\\\\|\\([0-3][0-7]{2})")
MARKUP = {b"&": b"&amp;", b"<": b"&lt;", b">": b"&gt;", b"\r": b"&#13;"}
IN_VALUES = {**MARKUP, b'"': b"&quot;", b"\n": b"&#10;", b"\t": b"&#9;"}


def plain(text):
    """A text or a value with the escapes of onsgmls replaced by what they mean."""
    return ESCAPE.sub(lambda found: bytes([int(found[1], 8)]) if found[1] else b"\\" if found[0] == b"\\\\" else b"\n", text)


def escaped(text, table):
    """A text with its bytes replaced as the table says."""
    return b"".join(table.get(byte, byte) for byte in (text[i:i + 1] for i in range(len(text))))


def fail(what):
    sys.exit(f"to_xml.py: {what}")


def text_of(name):
    return ascii(name.decode("utf-8", "backslashreplace"))


def namespaces_in(lines):
    """The URI of each prefix, from the lines of FILE. The prefix b"" is the default namespace. No line is trusted.

    `xml` has its URI even where it isn't declared, and no other prefix has it. Neither `xmlns` nor its URI is ever
    declared (Namespaces in XML 1.0, section 3).
    """
    found = {b"xml": XML}
    for number, line in enumerate(lines, 1):
        declared = DECLARATION.fullmatch(line)
        prefix, uri = declared.groups() if declared else (b"xmlns", b"")
        if prefix == b"xmlns" or uri == XMLNS or (prefix == b"xml") != (uri == XML):
            fail(f"line {number} of the namespaces is not a declaration")
        if found.setdefault(b"" if prefix == b"-" else prefix, uri) != uri:
            fail(f"line {number} of the namespaces gives {text_of(prefix)} another meaning")
    return found


def declarations_for(lines, namespaces, hidden):
    """The declarations that the outermost element lacks, as attributes of XML."""
    used, words, at_root, started = {hidden.rpartition(b":")[0]} - {b""}, set(), {b"xml"}, False
    for kind, rest in ((line[:1], line[1:]) for line in lines):
        text = rest if kind == b"-" else b""
        if kind == b"(":
            started = True
            if rest != b"-":
                used.add(rest.rpartition(b":")[0])
        elif kind == b"A":
            name, given, text = (rest.split(b" ", 2) + [b"", b""])[:3]
            if given == b"IMPLIED":
                continue
            prefix, _, local = name.rpartition(b":")
            if prefix == b"xmlns" or name == b"xmlns":
                declared = local if prefix else b""
                if namespaces.get(declared, b"") != plain(text):
                    fail(f"the namespaces are of another document: here {text_of(name)} has another meaning")
                if not started:
                    at_root.add(declared)
            elif prefix:
                used.add(prefix)
        if b":" in text:
            before_colons = plain(text).translate(NAMES_ALONE).split(b":")[:-1]
            words.update(before.rpartition(b" ")[2] for before in before_colons)
    for prefix in sorted(used - namespaces.keys() - {b""}):
        fail(f"the namespaces are of another document: they lack the prefix {text_of(prefix)}")
    return [b' %s="%s"' % (b"xmlns:" + prefix if prefix else b"xmlns", escaped(namespaces[prefix], IN_VALUES))
            for prefix in sorted((used | words - {b""}) & namespaces.keys() - at_root)]


def xml_of(lines, hidden, declarations):
    """The XML, with the name `hidden` in place of `-`, and the declarations at the outermost element."""
    made, waiting, open_names = [], declarations, []
    for number, line in enumerate(lines, 1):
        kind, rest = line[:1], line[1:]
        name = hidden if rest == b"-" else rest
        if kind in (b"(", b")") and not NAME.fullmatch(name):
            fail(f"line {number} has no valid XML name")
        if kind == b"A":
            parts = rest.split(b" ", 2)
            if len(parts) < 2 or not NAME.fullmatch(parts[0]):
                fail(f"line {number} is not an attribute")
            if parts[1] != b"IMPLIED":
                value = escaped(plain(parts[2] if len(parts) > 2 else b""), IN_VALUES)
                waiting.append(b' %s="%s"' % (parts[0], value))
        elif kind == b"(":
            made.append(b"<%s%s>" % (name, b"".join(waiting)))
            waiting = []
            open_names.append(name)
        elif kind == b")" and open_names and open_names.pop() == name:
            made.append(b"</%s>" % name)
        elif kind == b"-" and open_names:
            made.append(escaped(plain(rest), MARKUP))
        elif kind not in (b"?", b"L", b"#", b"C"):
            fail(f"line {number} is not a line of a document or a view")
    if open_names or not made:
        fail("nothing is shown" if not made else "the end is missing")
    return b"".join(made) + b"\n"


def main():
    words = argparse.ArgumentParser(usage="examples/to_xml.py [--namespaces FILE] [NAME] <FILE.out >FILE.xml")
    words.add_argument("--namespaces")
    words.add_argument("name", nargs="?", default="hidden", type=os.fsencode)
    given = words.parse_args()
    if not NAME.fullmatch(given.name) or b"." in given.name:
        words.error("NAME is not an XML name without dots")
    lines = sys.stdin.buffer.read().split(b"\n")
    lines = lines[:-1] if lines[-1] == b"" else lines
    declarations = []
    if given.namespaces is not None:
        try:
            with open(given.namespaces, "rb") as file:
                namespaces = namespaces_in(file)
        except OSError as fault:
            words.error(f"{given.namespaces}: {fault.strerror}")
        declarations = declarations_for(lines, namespaces, given.name)
    sys.stdout.buffer.write(xml_of(lines, given.name, declarations))


main()
