#!/usr/bin/env python3
"""Writes the namespaces that the lines of a document declare: namespaces.py <FILE.esis >FILE.namespaces

Each line is a prefix, or `-` for the default namespace, then a space and the URI. The status is 65 if a prefix has two
meanings, or if a prefix is used where it isn't declared. Then standard error says which, and nothing is written.
"""
import sys
from collections import Counter

from plain_text import shown


class BadNamespaces(Exception):
    """A prefix that has two meanings, or none where it is used."""


class Declarations:
    """The URI of each prefix that was declared so far. The prefix b"" is the default namespace; the URI b"" is no namespace."""

    def __init__(self):
        self.uris = {}
        # How many open elements declare a prefix. `xml` needs no declaration (Namespaces in XML 1.0, section 3).
        self.around = Counter([b"xml"])

    def mean(self, prefix, uri):
        known = self.uris.setdefault(prefix, uri)
        if known != uri:
            name = f"the prefix '{shown(prefix)}'" if prefix else "the default namespace"
            one, other = (f"'{shown(each)}'" if each else "none" for each in (known, uri))
            raise BadNamespaces(f"{name} has two meanings: {one} and {other}")

    def start(self, name, declared, prefixes):
        """Begins an element, given what it declares and the prefixes of its attributes."""
        for prefix, uri in declared.items():
            self.mean(prefix, uri)
        self.around.update(list(declared))
        prefix = name.rpartition(b":")[0]
        if not prefix:
            self.mean(b"", self.uris[b""] if self.around[b""] else b"")
        for used in filter(None, [prefix, *prefixes]):
            if not self.around[used]:
                raise BadNamespaces(f"the prefix '{shown(used)}' is declared nowhere around '{shown(name)}'")


def namespaces_of(lines):
    """The prefixes that a document declares, with their URIs."""
    found, open_elements, declared, prefixes = Declarations(), [], {}, []
    for line in lines:
        kind, rest = line[:1], line[1:].rstrip(b"\n")
        if kind == b"A":
            name, _, value = (rest.split(b" ", 2) + [b""])[:3]
            prefix, _, local = name.rpartition(b":")
            if prefix == b"xmlns" or name == b"xmlns":
                declared[local if prefix else b""] = value
            else:
                prefixes.append(prefix)
        elif kind == b"(":
            declared.pop(b"xml", None)
            found.start(rest, declared, prefixes)
            open_elements.append(list(declared))
            declared, prefixes = {}, []
        elif kind == b")":
            found.around.subtract(open_elements.pop())
    return {prefix: uri for prefix, uri in found.uris.items() if uri}


def main():
    try:
        namespaces = namespaces_of(sys.stdin.buffer)
    except BadNamespaces as fault:
        print(fault, file=sys.stderr)
        sys.exit(65)
    for prefix, uri in sorted(namespaces.items()):
        sys.stdout.buffer.write(b"%s %s\n" % (prefix or b"-", uri))


if __name__ == "__main__":
    main()
