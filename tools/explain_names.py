#!/usr/bin/env python3
"""Adds names to the places of an explanation:
acl preview RULES --explain <DOCUMENT.esis | tools/explain_names.py DOCUMENT.esis

Each line gets the path of its element by names: `- admin /1/1 /Hospital/Folder/Admin`. A name gets
a number such as [2] where a parent has several children of that name. The number counts these
children, as in XPath.

Status 0: each line has its names. 1: a line isn't of an explanation, or the document has no element
at its place; nothing is written. 2: a file can't be read.
"""
import os
import sys

# Import from parts/, and not from this folder: Python would take inspect.py for its own module.
sys.path[0] = os.path.join(os.path.dirname(os.path.abspath(__file__)), "parts")

import argparse
import re
from collections import Counter
from pathlib import Path

from documents import BadDocument, Document
from plain_text import fault_of, shown, write_out

LINE = re.compile(r"[+-] [A-Za-z0-9_.-]{1,32} (/|(?:/[1-9][0-9]*)+)")


class Unnamed(Exception):
    """A line that no names can be added to."""


class Paths:
    """The paths of a document's elements by names."""

    def __init__(self, document):
        self._document = document
        self._steps = {}

    def _name_children(self, element):
        """The last step of the path of each child: its name, and its number where it needs one."""
        names = [self._document.names[child] for child in self._document.children(element)]
        counts, seen = Counter(names), Counter()
        for child, name in zip(self._document.children(element), names):
            seen[name] += 1
            self._steps[child] = shown(name) + (f"[{seen[name]}]" if counts[name] > 1 else "")

    def of(self, element):
        """The path of an element, such as `/ward/patient[1]/birth`."""
        steps = []
        while element > 0:
            if element not in self._steps:
                self._name_children(self._document.parents[element])
            steps.append(self._steps[element])
            element = self._document.parents[element]
        return "/" + "/".join([shown(self._document.names[0]), *reversed(steps)])


def named(lines, document):
    """The lines, each followed by the path of its element by names."""
    paths = Paths(document)
    for number, line in enumerate(lines, 1):
        found = LINE.fullmatch(line)
        if not found:
            raise Unnamed(f"line {number} is not a line of an explanation")
        element = document.element_at(found[1])
        if element is None:
            raise Unnamed(f"line {number}: the document has no element {found[1]}")
        yield f"{line} {paths.of(element)}\n"


def main():
    parser = argparse.ArgumentParser(
        description="Adds names to the places of an explanation on standard input.")
    parser.add_argument("document", metavar="DOCUMENT.esis", help="the document's lines")
    name = parser.parse_args().document
    try:
        document = Document(Path(name).read_bytes())
        given = sys.stdin.buffer.read().decode("utf-8", "backslashreplace")
        text = "".join(named(given.removesuffix("\n").split("\n") if given else [], document))
        write_out(text)
    except OSError as fault:
        print(f"explain_names.py: {fault_of(fault)}", file=sys.stderr)
        return 2
    except (BadDocument, Unnamed) as fault:
        place = shown(name) if isinstance(fault, BadDocument) else "standard input"
        print(f"explain_names.py: {place}: {fault}", file=sys.stderr)
        return 1
    return 0


if __name__ == "__main__":
    sys.exit(main())
