#!/usr/bin/env python3
"""Says what a file is, and shows the first line in it that `acl` refuses, with what is wrong there.

    tools/why.py FILE..          keys, a licence body, a licence, or the lines of a document
    tools/why.py --query PATH    a path as in `--query`

It shows the line, a mark under the byte, and the reason in words. Of keys it shows no line. It warns of what `acl`
accepts and is probably not meant, such as USER in quotes. It needs no key, so it doesn't check seals or digests.

Status 0: nothing is wrong with the form of each. 1: something is. 2: a file can't be read.
"""
import os
import sys

# Import from parts/, and not from this folder: Python would take inspect.py for its own module.
sys.path[0] = os.path.join(os.path.dirname(os.path.abspath(__file__)), "parts")

import argparse
from pathlib import Path

from documents import lines_of
from line_faults import KINDS, NO_KIND, fault_in, kind_of, warnings_of_body
from path_faults import fault_in_path, met_in_path
from plain_text import fault_of, shown, write_out

BEFORE, AFTER = 60, 40


def marked(line, place):
    """A line with a mark under this byte. Of a long line only what is near it."""
    before, rest = shown(line[:place]), shown(line[place:])
    cut = before if len(before) <= BEFORE else "..." + before[-BEFORE:]
    return [f"    {cut}{rest if len(rest) <= AFTER else rest[:AFTER] + '...'}", f"    {' ' * len(cut)}^"]


def unmarked(line):
    text = shown(line)
    return f"    {text if len(text) <= BEFORE + AFTER else text[:BEFORE + AFTER] + '...'}"


def lines_about(name, kind, data, fault, word=""):
    """The report on one fault: the file and line, what is wrong, and the line."""
    at = f":{fault.line}" if fault.line else ""
    yield f"{name}{at}: {word}{fault.words}"
    lines = lines_of(data)
    if fault.line is None or fault.line > len(lines) or kind == "keys":
        return
    line = lines[fault.line - 1]
    if fault.place is not None:
        yield from marked(line, fault.place)
    elif line:
        yield unmarked(line)


def of_file(name, data):
    """The report on a file, and whether something is wrong."""
    kind, name = kind_of(data), shown(name)
    report = [f"{name}: {KINDS[kind]}"]
    if kind in NO_KIND:
        return report, True
    fault = fault_in(kind, data)
    if fault:
        return report + list(lines_about(name, kind, data, fault)), True
    if kind in ("body", "licence"):
        for fault in warnings_of_body(data):
            report += lines_about(name, kind, data, fault, "warning: ")
    return report, False


def of_query(path):
    """The report on a path, and whether something is wrong."""
    at = fault_in_path(path)
    if at is None:
        return ["the query: nothing is wrong with its form"], False
    return [f"the query: {met_in_path(path, at)}", *marked(path, at)], True


def main():
    parser = argparse.ArgumentParser(description=__doc__.split("\n\n")[0])
    parser.add_argument("files", metavar="FILE", nargs="*",
                        help="keys, a licence body, a licence, or a document's lines")
    parser.add_argument("--query", metavar="PATH", help="a path as in the option --query of acl")
    parser.add_argument("--name", metavar="NAME", help="the name that the report has for FILE")
    asked = parser.parse_args()
    if not asked.files and asked.query is None:
        parser.error("a FILE or --query PATH is missing")
    try:
        reports = [of_file(asked.name or name, Path(name).read_bytes()) for name in asked.files]
        if asked.query is not None:
            reports.append(of_query(os.fsencode(asked.query)))
        write_out("".join(f"{line}\n" for lines, _ in reports for line in lines))
    except OSError as fault:
        print(f"why.py: {fault_of(fault)}", file=sys.stderr)
        return 2
    return 1 if any(is_wrong for _, is_wrong in reports) else 0


if __name__ == "__main__":
    sys.exit(main())
