#!/usr/bin/env python3
"""Writes a page that shows who sees what: tools/picture.py DOCUMENT.esis BODY.rules.. -o FILE.html

The page is one HTML file, which needs no other. It has the document's tree with a column for each
licence body. The colour of an element shows what that reader sees of it; point at it to see the
rule that decides. Above the tree are possible mistakes: rules that select nothing or decide
nowhere, and names in paths that the document doesn't have. The page is for whoever writes the
rules, not for readers, since it contains the whole document.

Status 0: the page is written. 2: a file can't be read or written, or acl refuses it.
"""
import os
import sys

# Import from parts/, and not from this folder: Python would take inspect.py for its own module.
PARTS = os.path.join(os.path.dirname(os.path.abspath(__file__)), "parts")
sys.path[0] = PARTS

import argparse
import html
import json
from pathlib import Path

from acl_program import Previews, Refused, found_program
from documents import BadDocument, Document, unescaped
from findings import Names, Quoted, nothing_selected, nowhere_decided, unknown_names
from plain_text import fault_of, shown, write_out
from rule_facts import Facts, Unfitting

# The greatest number of characters of a text or a value in the page.
LONGEST = 160


def short(text):
    """A text or a value for the page: without escapes, in one line, and cut if it is too long."""
    plain = " ".join(unescaped(text[:4 * LONGEST]).decode("utf-8", "replace").split())
    return shown(plain if len(plain) <= LONGEST else plain[:LONGEST] + "…")


def findings_of(facts, names):
    """The possible mistakes in one body: those of rules first, and then those of names."""
    decided, found = facts.decides(), []
    for number, rule in enumerate(facts.body.rules):
        if decided[number] == 0:
            selected = facts.selects(number)
            found.append(nowhere_decided(rule, selected) if selected else nothing_selected(rule))
    found.sort(key=lambda finding: finding.rule.sign == "+")
    for rule in facts.body.rules:
        found += unknown_names(rule, names)
    return found


def rules_of(facts):
    """The rules of a body for the page: sign, id, path, line, how many elements it decides."""
    return [[rule.sign, shown(rule.id), shown(rule.path), rule.line, decides]
            for rule, decides in zip(facts.body.rules, facts.decides())]


def reader_of(name, facts, names):
    """The data of one reader for the page."""
    at = [number for element, rule in facts.rule_at.items()
          for number in (element, -1 if rule is None else rule)]
    findings = [{"line": finding.rule.line, "denial": finding.rule.sign == "-",
                 "pieces": [[int(isinstance(piece, Quoted)), piece]
                            for piece in finding.sentence]}
                for finding in findings_of(facts, names)]
    return {"file": shown(os.path.basename(name)), "user": shown(facts.body.user),
            "rules": rules_of(facts), "states": facts.states, "at": at,
            "counts": facts.counts(), "findings": findings}


def tree_of(document):
    """The document for the page: for each element its name, how many elements are inside it, its
    texts and its attributes."""
    numbers = {name: number for number, name in enumerate(dict.fromkeys(document.names))}
    texts = {}
    for element, text in document.texts:
        if shorter := short(text):
            texts.setdefault(element, []).append(shorter)
    return {
        "names": [shown(name) for name in numbers],
        "name": [numbers[name] for name in document.names],
        "inside": [end - element - 1 for element, end in enumerate(document.ends)],
        "texts": {element: " … ".join(own)[:2 * LONGEST] for element, own in texts.items()},
        "attributes": {element: [[shown(name), short(value)]
                                 for name, kind, value in own if kind != b"IMPLIED"]
                       for element, own in document.attributes.items()},
    }


def page(document_name, document, readers):
    """The page's text."""
    title = shown(os.path.basename(document_name))
    data = json.dumps({"document": title, **tree_of(document), "readers": readers},
                      ensure_ascii=False, separators=(",", ":"))
    template = Path(PARTS, "picture.html").read_text(encoding="utf-8")
    before, _, after = template.partition("{{data}}")
    return (before.replace("{{title}}", html.escape(title))
            + data.replace("<", "\\u003c") + after)


def made(arguments):
    """The page for these files."""
    data = Path(arguments.document).read_bytes()
    bodies = [(name, Path(name).read_bytes()) for name in arguments.bodies]
    previews = Previews(found_program(arguments.acl), data, arguments.document)
    # `acl` reads the document first, so that a refusal has its message.
    previews.view(bodies[0][1], bodies[0][0])
    document = Document(data)
    names = Names(document)
    readers = [reader_of(name, Facts(previews, document, body, name), names)
               for name, body in bodies]
    return page(arguments.document, document, readers)


def main():
    parser = argparse.ArgumentParser(
        description="Writes a page that shows which reader sees which elements, and why.")
    parser.add_argument("document", metavar="DOCUMENT.esis", help="the document's lines")
    parser.add_argument("bodies", metavar="BODY.rules", nargs="+",
                        help="a licence body; each gets a column")
    parser.add_argument("-o", metavar="FILE.html", dest="output",
                        help="where the page goes, in place of standard output")
    parser.add_argument("--acl", metavar="PROGRAM", help="the program acl, if not on the path")
    arguments = parser.parse_args()
    try:
        text = made(arguments)
        if arguments.output:
            Path(arguments.output).write_text(text, encoding="utf-8")
        else:
            write_out(text)
    except OSError as fault:
        print(f"picture.py: {fault_of(fault)}", file=sys.stderr)
        return 2
    except (Refused, BadDocument, Unfitting) as fault:
        print(f"picture.py: {fault}", file=sys.stderr)
        return 2
    return 0


if __name__ == "__main__":
    sys.exit(main())
