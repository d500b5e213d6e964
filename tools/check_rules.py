#!/usr/bin/env python3
"""Checks the rules of a licence body against a document, before they are sealed.

It prints how many elements each rule selects and at how many it decides, and how many lines the
view has. It warns of rules that select nothing (denials first), of names in paths that the document
doesn't have, and of comparisons between a number and a value such as 12.50.

Status 0: no denial selects nothing. 1: some denial selects nothing. 2: a file can't be read, or
acl refuses it; nothing is written to standard output.
"""
import os
import sys

# Import from parts/, and not from this folder: Python would take inspect.py for its own module.
sys.path[0] = os.path.join(os.path.dirname(os.path.abspath(__file__)), "parts")

import argparse
from pathlib import Path

from acl_program import Previews, Refused, found_program
from documents import BadDocument, Document
from findings import (Names, as_text, broken_numbers, nothing_selected, nowhere_decided,
                      unknown_names)
from plain_text import counted, fault_of, shown, write_out
from rule_facts import Facts, Unfitting


def findings_of(facts, selected, decided, document):
    """The findings, with denials that select nothing first."""
    rules, names = facts.body.rules, Names(document)
    idle = [rule for rule, count in zip(rules, selected) if count == 0]
    found = [nothing_selected(rule) for rule in sorted(idle, key=lambda rule: rule.sign == "+")]
    found += [nowhere_decided(rule, count) for rule, count, decides
              in zip(rules, selected, decided) if count > 0 and decides == 0]
    for look in (unknown_names, broken_numbers):
        for rule in rules:
            found += look(rule, names)
    return found


def table(facts, selected, decided):
    """A line for each rule."""
    width = max([len(rule.id) for rule in facts.body.rules], default=0) + 2
    width = max(width, len("rule"))
    yield f"  {'rule':<{width}}  selects  decides  path"
    for rule, selects, decides in zip(facts.body.rules, selected, decided):
        name = f"{rule.sign} {shown(rule.id)}"
        yield f"  {name:<{width}}  {selects:>7,}  {decides:>7,}  {shown(rule.path)}"


def view_line(facts):
    """What the reader sees, in one line."""
    lines = facts.view.count(b"\n")
    if lines == 0:
        return "The view is empty: nothing is shown."
    seen, kept, hidden = facts.counts()
    return (f"The view has {counted(lines, 'line')}: {counted(seen, 'element')} shown, "
            f"{kept:,} kept as '-', {hidden:,} hidden.")


def report(arguments):
    """The report, and whether some denial selects nothing."""
    data = Path(arguments.document).read_bytes()
    body = Path(arguments.rules).read_bytes()
    previews = Previews(found_program(arguments.acl), data, arguments.document)
    # `acl` reads the document first, so that a refusal has its message.
    previews.view(body, arguments.rules)
    document = Document(data)
    facts = Facts(previews, document, body, arguments.rules)
    rules = facts.body.rules
    decided = facts.decides()
    selected = [facts.selects(number) for number in range(len(rules))]
    lines = [f"{shown(arguments.rules)}: user {shown(facts.body.user)}, "
             f"{counted(len(rules), 'rule')}, on {shown(arguments.document)} "
             f"with {counted(len(document), 'element')}", ""]
    if rules:
        lines += [*table(facts, selected, decided), ""]
    lines.append(view_line(facts))
    found = findings_of(facts, selected, decided, document)
    lines += ["", *(f"{shown(arguments.rules)}:{finding.rule.line}: warning: {as_text(finding)}"
                    for finding in found)] if found else []
    is_idle = any(rule.sign == "-" and count == 0 for rule, count in zip(rules, selected))
    return "".join(f"{line}\n" for line in lines), is_idle


def main():
    parser = argparse.ArgumentParser(description=__doc__.split("\n\n")[0])
    parser.add_argument("rules", metavar="RULES", help="the licence body")
    parser.add_argument("document", metavar="DOCUMENT.esis", help="the document's lines")
    parser.add_argument("--acl", metavar="PROGRAM", help="the program acl, if not on the path")
    try:
        text, is_idle = report(parser.parse_args())
        write_out(text)
    except OSError as fault:
        print(f"check_rules.py: {fault_of(fault)}", file=sys.stderr)
        return 2
    except (Refused, BadDocument, Unfitting) as fault:
        print(f"check_rules.py: {fault}", file=sys.stderr)
        return 2
    return 1 if is_idle else 0


if __name__ == "__main__":
    sys.exit(main())
