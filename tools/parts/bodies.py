"""Reads licence bodies (docs/FORMATS.md) and writes them with other rules."""
import re
from collections import namedtuple

from documents import lines_of

Rule = namedtuple("Rule", "line sign id path")
Body = namedtuple("Body", "root user rules")

ROOT = re.compile(rb"root ([0-9a-fA-F]{64})")
USER = re.compile(rb"user ([^\x00-\x1f\x7f]{1,255})")
RULE = re.compile(rb"([+-]) ([A-Za-z0-9_.-]{1,32}) (.+)", re.S)


class BadBody(Exception):
    """Bytes that are not a licence body. `line` is the number of the first wrong line."""

    def __init__(self, line):
        super().__init__(f"line {line} can't stand there in a licence body")
        self.line = line


def read_body(data):
    """The body in these bytes. Paths stay bytes: only `acl` says whether they are valid."""
    lines = lines_of(data)
    forms = [re.compile(rb"licence 1"), ROOT, USER]
    found = []
    for number, form in enumerate(forms, 1):
        if len(lines) < number or not (match := form.fullmatch(lines[number - 1])):
            raise BadBody(number)
        found.append(match)
    rules = []
    for number, line in enumerate(lines[3:], 4):
        if line == b"end":
            if len(lines) > number:
                raise BadBody(number + 1)
            return Body(found[1][1].lower(), found[2][1], rules)
        match = RULE.fullmatch(line)
        if not match or any(rule.id == match[2] for rule in rules):
            raise BadBody(number)
        rules.append(Rule(number, match[1].decode(), match[2], match[3]))
    raise BadBody(len(lines) + 1)


def written_body(body, rules):
    """The bytes of a body with these rules. Their numbers are their ids, so no id is `closed`."""
    lines = [b"licence 1", b"root " + body.root, b"user " + body.user]
    lines += [b"%s %d %s" % (rule.sign.encode(), number, rule.path)
              for number, rule in enumerate(rules)]
    return b"".join(line + b"\n" for line in [*lines, b"end"])
