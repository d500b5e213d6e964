"""The names and comparisons in a path (docs/FORMATS.md), and the name most similar to another."""
import difflib
import re
from collections import namedtuple

from documents import NAME, unescaped

TEST = rb"(?:\*|%s)" % NAME
STEP = re.compile(rb"//?(%s)" % TEST)
BODY = rb"\.(?!//)|@%s|(?:\.//)?%s(?://?%s)*(?:/@%s)?" % (NAME, TEST, TEST, NAME)
OPERAND = rb"\"[^\"]*\"|'[^']*'|-?[0-9]+|USER"
PREDICATE = re.compile(rb"\[ *(%s) *(?:(!=|<=|>=|=|<|>) *(%s) *)?\]" % (BODY, OPERAND))
NAMED = re.compile(rb"@?%s" % NAME)
NUMBER = re.compile(rb"-?[0-9]+")
# What people read as a number. To `acl` only 1 to 18 digits, with or without a `-`, are a number.
LIKE_NUMBER = re.compile(rb"\s*[+-]?[0-9]+(?:[.,][0-9]+)*\s*")
WHOLE = re.compile(rb"-?[0-9]{1,18}")
LONGEST_NUMBER = 64

# A comparison with a number. `target` is what is compared: `price`, `@price`, or `*`.
Comparison = namedtuple("Comparison", "target sign number")
# `why` says how the name differs from the wanted one.
Nearest = namedtuple("Nearest", "name why")


def steps_of(path):
    """The steps of a path that `acl` accepts, each as its test and its predicates."""
    at, steps = 0, []
    while at < len(path):
        step = STEP.match(path, at)
        if not step:
            raise ValueError(f"byte {at} of the path {path!r}")
        at, predicates = step.end(), []
        while predicate := PREDICATE.match(path, at):
            predicates.append(predicate.groups())
            at = predicate.end()
        steps.append((step[1], predicates))
    return steps


def names_in(path):
    """The names in a path, each once. The name of an attribute has an `@` before it."""
    names = []
    for test, predicates in steps_of(path):
        names += NAMED.findall(test)
        for body, _, _ in predicates:
            names += NAMED.findall(body)
    return list(dict.fromkeys(names))


def number_comparisons(path):
    """The comparisons with a number in a path."""
    compared = []
    for test, predicates in steps_of(path):
        for body, sign, operand in predicates:
            if operand and NUMBER.fullmatch(operand):
                target = test if body == b"." else re.split(rb"/", body)[-1]
                compared.append(Comparison(target, sign, operand))
    return compared


def is_broken_number(value):
    """Whether a value looks like a number, but isn't one to `acl`: `12.50`, ` 9`, `1,000`."""
    plain = unescaped(value)
    return LIKE_NUMBER.fullmatch(plain) is not None and not WHOLE.fullmatch(value)


def local(name):
    """A name without its prefix."""
    return name.rsplit(":", 1)[-1]


def nearest(wanted, elements, attributes):
    """The name in the document that is most similar to a name that isn't in it, or None.

    Names are text here. In `wanted` and the answer, the name of an attribute has an `@` before it.
    """
    mark = "@" if wanted.startswith("@") else ""
    same_kind, other_kind = (attributes, elements) if mark else (elements, attributes)
    name = wanted.removeprefix("@")
    for is_near, why in (
        (lambda other: other.casefold() == name.casefold(), "upper and lower case differ"),
        (lambda other: local(other) == local(name), "the prefix differs"),
        (lambda other: local(other).casefold() == local(name).casefold(),
         "the prefix and upper and lower case differ"),
    ):
        for other in same_kind:
            if is_near(other):
                return Nearest(mark + other, why)
    if name in other_kind:
        return Nearest(f"{'' if mark else '@'}{name}",
                       "an element" if mark else "an attribute")
    folded = {}
    for other in same_kind:
        if abs(len(other) - len(name)) <= 3:
            folded.setdefault(other.casefold(), other)
    close = difflib.get_close_matches(name.casefold(), folded, n=1)
    return Nearest(mark + folded[close[0]], "the spelling differs") if close else None
