"""Findings: sentences about possible mistakes in the rules of a body."""
from collections import namedtuple

from path_names import (LONGEST_NUMBER, is_broken_number, names_in, nearest, number_comparisons)
from plain_text import counted, shown


# `sentence` is a list of pieces, without the name of the rule's file and the number of its line.
Finding = namedtuple("Finding", "rule sentence")


class Quoted(str):
    """A piece of a sentence that comes from a file: the id of a rule, a name or a value."""


class Names:
    """The names of a document, as text, and the values that can be compared."""

    def __init__(self, document):
        self._document = document
        self.elements = [shown(name) for name in dict.fromkeys(document.names)]
        self.attributes = list(dict.fromkeys(
            shown(name) for attributes in document.attributes.values()
            for name, kind, _ in attributes if kind != b"IMPLIED"))
        self._known = {*self.elements, *(f"@{name}" for name in self.attributes)}

    def __contains__(self, name):
        return name in self._known

    def values(self, target):
        """The values of a target of a comparison (`price`, `@price` or `*`). Long values are left
        out, since no number is long."""
        if target.startswith(b"@"):
            for attributes in self._document.attributes.values():
                for name, kind, value in attributes:
                    if name == target[1:] and kind != b"IMPLIED":
                        yield value
            return
        for element, name in enumerate(self._document.names):
            if target in (b"*", name):
                value = self._document.value(element, LONGEST_NUMBER)
                if value is not None:
                    yield value


def unknown_names(rule, names):
    """A finding for each name in the rule's path that the document doesn't have."""
    for name in map(shown, names_in(rule.path)):
        if name in names:
            continue
        kind = "attribute" if name.startswith("@") else "element"
        sentence = [f"the document has no {kind} ", Quoted(name)]
        near = nearest(name, names.elements, names.attributes)
        if near and near.why in ("an element", "an attribute"):
            sentence += ["; it has ", near.why, " of that name, ", Quoted(near.name)]
        elif near:
            sentence += ["; the nearest name is ", Quoted(near.name), f" ({near.why})"]
        else:
            sentence += [", and no name like it"]
        yield Finding(rule, sentence)


def broken_numbers(rule, names):
    """A finding for each comparison of a number with a value that isn't a whole number."""
    for target, sign, number in dict.fromkeys(number_comparisons(rule.path)):
        values = [value for value in names.values(target) if is_broken_number(value)]
        if values:
            holds = "so it holds there" if sign == b"!=" else "so it doesn't hold there"
            comparison = Quoted(shown(target + sign + number))
            example = Quoted(shown(values[0]))
            yield Finding(rule, ["the comparison ", comparison, " is with a whole number, and ",
                                 counted(len(values), "value"), ", such as ", example,
                                 f", {'is' if len(values) == 1 else 'are'} none: {holds}"])


def nothing_selected(rule):
    """The finding that a rule selects nothing."""
    if rule.sign == "-":
        return Finding(rule, ["the denial ", Quoted(shown(rule.id)),
                              " selects nothing, so it hides nothing"])
    return Finding(rule, ["the grant ", Quoted(shown(rule.id)),
                          " selects nothing, so it shows nothing"])


def nowhere_decided(rule, selected):
    """The finding that a rule selects elements and decides at none of them."""
    where = "there" if selected == 1 else "at each of them"
    return Finding(rule, [Quoted(shown(rule.id)), " decides nowhere: it selects ",
                          counted(selected, "element"), f", and {where} another rule decides"])


def as_text(finding):
    """The sentence as text, with quotes around what comes from a file."""
    return "".join(f"'{piece}'" if isinstance(piece, Quoted) else piece
                   for piece in finding.sentence)
