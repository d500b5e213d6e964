"""What the rules of a body do in a document, from `acl preview`, with and without `--explain`."""
from collections import Counter

from bodies import read_body, written_body

SHOWN, DUMMY, HIDDEN = "+", "-", "."


class Unfitting(Exception):
    """The view and the explanation of `acl` don't fit together."""


class Facts:
    """What one body does in one document.

    body       the body
    view       the bytes of the view
    rule_at    for each element in the explanation the rule that decides there; None for `closed`
    deciders   for each element the nearest element in `rule_at`, itself or an ancestor
    signs      for each element whether it is granted
    states     for each element what the reader sees: SHOWN, DUMMY or HIDDEN
    """

    def __init__(self, previews, document, data, name):
        self._previews, self._document, self._name = previews, document, name
        self.view = previews.view(data, name)
        self.body = read_body(data)
        lines = self._explained(self.body.rules)
        self.rule_at = {element: rule for element, rule, _ in lines}
        self.deciders, self.signs = _spread(document, lines)
        self.states = _states(document, self.signs)
        if written_view(document, self.states) != self.view:
            raise Unfitting("the view and the explanation don't fit together")

    def _explained(self, rules):
        """The explanation under these rules of the body, as (element, number of its rule, sign)."""
        lines = []
        body = written_body(self.body, rules)
        for sign, rule, place in self._previews.explanation(body, self._name):
            element = self._document.element_at(place)
            lines.append((element, None if rule == "closed" else int(rule), sign))
        return lines

    def decides(self):
        """For each rule at how many elements it decides."""
        counts = Counter(self.rule_at.values())
        return [counts[number] for number in range(len(self.body.rules))]

    def selects(self, number):
        """How many elements a rule selects, by an explanation under this rule alone."""
        lines = self._explained([self.body.rules[number]])
        return sum(rule is not None for _, rule, _ in lines)

    def counts(self):
        """How many elements are shown, kept as `-`, and hidden."""
        counts = Counter(self.states)
        return [counts[state] for state in (SHOWN, DUMMY, HIDDEN)]


def _spread(document, lines):
    """For each element the nearest one in the explanation, itself or an ancestor, and its sign."""
    explained = {element: sign for element, _, sign in lines}
    deciders, signs = [], []
    for element, parent in enumerate(document.parents):
        is_decided = element in explained
        deciders.append(element if is_decided else deciders[parent])
        signs.append(explained[element] == "+" if is_decided else signs[parent])
    return deciders, signs


def _states(document, signs):
    """What the reader sees of each element. A denied one around a granted one is kept as `-`."""
    states = [SHOWN if sign else HIDDEN for sign in signs]
    for element in range(len(document) - 1, 0, -1):
        if states[element] != HIDDEN and states[document.parents[element]] == HIDDEN:
            states[document.parents[element]] = DUMMY
    return "".join(states)


def written_view(document, states):
    """The bytes of the view in which the elements have these states."""
    made, waiting, around, element = [], [], [], -1
    for line in document.lines:
        kind = line[:1]
        if kind == b"A":
            waiting.append(line)
        elif kind == b"(":
            element += 1
            state = states[element]
            around.append(state)
            made += [*waiting, line] if state == SHOWN else [b"(-"] if state == DUMMY else []
            waiting = []
        elif kind == b")":
            state = around.pop()
            made += [line] if state == SHOWN else [b")-"] if state == DUMMY else []
        elif kind == b"-" and around[-1] == SHOWN:
            made.append(line)
    return b"".join(line + b"\n" for line in made)
