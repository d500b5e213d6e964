#!/usr/bin/env python3
"""Describes encrypted files, licences and keys, and says whether they fit.

Of an encrypted file it prints its root, the numbers of its header and its size. It needs no key,
and reads only the header and the top digest. Of a licence, or of a body that isn't sealed yet, it
prints the root that it names, its user and its rules. Of keys it prints the key check that is in
files encoded with them, and never a key. Then it prints for each two of the files whether they fit.

Status 0: each file has its form, and all that can be compared fit. 1: a file doesn't have its form,
or two don't fit. 2: a file can't be read.
"""
import os
import sys

# Import from parts/, and not from this folder: Python would take this script for its own module.
sys.path[0] = os.path.join(os.path.dirname(os.path.abspath(__file__)), "parts")

import argparse
import hmac
import re
from hashlib import sha256
from itertools import combinations

from bodies import BadBody, read_body
from plain_text import counted, fault_of, shown, write_out

HEADER, FRAGMENT, DIGEST, CHECK = 64, 256, 32, 16
MOST_BYTES = 1 << 25
MOST_OF_OTHERS = 1 << 20
SEAL = re.compile(rb"seal ([0-9a-fA-F]{64})\n")
KEYS = re.compile(rb"document ([0-9a-fA-F]{32})\nseal ([0-9a-fA-F]{64})\n?")


class BadForm(Exception):
    """Bytes that are neither an encrypted file, a licence, a body nor keys."""


class Store:
    """What the header and the top digest of an encrypted file say."""

    word = "encrypted file"

    def __init__(self, header, file):
        self.size = file.seek(0, os.SEEK_END)
        numbers = ((8, 16), (16, 20), (20, 22), (22, 24))
        self.tree, self.dictionary, self.names, self.depth = (
            int.from_bytes(header[at:end], "big") for at, end in numbers)
        self.check = header[24:24 + CHECK]
        if not self._is_header(header):
            raise BadForm("its first 64 bytes are no header of acl")
        levels = [-(-(self.tree + self.dictionary) // FRAGMENT)]
        while levels[-1] > 1:
            levels.append((levels[-1] + 1) // 2)
        self.fragments = levels[0]
        self.due = HEADER + FRAGMENT * levels[0] + DIGEST * sum(levels)
        file.seek(self.due - DIGEST)
        top = file.read(DIGEST)
        self.root = sha256(b"\2" + header + top).hexdigest() if len(top) == DIGEST else None

    def _is_header(self, header):
        return (len(header) == HEADER and not any(header[40:]) and 1 <= self.names <= 256
                and 1 <= self.depth <= 255 and self.tree >= 1
                and self.dictionary >= 2 + 2 * self.names
                and self.tree + self.dictionary <= MOST_BYTES)

    def is_good(self):
        return self.root is not None

    def lines(self):
        yield f"root {self.root}" if self.root else "no root: the file was cut off"
        yield f"tree: {counted(self.tree, 'byte')}"
        yield f"list of names: {counted(self.dictionary, 'byte')}"
        yield f"names: {self.names}"
        yield f"depth: {counted(self.depth, 'open element')} at most"
        yield f"size: {counted(self.size, 'byte')}, {counted(self.fragments, 'fragment')}"
        if self.size < self.due:
            yield f"cut off: {counted(self.due - self.size, 'byte')} missing at the end"
        elif self.size > self.due:
            yield f"{counted(self.size - self.due, 'byte')} after its end, which nobody reads"
        yield f"key check {self.check.hex()}"


class Licence:
    """A licence, or a body without a seal."""

    def __init__(self, data):
        sealed = SEAL.match(data)
        self.seal = sealed[1].decode().lower() if sealed else None
        self.bytes = data[sealed.end():] if sealed else data
        self.word = "licence" if sealed else "licence body, not sealed"
        try:
            self.body = read_body(self.bytes)
        except BadBody as fault:
            line = fault.line + (1 if sealed else 0)
            raise BadForm(f"line {line} can't stand there in a "
                          f"{'licence' if sealed else 'licence body'}") from fault
        self.root = self.body.root.decode()

    def is_good(self):
        return True

    def lines(self):
        yield f"root {self.root}"
        yield f"user {shown(self.body.user)}"
        yield counted(len(self.body.rules), "rule") + (":" if self.body.rules else "")
        for rule in self.body.rules:
            yield f"  {rule.sign} {shown(rule.id)} {shown(rule.path)}"


class Keys:
    """The two keys. They are never printed."""

    word = "keys"

    def __init__(self, found):
        self._document, self._seal = (bytes.fromhex(digits.decode()) for digits in found.groups())
        self.check = sha256(b"\4" + self._document).digest()[:CHECK]

    def is_good(self):
        return True

    def has_sealed(self, licence):
        made = hmac.new(self._seal, licence.bytes, sha256).hexdigest()
        return hmac.compare_digest(made, licence.seal)

    def lines(self):
        yield f"files under them carry the key check {self.check.hex()}"


def read(name):
    """The file of this name, as a Store, a Licence or Keys."""
    with open(name, "rb") as file:
        header = file.read(HEADER)
        if header.startswith(b"SKIPIDX1"):
            return Store(header, file)
        data = header + file.read(MOST_OF_OTHERS)
    if data.startswith((b"licence ", b"seal ")):
        return Licence(data)
    if found := KEYS.fullmatch(data):
        return Keys(found)
    if data.startswith(b"document "):
        raise BadForm("keys are the lines `document` with 32 digits and `seal` with 64, "
                      "and nothing else")
    raise BadForm("it is neither an encrypted file, a licence, a licence body nor keys")


def fit(one, other):
    """Whether two of them fit, with a sentence that says why, or None if they can't be compared."""
    first, second = sorted((one, other), key=lambda it: (Keys, Licence, Store).index(type(it)))
    if isinstance(first, Keys) and isinstance(second, Store):
        good = first.check == second.check
        return good, "the file was encoded with these keys" if good else \
            "the file was encoded with another document key"
    if isinstance(first, Keys) and isinstance(second, Licence) and second.seal:
        good = first.has_sealed(second)
        return good, "the licence was sealed with these keys" if good else \
            "the licence was changed since it was sealed, or sealed with other keys"
    if isinstance(first, Licence) and isinstance(second, Store):
        good = first.root == second.root
        return good, "the licence is for this file" if good else "the licence is for another file"
    return None


def report(names):
    """The text about the files of these names, and the status."""
    lines, status, known = [], 0, []
    for name in names:
        try:
            one = read(name)
        except BadForm as fault:
            lines.append(f"{shown(name)}: {fault}")
            status = 1
            continue
        lines += [f"{shown(name)}: {one.word}", *(f"    {line}" for line in one.lines())]
        status = status if one.is_good() else 1
        known.append((shown(name), one))
    for (name, one), (other_name, other) in combinations(known, 2):
        if fitting := fit(one, other):
            good, words = fitting
            lines.append(f"{name} and {other_name} {'fit' if good else 'do not fit'}: {words}")
            status = status if good else 1
    return "".join(f"{line}\n" for line in lines), status


def main():
    parser = argparse.ArgumentParser(description=__doc__.split("\n\n")[0])
    parser.add_argument("files", metavar="FILE", nargs="+",
                        help="an encrypted file, a licence, a licence body or keys")
    try:
        text, status = report(parser.parse_args().files)
        write_out(text)
    except OSError as fault:
        print(f"inspect.py: {fault_of(fault)}", file=sys.stderr)
        return 2
    return status


if __name__ == "__main__":
    sys.exit(main())
