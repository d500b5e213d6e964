#!/usr/bin/env python3
"""Checks that no chain of crates is longer than eight: those of crates.txt, and those that are planned.

What a planned crate will stand on, and what a crate will stand on besides, is told in the block of docs/ARCHITECTURE.md
that follows the name of this script. Libraries of the toolchain don't count.
"""
import re
import sys
from functools import lru_cache
from pathlib import Path

TOP = Path(__file__).resolve().parent.parent
MOST = 8


def lines_of(text):
    """What each crate stands on."""
    found = {}
    for line in text.splitlines():
        name, colon, below = line.partition(":")
        if colon and not line.startswith("#"):
            found.setdefault(name.split()[0], set()).update(below.split())
    return found


def main():
    below = lines_of((TOP / "crates.txt").read_text())
    page = (TOP / "docs" / "ARCHITECTURE.md").read_text()
    planned = re.search(r"check_chains\.py.*?```text\n(.*?)```", page, re.S)
    if not planned:
        print("docs/ARCHITECTURE.md doesn't tell what the planned crates stand on")
        return 1
    for name, crates in lines_of(planned[1]).items():
        below.setdefault(name, set()).update(crates)

    @lru_cache(maxsize=None)
    def chain(name):
        """The longest chain that ends with a crate."""
        chains = [chain(it) for it in sorted(below[name]) if it in below]
        return (*max(chains, key=len, default=()), name)

    longest = max((chain(it) for it in below), key=len)
    if len(longest) > MOST:
        print(f"a chain of {len(longest)} crates, and {MOST} are the most: {' > '.join(longest)}")
        return 1
    return 0


if __name__ == "__main__":
    sys.exit(main())
