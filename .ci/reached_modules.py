#!/usr/bin/env python3
"""Prints the modules of definitions that the contract of `run` reaches, each with its lines: what somebody has to read
who wants to know what `run` promises.

    .ci/reached_modules.py [CRATE/FILE]

The contract is that of CRATE/FILE, a source file below `src/`, `acl_run/top.rt` where none is named. A module is reached
where the contract names it, or one that is reached does. Modules of the standard library and of the kit are left out, and
so are the types of the code, which stand in `src/`. Crates stand in the order of crates.txt, so what is read first comes
first.
"""
import re
import sys
from pathlib import Path

TOP = Path(__file__).resolve().parent.parent
CRATES = TOP / "crates"
NAMED = re.compile(r"^\s*(?:ghost )?use Rattle\.(\w+)\.specs\.([\w.]+?)(?:\.\{|\.\*| as |;|$)", re.M)


def order():
    """The crates, those first on which others stand."""
    lines = (TOP / "crates.txt").read_text().splitlines()
    return [it.partition(":")[0] for it in lines if it and not it.startswith("#")]


def file_of(crate, module):
    """The file of a module, or None where it is no file of definitions."""
    file = CRATES / crate / "specs" / (module.replace(".", "/") + ".antt")
    return file if file.is_file() else None


def modules_named(text):
    """The files of definitions that a text names."""
    found = (file_of(crate, module) for crate, module in NAMED.findall(text))
    return [it for it in found if it]


def reached(start):
    """All files of definitions that a source file reaches."""
    seen, left = set(), modules_named(start.read_text())
    while left:
        file = left.pop()
        if file not in seen:
            seen.add(file)
            left += modules_named(file.read_text())
    return seen


def lines_of(file):
    """How many of its lines say something: those that aren't empty and name no other module."""
    lines = (it.strip() for it in file.read_text().splitlines())
    return sum(1 for it in lines if it and not it.startswith("use "))


def main(words):
    crate, _, name = (words[0] if words else "acl_run/top.rt").partition("/")
    start = CRATES / crate / "src" / name
    if len(words) > 1 or not start.is_file():
        print(__doc__, file=sys.stderr)
        return 2
    places = {it: at for at, it in enumerate(order())}
    of_file = {it: it.relative_to(CRATES).parts[0] for it in reached(start)}
    total = 0
    for file in sorted(of_file, key=lambda it: (places[of_file[it]], it)):
        lines = lines_of(file)
        total += lines
        print(f"{lines:6}  {file.relative_to(CRATES)}")
    print(f"{total:6}  lines in {len(of_file)} modules, besides those of src/{name}")
    return 0


if __name__ == "__main__":
    sys.exit(main(sys.argv[1:]))
