#!/usr/bin/env python3
"""Checks docs/PROMISES.md: what its tables name exists, and the calls that they name are exported.

The columns are told by their heads: `definition` (crate/Module.word), `clause` (crate::call.clause or
crate::Type::call.clause; without a clause's name where the call has a single one), `wrong body` (crate/edit) and
`test` (crate::test). Each name stands in backticks, in full.
"""
import re
import sys
from pathlib import Path

TOP = Path(__file__).resolve().parent.parent
CRATES = TOP / "crates"


def sources(crate):
    """The source files of a crate, without its tests."""
    return [it for it in sorted((CRATES / crate / "src").rglob("*.rt")) if "tests" not in it.stem]


def exported(crate):
    """The names that the root of a crate exports."""
    names = set()
    root = CRATES / crate / "src" / "lib.rt"
    text = root.read_text() if root.is_file() else ""
    for path in re.findall(r"^pub use ([^;]+);", text, re.M):
        braces = re.search(r"\{([^}]*)\}", path)
        parts = braces[1].split(",") if braces else [path]
        names |= {re.split(r"::| as ", part.strip())[-1] for part in parts}
    names |= set(re.findall(r"^pub (?:fn|struct|enum|trait|const|type) (\w+)", text, re.M))
    return names


def calls(crate):
    """Each function of a crate: the type or trait that it belongs to (or None), its name, and its clauses' names."""
    found = []
    for file in sources(crate):
        owner = None
        # neither a comment nor a record in a clause ends the head of a function
        text = re.sub(r"^ *//.*$", "", file.read_text(), flags=re.M)
        text = re.sub(r"^( +\w+ = .*);$|(\(record) \{$", r"\1\2", text, flags=re.M)
        heads = list(re.finditer(r"^(?:pub )?(?:impl\b[^{]*|trait (\w+)[^{]*)\{|^\}", text, re.M))
        for fn in re.finditer(r"^( *)(?:pub(?:\([^)]*\))? )?fn (\w+)(.*?)(?:^\1\{|;$|\{$)", text, re.M | re.S):
            owner = None
            if fn[1]:
                before = [it for it in heads if it.start() < fn.start()]
                head = before[-1][0] if before else ""
                trait = re.match(r"(?:pub )?trait (\w+)", head)
                kind = re.match(r"impl(?:<.*?>)? (?:[\w:<>, ]+ for )?(\w+)", head)
                owner = trait[1] if trait else kind[1] if kind else None
            clauses = re.findall(r"^ *ensures\*? (\w+) \{", fn[3], re.M)
            single = bool(re.search(r"^ *ensures\*? \{", fn[3], re.M))
            found.append((owner, fn[2], set(clauses), single))
    return found


def fault_of_clause(name):
    match = re.fullmatch(r"(\w+)::(?:(\w+)::)?(\w+)(?:\.(\w+))?", name)
    if not match:
        return "not of the form crate::call.clause"
    crate, owner, call, clause = match.groups()
    if not (CRATES / crate).is_dir():
        return "no such crate"
    if (owner or call) not in exported(crate):
        return f"{owner or call} is not exported by {crate}"
    of_name = [it for it in calls(crate) if it[0] == owner and it[1] == call]
    if not of_name:
        return "no such call"
    if clause is None:
        return None if any(single for _, _, _, single in of_name) else "the call has named clauses: name one"
    return None if any(clause in clauses for _, _, clauses, _ in of_name) else "no such clause"


def fault_of_definition(name):
    match = re.fullmatch(r"(\w+)/([\w/]+)\.([\w-]+)", name)
    if not match:
        return "not of the form crate/Module.word"
    file = CRATES / match[1] / "specs" / f"{match[2]}.antt"
    if not file.is_file():
        return "no such module of specs/"
    word = re.escape(match[3])
    is_there = re.search(rf"^ *(?:abbrev |unfoldable )?pub (?:data |record )?{word}(?: |$)", file.read_text(), re.M)
    return None if is_there else "no such word, or it is not public"


def fault_of_edit(name):
    match = re.fullmatch(r"(\w+)/(\w+)", name)
    is_there = match and (CRATES / match[1] / "must-fail" / f"{match[2]}.edit").is_file()
    return None if is_there else "no such edit"


def fault_of_test(name):
    match = re.fullmatch(r"(\w+)::(\w+)", name)
    if not match or not (CRATES / match[1]).is_dir():
        return "not of the form crate::test"
    text = "\n".join(it.read_text() for it in (CRATES / match[1] / "src").rglob("*.rt"))
    return None if re.search(rf"#\[test\]\s+fn {match[2]}\b", text) else "no such test"


CHECKS = {"definition": fault_of_definition, "clause": fault_of_clause, "wrong body": fault_of_edit, "test": fault_of_test}


def main():
    names, faults, columns = 0, [], []
    for number, line in enumerate((TOP / "docs" / "PROMISES.md").read_text().split("\n"), 1):
        if not line.startswith("|"):
            columns = []
            continue
        cells = [it.strip() for it in line.strip("|").split("|")]
        if not columns:
            columns = [it.rstrip("s") if it.rstrip("s") in CHECKS else it for it in cells]
            continue
        for column, cell in zip(columns, cells):
            for name in re.findall(r"`([^`]+)`", cell) if column in CHECKS else []:
                names += 1
                fault = CHECKS[column](name)
                faults += [f"docs/PROMISES.md:{number}: {column} {name}: {fault}"] if fault else []
    print("\n".join([*faults, f"docs/PROMISES.md names {names} definitions, clauses, edits and tests, {len(faults)} of them wrong."]))
    return 1 if faults or not names else 0


sys.exit(main())
