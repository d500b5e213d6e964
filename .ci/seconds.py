#!/usr/bin/env python3
"""Counts what each crate takes of the processors while the gate runs, and prints a table at the end.

    .ci/seconds.py & counter=$!; rt ci; kill $counter; wait $counter

Of the processes that its parent has started it looks twice a second at those that prove a crate, its tests or a
must-fail edit. It ends when it is told to (SIGTERM) or when its parent is gone. What is kept from earlier runs isn't
proved again, so the table is of this run alone.
"""
import os
import signal
import sys
import time
from collections import defaultdict
from pathlib import Path

KINDS = ("proof", "tests", "edits")
TICKS = os.sysconf("SC_CLK_TCK")


def stat_of(process):
    """A process's parent, when it started, and its processor seconds, or None if it is gone."""
    try:
        # the name in parentheses may have any bytes
        fields = (process / "stat").read_bytes().rpartition(b") ")[2].split()
    except OSError:
        return None
    return int(fields[1]), fields[19], sum(int(it) for it in fields[11:15]) / TICKS


def work_of(process):
    """The crate that a process proves, and as which kind of work, or None."""
    try:
        words = (process / "cmdline").read_bytes().decode(errors="replace").split("\0")
        folder = os.path.basename(os.readlink(process / "cwd"))
    except OSError:
        return None
    if not words[0].endswith("/rattle") or "--crate-name" not in words:
        return None
    crate = words[words.index("--crate-name") + 1]
    if "--test" in words:
        return crate, "tests"
    return crate, "proof" if folder == crate else "edits"


def look(top, seen):
    """Notes the processor seconds so far of each process below `top` that proves something."""
    stats = {int(it.name): stat_of(it) for it in Path("/proc").iterdir() if it.name.isdigit()}
    for number, stat in stats.items():
        above = number
        while above != top and stats.get(above):
            above = stats[above][0]
        work = stat and above == top and work_of(Path(f"/proc/{number}"))
        if work:
            seen[number, stat[1]] = (work, stat[2])


def show(seen, started):
    """Prints the table, the dearest crate first."""
    seconds = defaultdict(lambda: dict.fromkeys(KINDS, 0.0))
    for (crate, kind), taken in seen.values():
        seconds[crate][kind] += taken
    print(f"processor seconds{'':13}" + "".join(f"{kind:>8}" for kind in (*KINDS, "sum")))
    for crate, taken in sorted(seconds.items(), key=lambda it: -sum(it[1].values())):
        row = [*(taken[kind] for kind in KINDS), sum(taken.values())]
        print(f"  {crate:28}" + "".join(f"{it:8.0f}" for it in row))
    total = sum(sum(it.values()) for it in seconds.values())
    print(f"  {total / 60:.0f} processor minutes, {(time.monotonic() - started) / 60:.0f} minutes by the clock")


def main():
    top, started, seen, told = os.getppid(), time.monotonic(), {}, []
    signal.signal(signal.SIGTERM, lambda *_: told.append(True))
    while not told and os.getppid() == top:
        look(top, seen)
        time.sleep(0.5)
    show(seen, started)


if __name__ == "__main__":
    sys.exit(main())
