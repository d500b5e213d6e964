#!/usr/bin/env python3
"""Measures `acl` on documents and rules at their limits, and prints processor seconds and memory.

    tools/worst_cases.py PROGRAM [--short] [--only WORD] [--limit SECONDS]

Each row of the table is one run. A case fails if a run takes more time or memory than the case
allows, if time grows faster than the document, if a run is stopped at its limit, or if the output
isn't the right one. The exit status is 1 if a case fails, and 2 if the arguments are wrong.

--short is for the gate. It leaves out the largest documents, and prints only the cases that fail.
--only takes the cases that have that word in their row.
--limit is the processor seconds after which a run is stopped: 60, or 2 with --short.

Seconds are the user and system time of the program alone. Memory is the peak of the program. It
can't be measured where it is less than Python's own; the table has a dash there.
"""
import argparse
import contextlib
import math
import os
import resource
import signal
import subprocess
import sys
import tempfile
import threading
from dataclasses import dataclass
from itertools import cycle, islice, repeat
from pathlib import Path
from typing import Callable, Iterator, Optional

# Shorter times are noise: they say nothing about growth.
NOISE = 0.05
# How many times longer a document of twice the size may take. In the gate the machine is busy, and
# the documents are small: the limit is wider there, and a few tenths of a second more are noise.
GROWTH = 2.6
GROWTH_IN_GATE = 3.4
NOISE_IN_GATE = 0.25
# For a busy machine: how many seconds by the clock a run may take for each processor second of
# its limit.
PATIENCE = 10
# A case that fails is measured this many times in all, and its shortest time counts.
TRIES = 3

NOTHING, WHOLE, SOME, ANY = "nothing", "the whole document", "something", "anything"


# Four names of this length fit into a path. It differs from `OTHER_NAME` in its last byte alone.
LONG_NAME = "m" * 250
OTHER_NAME = "m" * 249 + "n"


# ---- documents

@dataclass(frozen=True)
class Document:
    """A document of several sizes: `lines(2)` has twice as much in it as `lines(1)`."""

    what: str
    lines: Callable[[int], Iterator[str]]


def around(of_names, inside):
    """An element of each name, each inside the one before it, with these lines in the innermost."""
    yield "".join(f"({name}\n" for name in of_names)
    yield from inside
    yield "".join(f"){name}\n" for name in reversed(of_names))


def text(byte, length):
    """One text of this many bytes, yielded in pieces."""
    yield "-"
    yield from repeat(byte * 1_000, length // 1_000)
    yield byte * (length % 1_000) + "\n"


def shallow(size):
    """Elements without a text below nine levels, reached in many ways; the last way is to a `z`."""
    def parts():
        yield from around("a" * 9, repeat("(a\n)a\n", 12_500 * size))
        yield from around("a" * 4, ["-z\n"])

    return around("a", parts())


def names(count):
    return [f"n{number}" for number in range(count)]


def empty_elements(of_names, count):
    """This many empty elements, with these names in turn."""
    return (f"({name}\n){name}\n" for name in islice(cycle(of_names), count))


def with_attributes(elements, count, name="b"):
    """Empty elements, each with this many attributes."""
    attributes = "".join(f"A{name}{number} CDATA x\n" for number in range(count))
    return repeat(f"{attributes}(a\n)a\n", elements)


def with_long_value(length):
    """An element with one attribute whose value is this long, yielded in pieces."""
    yield "Ab CDATA "
    yield from repeat("x" * 1_000, length // 1_000)
    yield "\n(a\n)a\n"


def with_long_type(length):
    """An element with one attribute whose type is this long, yielded in pieces."""
    yield "Ab "
    yield from repeat("C" * 1_000, length // 1_000)
    yield " x\n(a\n)a\n"


def wide_heads(count):
    """Elements whose heads have a bit for each of 255 names."""
    yield from empty_elements(names(254), 254)
    yield from repeat("(a\n(a\n)a\n)a\n", count)


def chains(count, levels, bottom=""):
    """An element with many chains in it: each is this many nested elements around `bottom`."""
    chain = "(a\n" * levels + bottom + ")a\n" * levels
    return around("a", repeat(chain, count))


NESTED = Document("255 nested elements a", lambda size: around("a" * 255, ["-x\n"]))
NESTED_ABC = Document(
    "255 elements a, b, c in turn", lambda size: around("abc" * 85, ["-x\n"]))
SIBLINGS = Document(
    "253 levels around 12,500 elements",
    lambda size: around("a" * 253, repeat("(a\n)a\n", 12_500 * size)))
SIBLINGS_WITH_TEXTS = Document(
    "253 levels around 12,500 texts in elements",
    lambda size: around("a" * 253, repeat(f"(a\n-{'0' * 17}1\n)a\n", 12_500 * size)))
SHORT_TEXT = Document(
    "254 levels around a text of 10,000 bytes",
    lambda size: around("a" * 254, text("x", 10_000 * size)))
LONG_TEXT = Document(
    "254 levels around a text of 250,000 bytes",
    lambda size: around("a" * 254, text("x", 250_000 * size)))
ZEROS = Document(
    "254 levels around 250,000 zeros",
    lambda size: around("a" * 254, text("0", 250_000 * size)))
HUGE_TEXT = Document(
    "254 levels around a text of 4,000,000 bytes",
    lambda size: around("a" * 254, text("x", 4_000_000 * size)))
SHALLOW = Document("11 levels around 12,500 elements", shallow)
FLAT = Document(
    "100,000 elements in one", lambda size: around("a", repeat("(a\n)a\n", 100_000 * size)))
FLAT_OF_NAMES = Document(
    "100,000 elements of 255 names in one",
    lambda size: around("a", empty_elements(names(255), 100_000 * size)))
FLAT_OF_LONG_NAMES = Document(
    "10,000 elements with names of 250 bytes",
    lambda size: around("a", empty_elements([LONG_NAME], 10_000 * size)))
NESTED_LONG_NAMES = Document(
    "255 elements with names of 250 bytes", lambda size: around([LONG_NAME] * 255, ["-x\n"]))
MOST_ATTRIBUTES = Document(
    "10 elements with 6,000 attributes",
    lambda size: around("a", with_attributes(10 * size, 6_000)))
LONG_ATTRIBUTES = Document(
    "1,000 elements with 16 attributes of long names",
    lambda size: around("a", with_attributes(1_000 * size, 16, LONG_NAME)))
FEW_ATTRIBUTES = Document(
    "10,000 elements with 16 attributes",
    lambda size: around("a", with_attributes(10_000 * size, 16)))
ATTRIBUTES_BELOW = Document(
    "254 levels around 10,000 attributes",
    lambda size: around("a" * 254, with_attributes(size, 10_000)))
LONG_VALUES = Document(
    "an attribute of 1,000,000 bytes",
    lambda size: with_long_value(1_000_000 * size))
CHAINS = Document("chains of 254 elements, 4 MB", lambda size: chains(2_700 * size, 254))
CHAINS_OF_NAMES = Document(
    "chains of 253 elements around 250 names, 2 MB",
    lambda size: chains(500 * size, 253, "".join(empty_elements(names(250), 250))))
CHAINS_AROUND_TEXTS = Document(
    "chains of 254 elements around 255 bytes, 0.4 MB",
    lambda size: chains(200 * size, 254, "-" + "x" * 254 + "z\n"))
CHAINS_AROUND_NUMBERS = Document(
    "chains of 254 elements around 18 digits, 0.3 MB",
    lambda size: chains(200 * size, 254, "-" + "0" * 17 + "1\n"))
WIDE_HEADS = Document(
    "20,000 elements in 255 names",
    lambda size: around("a", wide_heads(20_000 * size)))
LONG_TYPE = Document(
    "an attribute with a type of 1,000,000 letters",
    lambda size: with_long_type(1_000_000 * size))
SHORT_ATTRIBUTES = Document(
    "elements with 65,535 attributes, 33 MB",
    lambda size: around("a", repeat("Ab C\n" * 65_535 + "(a\n)a\n", 102)))
MOST_ELEMENTS = Document(
    "5.5 million elements in one, 33 MB",
    lambda size: around("a", repeat("(a\n)a\n", 5_500_000)))
MOST_TEXTS = Document(
    "8 million texts of two bytes, 33 MB", lambda size: around("a", repeat("-xx\n", 8_000_000)))
HOSPITAL = Document("acl sample 400", lambda size: ())
LARGE_HOSPITAL = Document("acl sample 20,000", lambda size: ())
# How many folders `acl sample` makes, for each size of a hospital.
FOLDERS = {HOSPITAL: {1: 400, 10: 4_000, 50: 20_000}, LARGE_HOSPITAL: {1: 20_000}}


# ---- cases

# The sizes of a document that grows: each is twice the one before.
SIZES = (1, 2, 4)
# The limit of a case that may take no time, in processor seconds. In the gate the machine is busy.
AT_ONCE = {"most": 0.05, "most_in_gate": 0.3}


@dataclass(frozen=True)
class Case:
    """What is run, on which document, and how much it may take."""

    what: str
    document: Document
    # the rules, without their ids
    rules: tuple = ()
    command: str = "preview"
    options: tuple = ()
    sizes: tuple = (1,)
    # processor seconds of each run, and of each run in the gate
    most: float = math.inf
    most_in_gate: float = math.inf
    # the most memory, in multiples of the document's size
    memory: float = math.inf
    # another case, and the most that this one may take, in multiples of its seconds
    beside: Optional["Case"] = None
    times: float = math.inf
    answer: str = ANY
    in_gate: bool = True

    def title(self):
        options = " ".join([self.command, *self.options[:1]])
        return f"{options}: {self.what}" if self.what else options


def rules_of(*paths):
    return tuple(f"+ {path}" for path in paths)


def many(path, document, answer, **more):
    """64 rules with one path."""
    return Case(f"64 rules {path}", document, rules_of(*[path] * 64), answer=answer, **more)


def ways():
    """Predicates that reach their targets in very many ways: these may take no time."""
    def case(document, path, name=""):
        return Case(name or path, document, rules_of(path), answer=NOTHING, **AT_ONCE)

    yield Case("/a[.//*//*]", NESTED, rules_of("/a[.//*//*]"), answer=WHOLE, **AT_ONCE)
    for count in (2, 3, 4):
        yield case(NESTED, f"/a[.{'//*' * count}//b]")
    for count in (2, 3, 5, 8):
        yield case(NESTED, f'//a[.{"//a" * count}="y"]')
    for count in (64, 128, 254, 256):
        yield case(NESTED, f'/a[.{"//a" * count}="y"]', f'/a[.//a..="y"] of {count} tests')
    yield case(NESTED, f"/a[.{'//*' * 128}//b]", "/a[.//*..//b] of 129 tests")
    yield case(NESTED, f"/a[.{'//*' * 128}/@id]", "/a[.//*../@id] of 128 tests")
    yield case(NESTED, '/a[.//a/a//a/a//a/a//a/a="y"]')
    yield case(NESTED, '/a[.//a//a//a//a//a!="x"]')
    yield case(NESTED, "/a[.//a//a//a//a//a>=007]")
    yield case(NESTED, "/a[.//*//*//*//*//*/@id]")
    yield case(NESTED_ABC, "/a[.//*//*//*//*//d]")
    yield case(NESTED_ABC, '//a[.//a//b//c//a//b//c="y"]')
    yield case(NESTED_ABC, f'//*[.{"//a//b//c" * 20}="y"]', '//*[.//a//b//c..="y"] of 60 tests')
    yield case(NESTED_ABC, "//a[.//b//c//d]//b[.//c//a//d]//c[.//a//b//d]")


def ways_of_commands():
    """The same with the other commands and options."""
    path = "//*[.//*//*//*//b]"
    for command, options, answer in (
            ("preview", ("--explain",), SOME), ("preview", ("--query", path), NOTHING),
            ("view", (), WHOLE), ("view", ("--query", path), NOTHING), ("explain", (), SOME)):
        yield Case(f"a denial {path}", NESTED, ("+ /a", f"- {path}"), command, options,
                   answer=answer, **AT_ONCE)


def nested():
    """As many steps, tests and predicates as rules may have, on the deepest documents allowed."""
    limits = {"most": 2, "most_in_gate": 2}
    for document in (NESTED, NESTED_ABC):
        yield many("//*[.//d]", document, NOTHING, **limits)
        yield many('//*[.!="y"]', document, WHOLE, **limits)
        yield many('//*[.//*//*//*//*="y"]', document, NOTHING, **limits)
        yield many("//*[.//*//*//*//*/@id]", document, NOTHING, **limits)
        path = "//*[.//*//*//*//d]" * 4
        yield Case(f"16 rules {path[:18]}.. of 4 steps", document, rules_of(*[path] * 16),
                   answer=NOTHING, **limits)
    yield Case("//a.. of 256 steps", NESTED, rules_of("//a" * 256), answer=NOTHING, **limits)
    yield many("//a//a//a//a", NESTED, SOME, **limits)
    yield many("//*", NESTED, SOME, options=("--explain",), **limits)
    yield Case("64 rules with 4 names of 250 bytes", NESTED_LONG_NAMES,
               rules_of(*[f"//{LONG_NAME}" * 3 + f"//{OTHER_NAME}"] * 64), answer=NOTHING, **limits)


def growing():
    """Time may grow with the length of the document, but not with its depth times its length."""
    query = "/*" + '[.//*//*//*//*="z"]' * 53
    yield Case(f"/* and 53 predicates, {len(query)} bytes", SHALLOW, rules_of("/*"), answer=WHOLE,
               options=("--query", query), sizes=SIZES)
    for document in (SHORT_TEXT, LONG_TEXT):
        yield Case('//*[.//*="x"]', document, rules_of('//*[.//*="x"]'), answer=NOTHING,
                   sizes=SIZES)
    yield Case('//* and 64 times [.!="x"]', LONG_TEXT, rules_of("//*" + '[.!="x"]' * 64),
               answer=WHOLE, sizes=SIZES)
    for path, document, answer in (
            ("//*[.=0]", ZEROS, NOTHING), ("//*[.//b]", SIBLINGS, NOTHING),
            ('//*[.//*//*//*//*="y"]', SIBLINGS, NOTHING), ("//*//*//*//*", SIBLINGS, SOME),
            ("//*[.//*//*//*//*>=007]", SIBLINGS_WITH_TEXTS, NOTHING),
            ('//*[.!="y"]', SIBLINGS_WITH_TEXTS, WHOLE),
            (f'//*[.>"{"0" * 17}1"]', CHAINS_AROUND_NUMBERS, NOTHING),
            ('//*[.//*//*//*//*="y"]', FLAT, NOTHING), ("//*//*//*//*", FLAT, NOTHING)):
        yield many(path, document, answer, sizes=SIZES)
    literal = "x" * 254 + "y"
    yield Case("64 rules //*[.=..] with 255 bytes", CHAINS_AROUND_TEXTS,
               rules_of(*[f'//*[.="{literal}"]'] * 64), answer=NOTHING, sizes=SIZES)


def names_and_attributes():
    """The same with many names or attributes."""
    four = [f"//*[.//n{n}//n{n + 1}//n{n + 2}//n{n + 3}]" for n in range(0, 252, 4)]
    yield Case(f"{len(four)} rules {four[0]} ..", FLAT_OF_NAMES, rules_of(*four), answer=NOTHING,
               sizes=SIZES)
    yield Case("64 predicates with 4 names of 250 bytes", FLAT_OF_LONG_NAMES,
               rules_of(*[f"//*[.{f'//{LONG_NAME}' * 3}//{OTHER_NAME}]"] * 64), answer=NOTHING,
               sizes=SIZES)
    for document in (MOST_ATTRIBUTES, FEW_ATTRIBUTES, ATTRIBUTES_BELOW):
        yield many('//*[@b9="y"]', document, NOTHING, sizes=SIZES)
        yield many('//*[.//*/@b9="y"]', document, NOTHING, sizes=SIZES)
    yield Case("64 rules //*[@name] with a name of 250 bytes", LONG_ATTRIBUTES,
               rules_of(*[f"//*[@{LONG_NAME}]"] * 64), answer=NOTHING, sizes=SIZES)
    yield many('//*[@b="y"]', LONG_VALUES, NOTHING, sizes=SIZES)
    yield many('//*[@b="y"]', LONG_TYPE, NOTHING, sizes=SIZES)


def hospital():
    """On an ordinary document, 64 predicates of 4 tests may take ten times as long as one rule."""
    plain = Case("//Folder", LARGE_HOSPITAL, rules_of("//Folder"), answer=SOME)
    yield plain
    path = '//Folder[Act/RPhys="Ana"]/Admin'
    yield Case(path, HOSPITAL, rules_of(path), answer=SOME, sizes=(1, 10, 50))
    for path, answer in (
            ("//*[.//*//*//*//b]", NOTHING), ('//*[.//*//*//*//*="Ana"]', NOTHING),
            ("//*[.//Folder//Act//RPhys//Ana]", NOTHING), ("//*[.//*//*//*/*>=7]", NOTHING),
            ('//*[.="Ana"]', SOME)):
        yield many(path, LARGE_HOSPITAL, answer, beside=plain, times=10)


def largest():
    """Explanations of deep documents, and the largest documents that are allowed."""
    # `explain` also keeps the stream of the file, and encodes the document again to compare
    for command, options, memory in (("preview", ("--explain",), 40), ("explain", (), 60)):
        more = {"memory": memory, "sizes": (1, 2), "in_gate": False}
        yield Case("//*", CHAINS, rules_of("//*"), command, options, answer=SOME, **more)
        yield many("//*", CHAINS, SOME, command=command, options=options, **more)
    yield Case("/* and a query", CHAINS, rules_of("/*"), options=("--query", "//*"), answer=WHOLE,
               sizes=(1, 2), in_gate=False)
    for document in (MOST_ELEMENTS, MOST_TEXTS, SHORT_ATTRIBUTES, HUGE_TEXT):
        for path in ("//*//*//*//*", '//*[.//*//*//*//*="y"]'):
            yield many(path, document, ANY, in_gate=False)
    for command, options, answer in (
            ("preview", ("--explain",), SOME), ("preview", ("--query", "//*"), WHOLE),
            ("encode", (), SOME), ("view", (), WHOLE)):
        yield Case("//*", MOST_ELEMENTS, rules_of("//*"), command, options, answer=answer,
                   in_gate=False)


def commands():
    """Each command on the documents that are worst for it."""
    everything = rules_of("/*")
    for document in (CHAINS, CHAINS_OF_NAMES, WIDE_HEADS, FLAT, FLAT_OF_NAMES, LONG_TEXT,
                     SIBLINGS, MOST_ATTRIBUTES, FEW_ATTRIBUTES):
        more = {"sizes": SIZES, "in_gate": document not in (CHAINS, CHAINS_OF_NAMES)}
        yield Case("", document, (), "encode", answer=SOME, **more)
        yield Case("/*", document, everything, "view", answer=WHOLE, **more)
    for document in (SIBLINGS, FLAT, LONG_TEXT):
        for command in ("preview", "view"):
            yield Case("/* and a query", document, everything, command,
                       ("--query", '//*[.//*="y"]'), SIZES, answer=NOTHING)
        yield Case("//*", document, rules_of("//*"), "explain", sizes=SIZES, answer=SOME)
    yield many("//*", FLAT, SOME, command="explain", sizes=SIZES)


GROUPS = (ways, ways_of_commands, nested, growing, names_and_attributes, hospital, commands,
          largest)


# ---- the files that runs read

class CannotRun(Exception):
    """Why a case can't be measured."""


class Files:
    """The documents, rules, files and licences of the cases, each made when it is first needed."""

    def __init__(self, program, folder):
        self.program, self.folder, self.made = program, Path(folder), {}
        self.count = 0
        self.keys = self.folder / "keys"
        self.keys.write_text(f"document {bytes(range(16)).hex()}\nseal {bytes(range(32)).hex()}\n")

    def kept(self, of, make):
        """The file for this key, which `make` writes when it is first asked for."""
        if of not in self.made:
            self.count += 1
            place = self.folder / f"file{self.count}"
            with open(place, "wb") as out:
                make(out)
            self.made[of] = place
        return self.made[of]

    def by_program(self, out, words, given=subprocess.DEVNULL):
        """Runs the program to write a file, and returns its standard error."""
        ended = subprocess.run([self.program, *words], stdin=given, stdout=out,
                               stderr=subprocess.PIPE, timeout=120)
        if ended.returncode:
            raise CannotRun(f"{words[0]} ended with {ended.stderr.decode(errors='replace')!r}")
        return ended.stderr.decode()

    def document(self, document, size):
        def make(out):
            if document in FOLDERS:
                self.by_program(out, ["sample", str(FOLDERS[document][size])])
            for line in document.lines(size):
                out.write(line.encode())

        return self.kept((document, size), make)

    def body(self, rules, root="0" * 64):
        """A licence body."""
        lines = [f"{rule[0]} r{number} {rule[2:]}" for number, rule in enumerate(rules)]
        whole = "\n".join(["licence 1", f"root {root}", "user Ana", *lines, "end", ""])
        return self.kept((rules, root), lambda out: out.write(whole.encode()))

    def store(self, document, size):
        """An encoded document, and its root."""
        def make(out):
            with open(self.document(document, size), "rb") as given:
                roots.append(self.by_program(out, ["encode", self.keys], given).split()[1])

        roots = []
        place = self.kept((document, size, "encoded"), make)
        root = self.made.setdefault((document, size, "root"), roots[0] if roots else "")
        return place, root

    def licence(self, rules, root):
        def make(out):
            with open(self.body(rules, root), "rb") as given:
                self.by_program(out, ["seal", self.keys], given)

        return self.kept((rules, root, "sealed"), make)

    def command(self, case, size):
        """The command line of a case, and the file for its standard input."""
        if case.command == "preview":
            words, given = [self.body(case.rules)], self.document(case.document, size)
        elif case.command == "encode":
            words, given = [self.keys], self.document(case.document, size)
        else:
            store, root = self.store(case.document, size)
            words, given = [self.keys, store], self.licence(case.rules, root)
        return [self.program, case.command, *words, *case.options], given


# ---- runs

@dataclass(frozen=True)
class Run:
    """What one run took. For a run that was stopped, the time is infinite."""

    seconds: float
    memory: int
    status: int
    written: int
    said: str


def measured(words, given, limit):
    """Runs the program with a file as its input, for at most `limit` processor seconds."""
    with open(given, "rb") as source, tempfile.TemporaryFile() as error:
        child = subprocess.Popen(words, stdin=source, stdout=subprocess.PIPE, stderr=error)
        with contextlib.suppress(ProcessLookupError):
            resource.prlimit(child.pid, resource.RLIMIT_CPU, (limit, limit + 1))
        clock = threading.Timer(PATIENCE * limit, child.kill)
        clock.start()
        try:
            written = sum(map(len, iter(lambda: child.stdout.read1(1 << 20), b"")))
            _, status, used = os.wait4(child.pid, 0)
            child.returncode = os.waitstatus_to_exitcode(status)
        finally:
            clock.cancel()
            child.kill()
            child.stdout.close()
        error.seek(0)
        said = error.readline().decode(errors="replace").strip()
    was_stopped = child.returncode in (-signal.SIGXCPU, -signal.SIGKILL)
    seconds = math.inf if was_stopped else used.ru_utime + used.ru_stime
    return Run(seconds, used.ru_maxrss * 1024, child.returncode, written, said)


def own_memory():
    """A little more than the bytes of memory with which each child process begins."""
    return resource.getrusage(resource.RUSAGE_SELF).ru_maxrss * 1024 * 1.1


class Trials:
    """Runs cases, and keeps what each run took."""

    def __init__(self, files, limit, is_short):
        self.files, self.limit, self.is_short = files, limit, is_short
        self.runs = {}

    def sizes(self, case):
        return case.sizes[:2] if self.is_short else case.sizes

    def bytes_of(self, case, size):
        return self.files.document(case.document, size).stat().st_size

    def measure(self, case):
        """Makes a run for each size, up to the first that is stopped. The fastest one counts."""
        for size in self.sizes(case):
            words, given = self.files.command(case, size)
            run = measured(words, given, self.limit_of(case))
            before = self.runs.get((case, size), run)
            self.runs[case, size] = min(run, before, key=lambda it: it.seconds)
            if math.isinf(self.runs[case, size].seconds):
                break

    def of(self, case):
        sizes = (size for size in self.sizes(case) if (case, size) in self.runs)
        return [(size, self.runs[case, size]) for size in sizes]

    def limit_of(self, case):
        """The limit of a run. In the gate, a run is stopped soon after it has failed."""
        if self.is_short and case.most_in_gate < self.limit:
            return math.ceil(case.most_in_gate)
        return self.limit

    def faults(self, case):
        """What is wrong with the runs of a case."""
        before = None
        for size, run in self.of(case):
            yield from self.faults_of_run(case, run, self.bytes_of(case, size))
            if before:
                yield from self.faults_of_growth(before, (size, run.seconds))
            before = size, run.seconds

    def faults_of_run(self, case, run, length):
        most = case.most_in_gate if self.is_short else case.most
        if math.isinf(run.seconds):
            yield f"stopped after {self.limit_of(case)} s"
            return
        if run.status:
            yield f"ended with the status {run.status}: {run.said}"
        elif not is_due(case.answer, run.written, length):
            yield f"wrote {run.written} bytes, and {case.answer} was due"
        if run.seconds > most:
            yield f"{run.seconds:.2f} s, and at most {most} are allowed"
        if run.memory > max(case.memory * length, own_memory()):
            yield (f"{run.memory / length:.0f} times the document in memory, "
                   f"and at most {case.memory} are allowed")
        if case.beside:
            [(_, beside)] = self.of(case.beside)
            if run.seconds > case.times * max(beside.seconds, NOISE):
                yield (f"{run.seconds:.2f} s, and at most {case.times} times {beside.seconds:.2f} "
                       "are allowed")

    def faults_of_growth(self, small, large):
        """Whether the seconds grow faster than the document."""
        (size, seconds), (larger, more) = small, large
        growth, noise = (GROWTH_IN_GATE, NOISE_IN_GATE) if self.is_short else (GROWTH, 0)
        allowed = growth ** math.log2(larger / size) * max(seconds, NOISE) + noise
        if allowed < more < math.inf:
            yield f"{more:.2f} s, and {seconds:.2f} for a document {larger // size} times smaller"


def is_due(answer, written, length):
    """Whether a run may write this many bytes for a document of this length."""
    if answer == ANY:
        return True
    if answer == WHOLE:
        return written == length
    return (written > 0) == (answer == SOME)


# ---- what is printed

def seconds_of(run, limit):
    return f"more than {limit}" if math.isinf(run.seconds) else f"{run.seconds:.3f}"


def memory_of(run):
    """The memory in megabytes, or a dash where it can't be measured."""
    return f"{run.memory / 1e6:,.0f} MB" if run.memory > own_memory() else "-"


def print_rows(trials, case):
    for size, run in trials.of(case):
        print(f"{case.title()[:58]:58}  {case.document.what:48}  {trials.bytes_of(case, size):>10,}"
              f"  {seconds_of(run, trials.limit):>12}  {memory_of(run):>8}", flush=True)


def tried(trials, case):
    """Measures a case, again if it fails, and returns what is wrong."""
    try:
        faults = []
        for _ in range(TRIES):
            trials.measure(case)
            faults = list(trials.faults(case))
            if not faults or any(math.isinf(run.seconds) for _, run in trials.of(case)):
                break
        return faults
    except (CannotRun, subprocess.TimeoutExpired) as cause:
        return [f"can't be run: {cause}"]


def chosen(is_short, word):
    """The cases that are to be measured."""
    cases = [case for group in GROUPS for case in group() if case.in_gate or not is_short]
    return [case for case in cases if word in f"{case.title()} {case.document.what}"]


def words_of_line():
    reader = argparse.ArgumentParser(description=__doc__.split("\n")[0])
    reader.add_argument("program", help="the program acl")
    reader.add_argument("--short", action="store_true",
                        help="for the gate: fewer documents, and only what fails is printed")
    reader.add_argument("--only", default="", metavar="WORD",
                        help="only the cases that have that word in their row")
    reader.add_argument("--limit", type=int, metavar="SECONDS",
                        help="the processor seconds after which a run is stopped")
    return reader.parse_args()


def main():
    line = words_of_line()
    if not os.access(line.program, os.X_OK):
        print(f"{line.program}: there is no such program", file=sys.stderr)
        return 2
    limit = line.limit or (2 if line.short else 60)
    cases, failed = chosen(line.short, line.only), 0
    with tempfile.TemporaryDirectory() as folder:
        trials = Trials(Files(os.path.abspath(line.program), folder), limit, line.short)
        for case in cases:
            if case.beside and not trials.of(case.beside):
                tried(trials, case.beside)
            faults = tried(trials, case)
            failed += bool(faults)
            if not line.short:
                print_rows(trials, case)
            for fault in faults:
                print(f"FAILS {case.title()} over {case.document.what}: {fault}", flush=True)
    print(f"{len(cases)} worst cases were measured, {failed} were over their limits.")
    return 1 if failed else 0


if __name__ == "__main__":
    sys.exit(main())
