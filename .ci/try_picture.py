#!/usr/bin/env python3
"""Tries tools/picture.py with the built program: the facts in its pages, and where there is a Chromium the pages themselves.

    try_picture.py             tries them; what is expected of the hospital is worked by hand from the stored views in examples/
    try_picture.py FILE.png    writes the picture that stands in docs/, of the page of examples/hospital.esis
"""
import json
import re
import subprocess
import sys
import tempfile
from pathlib import Path

import browser

TOP = Path(__file__).resolve().parent.parent
EXAMPLES = TOP / "examples"
PROGRAM = TOP / "crates" / "acl_cli" / "out" / "acl_cli"
DATA = re.compile(r'<script type="application/json" id="data">(.*?)</script>', re.S)
ROOT = "0" * 64

# Elements: Hospital, Folder, Admin, SSN, Fname, Act, RPhys, Details. For each body the stored view, what is seen of each
# element, and the element and the number of each rule that decides.
READERS = [
    ("physician.rules", "physician.out", "--+++...", [0, -1, 2, 0]),
    ("doctor.rules", "doctor.out", "-+-+.+++", [0, -1, 1, 0, 2, 1, 3, 2]),
]

# Of a ward with patients: a rule, and what is found of it.
WARD = b"""Aid CDATA p1
(ward
(h:patient
Aid CDATA 7
(note
-</script><b>
)note
(note
-two
)note
)h:patient
)ward
"""
FOUND = [
    ("+ all /ward", []),
    ("- notes //Note", ["the denial `notes` selects nothing, so it hides nothing",
                        "the document has no element `Note`; the nearest name is `note` (upper and lower case differ)"]),
    ("+ closed /ward", ["`closed` decides nowhere: it selects 1 element, and there another rule decides"]),
    ("- one /ward/patient", ["the denial `one` selects nothing, so it hides nothing",
                             "the document has no element `patient`; the nearest name is `h:patient` (the prefix differs)"]),
    ("+ two //note[@Id='a]b']", ["the grant `two` selects nothing, so it shows nothing",
                                 "the document has no attribute `@Id`; the nearest name is `@id` (upper and lower case differ)"]),
    ("+ three //nota", ["the grant `three` selects nothing, so it shows nothing",
                        "the document has no element `nota`; the nearest name is `note` (the spelling differs)"]),
    ("+ four //id", ["the grant `four` selects nothing, so it shows nothing",
                     "the document has no element `id`; it has an attribute of that name, `@id`"]),
    ("- five //bed[.//@ward!=USER]", None),  # no path: `.//` wants a name
    ("+ six /ward[doctor]", ["the grant `six` selects nothing, so it shows nothing",
                             "the document has no element `doctor`, and no name like it"]),
]


def body_of(*rules, user="Ana"):
    return "".join(f"{line}\n" for line in ("licence 1", f"root {ROOT}", f"user {user}", *rules, "end"))


class Trials:
    def __init__(self, folder):
        self.folder, self.wrong, self.count = Path(folder), 0, 0

    def put(self, name, content):
        file = self.folder / name
        file.write_bytes(content if isinstance(content, bytes) else content.encode())
        return file

    def expect(self, what, made, want):
        self.count += 1
        if made != want:
            self.wrong += 1
            print(f"{what}: {made!r} in place of {want!r}")

    def picture(self, *words):
        words = [sys.executable, TOP / "tools" / "picture.py", "--acl", PROGRAM, *words]
        ended = subprocess.run(words, capture_output=True)
        return ended.returncode, ended.stdout, ended.stderr.decode()

    def page(self, name, *words):
        """A page under this name, and the data in it."""
        file = self.folder / name
        status, _, said = self.picture(*words, "-o", file)
        self.expect(f"{name} is written", (status, said), (0, ""))
        text = file.read_text()
        return file, json.loads(DATA.search(text)[1])


def counts_of(view):
    """The elements that a stored view shows, and those that it keeps as `-`."""
    starts = [line for line in view.read_text().splitlines() if line.startswith("(")]
    kept = sum(line == "(-" for line in starts)
    return len(starts) - kept, kept


def hospital(trials):
    """The page of the two readers of the example, and what it is made of."""
    page, data = trials.page("two readers.html", EXAMPLES / "hospital.esis", *(EXAMPLES / row[0] for row in READERS))
    trials.expect("names", [data["names"][number] for number in data["name"]],
                  ["Hospital", "Folder", "Admin", "SSN", "Fname", "Act", "RPhys", "Details"])
    trials.expect("inside", data["inside"], [7, 6, 2, 0, 0, 2, 0, 0])
    trials.expect("texts", data["texts"], {"3": "123", "4": "Li", "6": "Ana", "7": "calm"})
    for reader, (name, view, states, at) in zip(data["readers"], READERS, strict=True):
        shown, kept = counts_of(EXAMPLES / view)
        trials.expect(f"{name}: file", reader["file"], name)
        trials.expect(f"{name}: states", reader["states"], states)
        trials.expect(f"{name}: rules that decide", reader["at"], at)
        trials.expect(f"{name}: counts are those of the view", reader["counts"], [shown, kept, 8 - shown - kept])
        trials.expect(f"{name}: findings", reader["findings"], [])
    return page


def findings(trials):
    """The findings for each of these rules, in a body that first grants the root."""
    ward = trials.put("ward of Ana.esis", WARD)
    for rule, found in FOUND:
        rules = dict.fromkeys(["+ all /ward", rule])
        body = trials.put("one rule.rules", body_of(*rules))
        if found is None:
            trials.expect(rule, trials.picture(ward, body)[:2], (2, b""))
            continue
        _, data = trials.page("one rule.html", ward, body)
        told = ["".join(f"`{text}`" if quoted else text for quoted, text in finding["pieces"])
                for finding in data["readers"][0]["findings"] if finding["line"] == 3 + len(rules)]
        trials.expect(rule, told, found)


def names(trials):
    """Names of files with spaces and controls, names of elements with a control, and text that looks like markup."""
    ward = trials.put("ward\x1b of Ana.esis", WARD.replace(b"ward", b"ward\xc2\x85"))
    body = trials.put("b \n.rules", body_of("+ all /*", user="Zoë & <i>"))
    page, data = trials.page("p \x07.html", ward, body)
    text = page.read_text()
    trials.expect("a control in the title", "<title>Who sees what in ward\\x1b of Ana.esis</title>" in text, True)
    trials.expect("a control in a name", data["names"][0], "ward\\x85")
    trials.expect("a control in a body's name", data["readers"][0]["file"], "b \\x0a.rules")
    trials.expect("a user", data["readers"][0]["user"], "Zoë & <i>")
    trials.expect("text that looks like markup", (text.count("</script>"), data["texts"]["2"]), (2, "</script><b>"))
    refused = trials.picture(ward, trials.put("no \x1b body", "licence 2\n"))
    trials.expect("a body that is refused", refused[:2], (2, b""))
    trials.expect("its name", "no \\x1b body" in refused[2] and "\x1b" not in refused[2], True)
    trials.expect("a document that isn't there", trials.picture(trials.folder / "no\x1bthing", body),
                  (2, b"", f"picture.py: {trials.folder}/no\\x1bthing: No such file or directory\n"))
    trials.expect("a page that can't be written", trials.picture(ward, body, "-o", trials.folder)[0], 2)
    refused = trials.picture(EXAMPLES / "hospital.xml", body)
    trials.expect("a document that is refused", (refused[0], "hospital.xml" in refused[2]), (2, True))


def centre(page, selector):
    """The middle of an element of the page, which is scrolled to where it is seen."""
    return page.value(f"(() => {{ const it = document.querySelector({json.dumps(selector)}); it.scrollIntoView({{block: 'nearest'}});"
                      " const {x, y, width, height} = it.getBoundingClientRect(); return [x + width / 2, y + height / 2]; })()")


def coloured(page, reader):
    """The cells of a reader in each colour."""
    return [page.value(f"document.querySelectorAll('.cell.{state}[data-reader=\"{reader}\"]').length")
            for state in ("shown", "dummy", "hidden")]


def rows_seen(page):
    return page.value("[...document.querySelectorAll('.row:not(.head)')].filter(it => it.offsetParent).length")


def in_browser(trials, program, file):
    """The page of the two readers: colours, what the pointer shows, folding, and the dark colours."""
    with browser.Browser(program) as page:
        page.open(file)
        for number, (name, view, _, _) in enumerate(READERS):
            shown, kept = counts_of(EXAMPLES / view)
            trials.expect(f"{name}: coloured elements", coloured(page, number), [shown, kept, 8 - shown - kept])
        page.move_to(*centre(page, '.row[data-element="4"] .cell[data-reader="1"]'))
        trials.expect("what the pointer shows", page.value("document.getElementById('why').innerText.split(/\\n+/)"),
                      ["/Hospital/Folder/Admin/Fname", "Bea is shown nothing of it. Decided at /Hospital/Folder/Admin by "
                       "- admin /Hospital/Folder/Admin (line 5)."])
        trials.expect("rows", rows_seen(page), 8)
        page.click(*centre(page, '.row[data-element="2"] .fold'))
        trials.expect("rows once a part is folded", rows_seen(page), 6)
        page.click(*centre(page, '.row[data-element="2"] .fold'))
        trials.expect("rows once it is unfolded", rows_seen(page), 8)
        light = page.value("getComputedStyle(document.body).backgroundColor")
        page.set_dark()
        trials.expect("a dark page", page.value("getComputedStyle(document.body).backgroundColor") != light, True)


def large(trials, program):
    """A sample of 20,000 folders: few rows at first, and more where it is unfolded."""
    sample = subprocess.run([PROGRAM, "sample", "20000"], capture_output=True).stdout
    sample = trials.put("sample.esis", sample)
    body = trials.put("sample.rules", body_of("+ own //Folder[Act/RPhys=USER]/Admin"))
    file, data = trials.page("large.html", sample, body)
    if program is None:
        return "no browser"
    with browser.Browser(program) as page:
        page.open(file)
        opened = page.processor_seconds()
        trials.expect("it opens within two processor seconds", opened < 2, True)
        made = page.value("document.querySelectorAll('.row').length")
        trials.expect("few rows at first", 100 < made < 300, True)
        seen = rows_seen(page)
        last = "document.querySelector('.node.open > .kids > .node:not(.open):last-child > .row[data-from] .fold')"
        inside = page.value(f"(() => {{ const fold = {last}; fold.click();"
                            " return fold.closest('.node').kids.length; })()")
        trials.expect("rows once a folded part is unfolded", rows_seen(page), seen + inside)
        trials.expect("elements in all", (page.value("size"), len(data["name"])), (190001, 190001))
    return f"20,000 folders open in {opened:.1f} processor seconds"


def write_picture(program, file, picture):
    """The page of the two readers, with the pointer on an element."""
    with browser.Browser(program, 1160, 880, 2) as page:
        page.open(file)
        page.move_to(*centre(page, '.row[data-element="4"] .cell[data-reader="1"]'))
        page.picture(picture)


def main():
    program = browser.found()
    with tempfile.TemporaryDirectory() as folder:
        trials = Trials(folder)
        page = hospital(trials)
        if len(sys.argv) > 1:
            write_picture(program, page, Path(sys.argv[1]))
            return 0
        findings(trials)
        names(trials)
        if program:
            in_browser(trials, program, page)
        how = large(trials, program)
    print(f"{trials.count} facts of pictures were tried ({how}), {trials.wrong} were not as expected.")
    return 1 if trials.wrong else 0


if __name__ == "__main__":
    sys.exit(main())
