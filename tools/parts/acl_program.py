"""Runs `acl preview`, from which the tools know what rules do."""
import os
import shutil
import subprocess
import tempfile
from pathlib import Path

from plain_text import shown

BUILT = Path(__file__).resolve().parents[2] / "crates" / "acl_cli" / "out" / "acl_cli"


class Refused(Exception):
    """`acl` refused, with its standard error as the message, or it couldn't be run."""


def found_program(named):
    """The program of this name, or else `acl` on the path, or else the one built in this clone."""
    program = named or shutil.which("acl") or (str(BUILT) if BUILT.exists() else None)
    if program is None:
        raise Refused("acl is not on the path: build it (see README.md), or name it with --acl")
    return program


class Previews:
    """Runs of `acl preview` on one document."""

    def __init__(self, program, document, name):
        self.program, self.document, self.name = program, document, name

    def _run(self, body, options, name):
        with tempfile.TemporaryDirectory() as folder:
            file = os.path.join(folder, "body")
            Path(file).write_bytes(body)
            try:
                ended = subprocess.run([self.program, "preview", file, *options], check=False,
                                       input=self.document, capture_output=True)
            except OSError as fault:
                raise Refused(f"{shown(self.program)}: {fault.strerror}") from fault
        if ended.returncode != 0:
            said = ended.stderr.decode("utf-8", "backslashreplace").replace(file, shown(name))
            said = said.replace("acl: standard input:", f"acl: {shown(self.name)}:")
            raise Refused(said.strip() or f"acl ended with the status {ended.returncode}")
        return ended.stdout

    def view(self, body, name):
        """The view under a body. A refusal calls the body by this name."""
        return self._run(body, [], name)

    def explanation(self, body, name):
        """The explanation under a body, as a list of (sign, id, place) in document order."""
        lines = self._run(body, ["--explain"], name).decode("ascii").splitlines()
        return [tuple(line.split(" ")) for line in lines]
