"""What several tests use: runs of the command, gateway rows, temporary folders."""
from __future__ import annotations

import contextlib
import io
import os
import random
import subprocess
import sys
import tempfile
import unittest
from pathlib import Path
from typing import Dict, List, NamedTuple, Sequence, Tuple

from mdeh.cli import main

PACKAGES = Path(__file__).resolve().parents[1]
HEADER = PACKAGES.parent / "mdeh.h"
COMMAND = PACKAGES / "bin" / "mdeh"

Row = Tuple[int, int, int, int]


class Ran(NamedTuple):
    """What a run of the command gave."""

    status: int
    out: str
    err: str


def run(*arguments: str) -> Ran:
    """Runs the command in this process."""
    out, err = io.StringIO(), io.StringIO()
    with contextlib.redirect_stdout(out), contextlib.redirect_stderr(err):
        try:
            status = main(arguments)
        except SystemExit as end:
            status = end.code or 0
    return Ran(status, out.getvalue(), err.getvalue())


def command(*arguments: str, program: Sequence[str] = (str(COMMAND),), **environment: str) -> Ran:
    """Runs the command as a process of its own."""
    done = subprocess.run([sys.executable, *program, *arguments], stdout=subprocess.PIPE, stderr=subprocess.PIPE,
                          env={**os.environ, **environment}, check=False)
    return Ran(done.returncode, done.stdout.decode(), done.stderr.decode())


def gateway_rows(seed: int, count: int = 20000) -> List[Row]:
    """Random events: code, slot, release, and a log pointer."""
    draw = random.Random(seed)
    return [(draw.randrange(100), draw.randrange(24), draw.randrange(398, 480), i + 1) for i in range(count)]


def first_of(rows: Sequence[Row]) -> Dict[Tuple[int, ...], int]:
    """The payload of each key: that of the first row with it."""
    payloads: Dict[Tuple[int, ...], int] = {}
    for *key, payload in rows:
        payloads.setdefault(tuple(key), payload)
    return payloads


class FolderTest(unittest.TestCase):
    """A test in a temporary folder of its own, which is the current one."""

    def setUp(self) -> None:
        """Enters the folder."""
        folder = tempfile.TemporaryDirectory()
        self.addCleanup(folder.cleanup)
        self.addCleanup(os.chdir, os.getcwd())
        os.chdir(folder.name)

    def write(self, name: str, text: str) -> str:
        """Writes a text file, and gives its name."""
        Path(name).write_bytes(text.encode())
        return name

    def write_rows(self, name: str, rows: Sequence[Row]) -> str:
        """Writes a CSV file of events, and gives its name."""
        lines = [f"{code},{slot},{release},\"door, open\",{log}" for code, slot, release, log in rows]
        return self.write(name, "\n".join(["code,slot,release,text,log"] + lines) + "\n")

    def refused(self, ran: Ran, *parts: str) -> None:
        """Expects status 2, one line on standard error that begins with `mdeh: ` and has the parts, and no more."""
        self.assertEqual((ran.status, ran.out), (2, ""), ran)
        self.assertRegex(ran.err, r"\Amdeh: [^\n]+\n\Z")
        for part in parts:
            self.assertIn(part, ran.err)
