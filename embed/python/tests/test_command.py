"""The command as a process: its places, its streams, its signals."""
from __future__ import annotations

import os
import pty
import shlex
import shutil
import signal
import subprocess
import sys
import time
from pathlib import Path

from mdeh import interface

from .helpers import COMMAND, PACKAGES, FolderTest, command, gateway_rows, run


class Process(FolderTest):
    """Processes of their own."""

    def test_help_and_version(self) -> None:
        """Every command tells what it is for; the version is the package's."""
        self.assertEqual(command("--version"), (0, f"mdeh {interface.VERSION}\n", ""))
        self.assertIn("mdeh ask gw.mdeh code=30", run("--help").out)
        for name in ("import", "ask", "info", "check", "save", "load"):
            ran = run(name, "--help")
            self.assertEqual((ran.status, ran.err, ran.out.startswith(f"usage: mdeh {name}")), (0, "", True))
        for arguments in ([], ["what"], ["--what"], ["ask", "x", "--what"]):
            self.refused(run(*arguments))

    def test_three_commands(self) -> None:
        """The command in the repository, as a module, and installed, from another folder."""
        self.write("events.csv", "code,slot,log\n30,2,7\n31,3,8\n")
        root = Path("root")
        shutil.copytree(PACKAGES / "mdeh", root / "share/mdeh/python/mdeh")
        (root / "bin").mkdir()
        shutil.copy(COMMAND, root / "bin/mdeh")
        shutil.copy(next(interface.places()), root / "share/mdeh/python/mdeh/libmdeh.so")
        ways = [([str(COMMAND)], {}), (["-m", "mdeh"], {"PYTHONPATH": str(PACKAGES)}), ([str(root / "bin/mdeh")], {})]
        for program, environment in ways:
            ran = command("import", "events.csv", "-o", "gw.mdeh", program=program, **environment)
            self.assertEqual(ran.status, 0, ran)
            ran = command("ask", "gw.mdeh", "code=30", program=program, **environment)
            self.assertEqual(ran, (0, "code  slot  log\n  30     2    7\n1 record, 1 page read\n", ""))

    def test_closed_pipe(self) -> None:
        """A reader that goes away is no error."""
        self.write_rows("events.csv", gateway_rows(1))
        run("import", "events.csv", "--quiet", "-o", "gw.mdeh")
        reader, writer = os.pipe()
        os.close(reader)
        with os.fdopen(writer, "wb") as closed:
            done = subprocess.run([sys.executable, str(COMMAND), "ask", "gw.mdeh"], stdout=closed,
                                  stderr=subprocess.PIPE, check=False)
        self.assertEqual((done.returncode, done.stderr), (141, b""))

    def test_full_disk(self) -> None:
        """An answer that cannot be written is told."""
        self.write("a.csv", "a\n1\n")
        run("import", "a.csv", "-o", "a.mdeh")
        with open("/dev/full", "wb") as full:
            done = subprocess.run([sys.executable, str(COMMAND), "ask", "a.mdeh"], stdout=full, stderr=subprocess.PIPE,
                                  check=False)
        self.assertEqual((done.returncode, done.stderr), (2, b"mdeh: [Errno 28] No space left on device\n"))

    def test_faults_are_not_nothing_found(self) -> None:
        """Where nothing can be told, or the package is not there, the status is 2."""
        self.write("a.csv", "a\n1\n")
        self.assertEqual(run("import", "a.csv", "-o", "a.mdeh").status, 0)
        shutil.copy(COMMAND, "alone")
        for program, rest in ((str(COMMAND), "b=1 2>/dev/full"), (str(COMMAND), "b=1 2>&-"), (str(COMMAND), "a=1 >&-"),
                              ("./alone", "a=1")):
            line = f"{shlex.quote(sys.executable)} {shlex.quote(program)} ask a.mdeh {rest}"
            done = subprocess.run(["sh", "-c", line], stdout=subprocess.PIPE, stderr=subprocess.PIPE, check=False)
            self.assertEqual(done.returncode, 2, (line, done.stderr))

    def test_interrupt(self) -> None:
        """An interrupt is quiet, and leaves no file."""
        os.mkfifo("events.csv")
        # whoever runs the tests in the background has interrupts ignored, and a process inherits that
        with subprocess.Popen([sys.executable, str(COMMAND), "import", "events.csv", "-o", "gw.mdeh"],
                              stderr=subprocess.PIPE,
                              preexec_fn=lambda: signal.signal(signal.SIGINT, signal.SIG_DFL)) as process:
            with open("events.csv", "w", encoding="ascii") as events:
                events.write("a,b\n1,2\n")
                events.flush()
                time.sleep(0.3)
                process.send_signal(signal.SIGINT)
                process.wait(10)
            self.assertEqual((process.returncode, process.stderr.read()), (130, b""))
        self.assertEqual(os.listdir(), ["events.csv"])

    def test_ascii_stream(self) -> None:
        """Names beyond the stream's characters are escaped."""
        self.write("a.csv", "cöde\n1\n")
        self.assertEqual(run("import", "a.csv", "-o", "a.mdeh").status, 0)
        ran = command("ask", "a.mdeh", "--csv", PYTHONIOENCODING="ascii")
        self.assertEqual((ran.status, ran.out), (0, "c\\xf6de,line\n1,2\n"))

    def test_progress(self) -> None:
        """On a terminal the progress is shown and taken away; elsewhere there is none."""
        self.write_rows("events.csv", gateway_rows(1, 3000))
        shown = self.on_terminal("import", "events.csv", "--quiet", "-o", "gw.mdeh")
        self.assertIn("2000 of 3000 rows", shown)
        self.assertTrue(shown.endswith("\r\x1b[K"), shown)
        self.assertEqual(command("import", "events.csv", "--quiet", "-o", "gw.mdeh").err, "")

    def on_terminal(self, *arguments: str) -> str:
        """What a run writes to standard error where that is a terminal."""
        outer, inner = pty.openpty()
        try:
            process = subprocess.Popen([sys.executable, str(COMMAND), *arguments], stdout=subprocess.DEVNULL,
                                       stderr=inner)
            os.close(inner)
            parts = []
            while True:
                try:
                    part = os.read(outer, 4096)
                except OSError:
                    break
                if not part:
                    break
                parts.append(part)
            self.assertEqual(process.wait(10), 0)
        finally:
            os.close(outer)
        return b"".join(parts).decode()
