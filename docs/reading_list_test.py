"""Tests docs/reading-list on copies of the repository's sources: what it lists, and what it refuses.

    python3 docs/reading_list_test.py
"""
import re
import shutil
import subprocess
import sys
import tempfile
import unittest
from pathlib import Path

ROOT = Path(__file__).resolve().parent.parent
SPLIT = "crates/split/specs/Bits.antt"


class ReadingList(unittest.TestCase):
    """Each test has a copy of its own, and changes it."""

    def setUp(self):
        self.folder = tempfile.TemporaryDirectory()
        self.addCleanup(self.folder.cleanup)
        self.root = Path(self.folder.name)
        for path in ("README.md", "crates.txt", "docs/reading-list", "docs/ASSUMPTIONS.md"):
            (self.root / path).parent.mkdir(exist_ok=True)
            shutil.copy(ROOT / path, self.root / path)
        for pattern in ("src/**/*.rt", "specs/**/*.antt"):
            for file in ROOT.glob(f"crates/*/{pattern}"):
                copy = self.root / file.relative_to(ROOT)
                copy.parent.mkdir(parents=True, exist_ok=True)
                shutil.copy(file, copy)

    def edit(self, path, old, new):
        """Puts a text for one that stands once in a file."""
        text = (self.root / path).read_text(encoding="utf-8")
        self.assertEqual(text.count(old), 1, f"{path}: {old}")
        (self.root / path).write_text(text.replace(old, new), encoding="utf-8")

    def run_it(self, *words):
        """Runs the copy's script: its exit status, and what it prints and tells."""
        command = [sys.executable, str(self.root / "docs/reading-list"), *words]
        ran = subprocess.run(command, stdout=subprocess.PIPE, stderr=subprocess.PIPE, encoding="utf-8", check=False)
        return ran.returncode, ran.stdout, ran.stderr

    def refused(self, *texts):
        """The copy is refused with a reason that has these texts, and nothing is printed."""
        status, printed, told = self.run_it()
        self.assertEqual((status, printed), (1, ""), told)
        for text in texts:
            self.assertIn(text, told)

    def test_each_file_comes_after_those_that_it_uses(self):
        status, printed, told = self.run_it()
        self.assertEqual(status, 0, told)
        places = {path: at for at, path in enumerate(re.findall(r"crates/\w+/specs/\w+\.antt", printed))}
        self.assertGreater(len(places), 40)
        for path, at in places.items():
            text = (self.root / path).read_text(encoding="utf-8")
            for crate, name in re.findall(r"(?m)^use Rattle\.(?!std\.)(\w+)\.specs\.(?!declared)(\w+)", text):
                self.assertLess(places[f"crates/{crate}/specs/{name}.antt"], at, path)

    def test_document_holds_the_list(self):
        self.assertEqual(self.run_it("--check")[0], 0)

    def test_stale_list_is_told_and_mended(self):
        self.edit(SPLIT, "\n-- split bits is", "\n-- another line\n-- split bits is")
        status, _, told = self.run_it("--check")
        self.assertEqual(status, 1)
        self.assertIn(f"+    4        5 {SPLIT}", told)
        self.assertEqual(self.run_it("--write")[0], 0)
        self.assertEqual(self.run_it("--check")[0], 0)

    def test_document_without_a_mark(self):
        self.edit("docs/ASSUMPTIONS.md", "<!-- reading-list: end -->\n", "")
        status, _, told = self.run_it("--check")
        self.assertEqual(status, 1)
        self.assertIn("marks", told)

    def test_renamed_definitions(self):
        (self.root / SPLIT).rename(self.root / "crates/split/specs/Other.antt")
        self.refused(SPLIT, "No such file")

    def test_definition_that_rests_on_a_proof(self):
        self.edit(SPLIT, "use Rattle.split.", "use Rattle.shape.proofs.ShapeLaws.{x}\nuse Rattle.split.")
        self.refused(f"{SPLIT}:", "rests on a proof")

    def test_imports_of_other_forms(self):
        text = (self.root / SPLIT).read_text(encoding="utf-8")
        module = "Rattle.shape.specs.Key"
        forms = (f"use {module}.{{", "use Key.{x}", f"  use {module}.{{x}}", f"y = {module}.x", "y = package.Key.x")
        for line in forms:
            (self.root / SPLIT).write_text(f"{text}{line}\n", encoding="utf-8")
            self.refused(f"{SPLIT}:")

    def test_renamed_type_and_call(self):
        self.edit("crates/store/src/lib.rt", "pub struct State {", "pub struct Condition {")
        self.refused("crates/store/src/lib.rt", "State")
        self.edit("crates/store/src/lib.rt", "pub struct Condition {", "pub struct State {")
        self.edit("crates/lookup/src/lib.rt", "pub fn lookup(", "pub fn seek(")
        self.refused("lookup is declared 0 times")

    def test_contract_that_names_another_file(self):
        before = self.run_it()[1]
        self.assertNotIn("crates/shape/specs/Integers.antt", before.split("\n2. ")[0])
        path, line = "crates/mdeh/src/lib.rt", "ghost use Rattle.host_state.specs.Image.{state_in};\n"
        self.edit(path, line, f"{line}ghost use Rattle.shape.specs.Integers.{{integer_of}};\n")
        self.assertEqual(self.run_it()[1], before)
        self.edit(path, "{ result.sound ≤ 1 }", "{ integer_of result.sound ≤ 1 }")
        self.assertIn("crates/shape/specs/Integers.antt", self.run_it()[1].split("\n2. ")[0])

    def test_readme_without_statements(self):
        self.edit("README.md", "## What is proved", "## Proved")
        self.refused("README.md")

    def test_words(self):
        self.assertIn("--check", self.run_it("--help")[1])
        self.assertEqual(self.run_it("--other")[0], 2)


if __name__ == "__main__":
    unittest.main()
