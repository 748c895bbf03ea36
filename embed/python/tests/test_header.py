"""The package says of the library what embed/mdeh.h says: structures, calls, constants, reasons."""
from __future__ import annotations

import ast
import ctypes
import os
import re
import tempfile
import unittest
from pathlib import Path
from unittest import mock

from mdeh import interface, refusal

from .helpers import COMMAND, HEADER, PACKAGES, command

TEXT = HEADER.read_text()
TYPES = {"uint32_t": ctypes.c_uint32, "int32_t": ctypes.c_int32, "uint64_t": ctypes.c_uint64, "size_t": ctypes.c_size_t}


class Declared(unittest.TestCase):
    """What the header declares."""

    def test_structures(self) -> None:
        """Every structure that a call takes or returns has the header's fields, in their order and types."""
        names = {kind.__name__ for result, arguments in interface.CALLS.values() for kind in [result, *arguments]
                 if issubclass(kind, ctypes.Structure)}
        self.assertEqual(len(names), 10)
        for name in names:
            body = re.search(r"typedef struct \{([^{}]*)\} " + name + ";", TEXT)[1]
            body = re.sub(r"/\*.*?\*/", "", body, flags=re.DOTALL)
            declared = re.findall(r"(\w+) (\w+)(?:\[(\d+)\])?;", body)
            fields = [(field, TYPES[kind] * int(count) if count else TYPES[kind]) for kind, field, count in declared]
            self.assertEqual(getattr(interface, name)._fields_, fields, name)

    def test_calls(self) -> None:
        """Every call returns and takes what the header says."""
        for name, (result, arguments) in interface.CALLS.items():
            returned, taken = re.search(r"(\w+) " + name + r"\(([^)]*)\);", TEXT).groups()
            kinds = [ctypes.c_void_p if "*" in part else
                     TYPES.get(part.split()[0]) or getattr(interface, part.split()[0]) for part in taken.split(",")]
            self.assertEqual((returned, kinds), (result.__name__, arguments), name)

    def test_constants(self) -> None:
        """Counts and sizes are the header's."""
        for name in ("STATE_WORDS", "RECORD_BYTES", "MOST_WORDS", "MOST_PAGES", "MOST_RECORDS"):
            self.assertEqual(getattr(interface, name), int(re.search(rf"#define MDEH_{name} (\d+)\n", TEXT)[1]), name)
        self.assertEqual((interface.page_bytes(16), interface.file_bytes(3)), (194, 60))
        self.assertEqual(interface.VERSION, re.search(r'#define MDEH_VERSION "(.*)"\n', TEXT)[1])

    def test_reasons(self) -> None:
        """Every number has the header's name and text, also with an attribute."""
        declared = dict(re.findall(r"MDEH_(?:REFUSED_)?([A-Z]+) = (\d+)", TEXT))
        texts = dict(re.findall(r'case MDEH_(?:REFUSED_)?([A-Z]+): return "([^"]+)";', TEXT))
        self.assertEqual(len(declared), 16)
        for name, number in declared.items():
            self.assertEqual(getattr(refusal, name), int(number))
            self.assertEqual(refusal.reason_of(int(number), 4), texts[name])
        for attribute, text in enumerate(re.findall(r'"(the width of attribute \d [^"]+)"', TEXT)):
            self.assertEqual(refusal.reason_of(14, attribute), text)
        self.assertIn(f'default: return "{refusal.reason_of(16)}";', TEXT)


class Found(unittest.TestCase):
    """Where the library is looked for."""

    def test_named(self) -> None:
        """MDEH_LIBRARY names the library, and no other is taken in its place."""
        gone = command("check", os.devnull, MDEH_LIBRARY="/nowhere/libmdeh.so")
        self.assertEqual((gone.status, gone.out), (2, ""))
        self.assertIn("mdeh: /nowhere/libmdeh.so is no libmdeh.so", gone.err)
        with mock.patch.dict(os.environ, MDEH_LIBRARY="/a"):
            self.assertEqual(list(interface.places()), ["/a"])

    def test_order(self) -> None:
        """Without it, the file beside the package comes before the repository's."""
        with tempfile.TemporaryDirectory() as root, mock.patch.dict(os.environ):
            os.environ.pop("MDEH_LIBRARY", None)
            beside = Path(root).resolve() / "embed" / "python" / "mdeh" / "libmdeh.so"
            built = Path(root).resolve() / "target" / "lib" / "libmdeh.so"
            for path in (beside, built):
                path.parent.mkdir(parents=True)
                path.touch()
            with mock.patch.object(interface, "__file__", str(beside.parent / "interface.py")):
                self.assertEqual(list(interface.places())[:2], [str(beside), str(built)])


class Sources(unittest.TestCase):
    """The sources themselves."""

    def test_old_syntax(self) -> None:
        """Every source has the syntax of Python 3.8, and a text of what each function and type is for."""
        sources = sorted(PACKAGES.glob("*/*.py")) + [COMMAND]
        self.assertGreater(len(sources), 10)
        for path in sources:
            tree = ast.parse(path.read_text(), feature_version=(3, 8))
            for node in ast.walk(tree):
                if isinstance(node, (ast.Module, ast.ClassDef, ast.FunctionDef)):
                    self.assertTrue(ast.get_docstring(node), f"{path}: {getattr(node, 'name', 'the file')}")
