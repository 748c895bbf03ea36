"""`mdeh check`, `mdeh save` and `mdeh load`: memory images as a host keeps them."""
from __future__ import annotations

import json
import os
import struct
from pathlib import Path

from mdeh import Shape, Store

from .helpers import FolderTest, gateway_rows, run

IMAGE = ["state", "directory", "pages"]


class Images(FolderTest):
    """Images and files."""

    def keep(self, shape: Shape, **memory: int) -> Store:
        """Keeps a small store's image, with the words of the directory that are in use alone."""
        store = Store.fresh(shape, **memory)
        store.insert_all([((i, 3 - i), i + 1) for i in range(4)])
        Path("state").write_bytes(struct.pack("<23I", *store.state))
        Path("directory").write_bytes(bytes(store.memory.directory)[:4 << store.state[8]])
        Path("pages").write_bytes(bytes(store.memory.pages))
        return store

    def test_gateway_round_trip(self) -> None:
        """A file goes into an image and comes back byte for byte, in the least memory too."""
        self.write_rows("events.csv", gateway_rows(1))
        run("import", "events.csv", "--quiet", "-o", "gw.mdeh")
        pages = json.loads(run("info", "gw.mdeh", "--json").out)["pages"]
        for flags, sizes in (([], [92, 16384, 4096 * 194]), (["--pages", str(pages)], [92, 16384, pages * 194])):
            loaded = run("load", "gw.mdeh", *IMAGE, *flags)
            self.assertEqual(loaded.status, 0)
            self.assertEqual([os.path.getsize(name) for name in IMAGE], sizes)
            records = loaded.out[len("loaded: "):]
            self.assertEqual(run("check", *IMAGE), (0, f"sound: {records}", ""))
            self.assertEqual(run("save", *IMAGE, "-o", "again.mdeh"), (0, f"saved: {records}", ""))
            self.assertEqual(Path("again.mdeh").read_bytes(), Path("gw.mdeh").read_bytes())
        self.refused(run("load", "gw.mdeh", *IMAGE, "--pages", str(pages - 1)), "gw.mdeh: 7 (there are too few pages)")
        self.refused(run("load", "gw.mdeh", *IMAGE, "--words", "64"), "gw.mdeh: 6 (")
        self.refused(run("load", "gw.mdeh", *IMAGE, "--words", "0"), "gw.mdeh: 2 (")
        self.assertEqual(os.path.getsize("pages"), pages * 194)
        self.assertEqual(run("check", "gw.mdeh"), (0, f"sound: {records}", ""))

    def test_kept_short(self) -> None:
        """Directory words that are not in use need not be kept, nor the last word of an earlier version's state."""
        store = self.keep(Shape([2, 2], 2), words=16, pages=16)
        self.assertEqual(run("check", *IMAGE), (0, "sound: 4 records\n", ""))
        Path("state").write_bytes(Path("state").read_bytes()[:88])
        self.assertEqual(run("check", *IMAGE).status, 0)
        self.assertEqual(run("save", *IMAGE, "-o", "a.mdeh").status, 0)
        self.assertEqual(Path("a.mdeh").read_bytes(), store.save())

    def test_damaged(self) -> None:
        """Images that are damaged or cut off are refused with their number."""
        self.keep(Shape([2, 2], 2), words=16, pages=16)
        whole = {name: Path(name).read_bytes() for name in IMAGE}
        cases = [("state", b"", "1 ("), ("state", whole["state"][:84], "1 ("), ("state", whole["state"][:90], "words"),
                 ("state", b"\5" + whole["state"][1:], "1 ("), ("state", whole["state"][:4] + bytes(4) +
                                                                 whole["state"][8:], "14 (the width of attribute 0"),
                 ("directory", b"\xff" + whole["directory"][1:], "9 (the store is not sound)"),
                 ("directory", whole["directory"][:3], "words"), ("pages", whole["pages"][:-1], "2 (too few"),
                 ("pages", b"\7" + whole["pages"][1:], "9 (")]
        for name, data, part in cases:
            Path(name).write_bytes(data)
            self.refused(run("check", *IMAGE), part)
            self.refused(run("save", *IMAGE, "-o", "a.mdeh"), part)
            Path(name).write_bytes(whole[name])
        self.assertEqual(run("check", *IMAGE).status, 0)
        store = self.keep(Shape([2, 2], 4), words=16, pages=16)
        store.memory.pages[2 + 12] ^= 1
        self.assertEqual(store.count(), 4)
        Path("pages").write_bytes(bytes(store.memory.pages))
        self.refused(run("check", *IMAGE), "9 (the store is not sound)")
        self.refused(run("save", *IMAGE, "-o", "a.mdeh"), "9 (the store is not sound)")
        self.assertFalse(os.path.exists("a.mdeh"))

    def test_names(self) -> None:
        """A saved image gets its description by flags, and keeps one that fits."""
        self.keep(Shape([2, 2], 2), words=16, pages=16)
        flags = ["--attribute", "code:2:from=30", "--attribute", "slot:2", "--payload", "log"]
        self.assertEqual(run("save", *IMAGE, "-o", "a.mdeh", *flags).status, 0)
        wanted = (0, "code  slot  log\n  31     2    2\n1 record, 1 page read\n", "")
        self.assertEqual(run("ask", "a.mdeh", "code=31"), wanted)
        self.assertEqual(run("save", *IMAGE, "-o", "a.mdeh").status, 0)
        self.assertEqual(run("ask", "a.mdeh", "code=31"), wanted)
        self.refused(run("save", *IMAGE, "-o", "a.mdeh", "--attribute", "code:3", "--attribute", "slot:2"), "shape")
        self.refused(run("save", *IMAGE, "-o", "a.mdeh", "--attribute", "code:2:from=0,to=2", "--attribute", "slot:2"),
                     "--attribute: the file has a key that its attributes cannot have")
        self.keep(Shape([2, 3], 2), words=16, pages=16)
        self.refused(run("save", *IMAGE, "-o", "a.mdeh"), "a.mdeh.json: it describes a store of another shape")
        self.assertEqual(run("ask", "a.mdeh", "code=31"), wanted)

    def test_what_a_file_lacks(self) -> None:
        """A save over a file keeps what its import lacked, and takes no description that was changed."""
        self.write("a.csv", "a\n1\n2\nx\n")
        self.assertEqual(run("import", "a.csv", "-o", "a.mdeh").status, 2)
        self.assertEqual(run("load", "a.mdeh", *IMAGE).status, 0)
        self.assertEqual(run("save", *IMAGE, "-o", "a.mdeh").status, 0)
        ran = run("ask", "a.mdeh", "a=1")
        self.assertEqual((ran.status, ran.err), (0, "mdeh: a.mdeh lacks 1 of the imported rows: an answer may lack "
                                                    "them too\n"))
        text = Path("a.mdeh.json").read_text()
        Path("a.mdeh.json").write_text(text.replace('"from": 1', '"from": 0').replace('"to": 2', '"to": 1'))
        self.assertIn("was changed", run("ask", "a.mdeh").err)
        self.refused(run("check", "a.mdeh"), "was changed")
        self.refused(run("save", *IMAGE, "-o", "a.mdeh"), "was changed")
        self.assertEqual(run("save", *IMAGE, "-o", "a.mdeh", "--attribute", "a:1:from=1,to=2").status, 0)
        self.assertEqual(run("check", "a.mdeh"), (0, "sound: 2 records\n", ""))

    def test_unusable(self) -> None:
        """Files that are not there, or are named twice."""
        self.keep(Shape([2, 2], 2), words=16, pages=16)
        self.assertEqual(run("save", *IMAGE, "-o", "a.mdeh").status, 0)
        self.refused(run("check", "gone", *IMAGE[1:]), "gone")
        self.refused(run("check", *IMAGE[:2]), "check takes")
        self.refused(run("check"), "FILE")
        self.refused(run("save", *IMAGE, "-o", "pages"), "overwritten")
        self.refused(run("load", "a.mdeh", "x", "x", "y"), "overwritten")
        self.refused(run("load", "a.mdeh", "a.mdeh", "x", "y"), "overwritten")
        self.refused(run("load", "gone.mdeh", "x", "y", "z"), "gone.mdeh")
        self.refused(run("load", "a.mdeh", "x", "y"), "PAGES")
        self.assertFalse(os.path.exists("x") or os.path.exists("y"))
