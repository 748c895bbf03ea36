"""`mdeh import`: rows into files, proposals, refused rows, the description."""
from __future__ import annotations

import json
import os
import random
import re
import time
from pathlib import Path
from unittest import mock

from mdeh import Store, Table

from .helpers import FolderTest, command, first_of, gateway_rows, run

FLAGS = ["--attribute", "code:7:from=0,to=99", "--attribute", "slot:5:from=0,to=23", "--attribute",
         "release:7:from=398,to=479", "--payload", "log"]


class Gateway(FolderTest):
    """20,000 random gateway rows."""

    def test_every_key_is_stored(self) -> None:
        """By several seeds, the proposal holds every distinct key, with the payload of its first row; every other row
        is told with 4, and the flags that were printed give the same file again."""
        for seed in (1, 2, 3):
            rows = gateway_rows(seed)
            payloads = first_of(rows)
            ran = run("import", self.write_rows("events.csv", rows), "-o", "gw.mdeh")
            twice = len(rows) - len(payloads)
            self.assertEqual(ran.status, 0, ran)
            self.assertIn(f"\n20000 rows: {len(payloads)} stored, {twice} refused (4: {twice})\n", ran.out)
            told = re.findall(r"^line (\d+): 4 \(the key is stored already\)$", ran.err, re.MULTILINE)
            first = set(payloads.values())
            self.assertEqual([int(line) for line in told], [log + 1 for *_, log in rows if log not in first])
            self.assertEqual(len(ran.err.splitlines()), twice)
            listed = Table.load("gw.mdeh").ask({}).rows
            self.assertEqual(listed, sorted(key + (log,) for key, log in payloads.items()))
            flags = re.search(r"^proposed: (.*)$", ran.out, re.MULTILINE)[1].split()
            again = run("import", "events.csv", "--quiet", "-o", "again.mdeh", *flags)
            self.assertEqual((again.status, again.err), (0, ""))
            for end in ("", ".json"):
                self.assertEqual(Path("gw.mdeh" + end).read_bytes(), Path("again.mdeh" + end).read_bytes())

    def test_proposal_tries_on(self) -> None:
        """A proposal that meets 6 goes on to a spare attribute; where nothing holds it takes the fewest refused."""
        met = set()
        for seed in (3, 4, 7):
            self.write_rows("events.csv", gateway_rows(seed))
            spread = run("import", "events.csv", "--quiet", "-o", "spread.mdeh", *FLAGS)
            ran = run("import", "events.csv", "--quiet", "-o", "gw.mdeh")
            self.assertEqual(ran.status, 0)
            self.assertEqual("--spare" in ran.out or "reversed" in ran.out, spread.status == 2, (seed, ran))
            met.add(spread.status)
        self.assertEqual(met, {0, 2})
        self.write_rows("events.csv", gateway_rows(5))
        self.assertIn(" --spare 3 ", run("import", "events.csv", "--quiet", "-o", "gw.mdeh").out)
        self.assertIn(" --spare 1 ", run("import", "events.csv", "--quiet", "--spare", "1", "-o", "gw.mdeh").out)
        lines = [f"{i % 64},{i // 64}" for i in range(4096)]
        self.write("events.csv", "\n".join(["a,b", "0,0"] + lines + ["65535,65535"]))
        ran = run("import", "events.csv", "--quiet", "-o", "gw.mdeh")
        self.assertEqual((ran.status, "reversed" in ran.out, "(6, 7)" in ran.err), (0, True, False), ran)
        lines = [f"{i % 16 * 64},{i // 16 * 64}" for i in range(256)]
        self.write("clustered.csv", "\n".join(["a,b"] + lines + ["65535,65535"]))
        ran = run("import", "clustered.csv", "--quiet", "-o", "gw.mdeh")
        self.assertEqual((ran.status, "proposed: " in ran.out, "(6, 7)" in ran.err), (2, True, True), ran)
        self.assertIn("257 rows: 17 stored, 240 refused (6: 240)\n", ran.out)
        ran = run("import", "events.csv", "--quiet", "-o", "gw.mdeh", "--attribute", "a:16", "--attribute", "b:16")
        self.assertEqual(ran.status, 2)
        self.assertRegex(ran.out, r"^4098 rows: 17 stored, 4081 refused \(4: \d+, 6: \d+\)\n$")
        self.assertIn("(6, 7)", ran.err)

    def test_time(self) -> None:
        """An import of 20,000 rows takes seconds at most, with the start of the process."""
        self.write_rows("events.csv", gateway_rows(1))
        begin = time.monotonic()
        ran = command("import", "events.csv", "--quiet", "-o", "gw.mdeh")
        taken = time.monotonic() - begin
        self.assertEqual(ran.status, 0, ran)
        self.assertLess(taken, 5)

    def test_replace(self) -> None:
        """With --replace each key has the payload of its last row."""
        rows = gateway_rows(4)
        payloads = {row[:3]: row[3] for row in rows}
        ran = run("import", self.write_rows("events.csv", rows), "--replace", "-o", "gw.mdeh")
        self.assertEqual((ran.status, ran.err), (0, ""))
        self.assertIn(f"{len(payloads)} stored, {20000 - len(payloads)} replaced, 0 refused\n", ran.out)
        self.assertEqual(Table.load("gw.mdeh").ask({}).rows, sorted(key + (log,) for key, log in payloads.items()))


class Columns(FolderTest):
    """Which columns become attributes and payload."""

    def test_payload(self) -> None:
        """The payload's column by flag, by name, or the line on which a row begins."""
        self.write("a.csv", 'a,log,payload\n1,20,30\n"2",21,31\n\n3,22,"32"\n')
        for flags, name, wanted in (([], "payload", [30, 31, 32]), (["--payload", "log"], "log", [20, 21, 22]),
                                    (["--attribute", "a:2", "--attribute", "payload:5"], "log", [20, 21, 22]),
                                    (["--columns", "payload,log"], "line", [2, 3, 5])):
            ran = run("import", "a.csv", "-o", "a.mdeh", *flags)
            self.assertEqual(ran.status, 0 if "payload:5" not in flags else 2, ran)
            self.assertEqual(json.loads(Path("a.mdeh.json").read_text())["payload"], name)
            if ran.status == 0:
                self.assertEqual(sorted(row[-1] for row in Table.load("a.mdeh").ask({}).rows), wanted)
        self.write("a.csv", "line,text\n7,\"one\ntwo\"\n8,x\n")
        self.assertEqual(run("import", "a.csv", "--columns", "line", "-o", "a.mdeh").status, 0)
        self.assertEqual(run("ask", "a.mdeh").out, "line  csv line\n   7         2\n   8         4\n"
                                                  "2 records, 1 page read\n")

    def test_choice(self) -> None:
        """The first four columns of whole numbers are taken, the others told with the reason."""
        self.write("a.csv", "a,text,wide,b,c,,c,d,e,f\n" "1,x,0,1,1,1,1,-5,9,1\n" "2,y,70000,1,1,1,1,-1,9,2\n")
        ran = run("import", "a.csv", "-o", "a.mdeh")
        self.assertEqual(ran.status, 0)
        self.assertIn("--attribute a:1:from=1,to=2 --attribute b:1:from=1,to=1 --attribute d:3:from=-5,to=-1 "
                      "--attribute e:1:from=9,to=9\n", ran.out)
        for part in ('"text" (2 of 2 rows have no whole number, the first on line 2: "x")', '"f" (four are taken)',
                     '"wide" (its values from 0 to 70000 need 17 bits', '"" (it has no', '"c" (its name comes twice)'):
            self.assertIn(part, ran.out)
        ran = run("import", "a.csv", "--columns", "f,a", "-o", "a.mdeh")
        self.assertIn("proposed: --attribute f:1:from=1,to=2 --attribute a:1:from=1,to=2\n", ran.out)
        self.refused(run("import", "a.csv", "--columns", "a,wide", "-o", "a.mdeh"), '"wide"', "17 bits")
        self.refused(run("import", "a.csv", "--columns", "a,c", "-o", "a.mdeh"), '2 columns are called "c"')
        self.refused(run("import", "a.csv", "--columns", "a,x", "-o", "a.mdeh"), 'no column "x"')
        self.refused(run("import", "a.csv", "--columns", "a", "--attribute", "b:1", "-o", "a.mdeh"), "--columns")
        self.refused(run("import", "a.csv", "--attribute", "a:3", "--payload", "a", "-o", "a.mdeh"), "payload")
        self.refused(run("import", "a.csv", "--attribute", "a:3", "--payload", "z", "-o", "a.mdeh"), '"z"')

    def test_like(self) -> None:
        """Attributes, spare attribute and payload's column of an earlier file, in its place too."""
        self.write("a.csv", "a,b,log\n1,5,7\n9,6,8\n")
        self.assertEqual(run("import", "a.csv", "--attribute", "b:3:from=4,to=9", "--attribute", "a:4", "--spare", "1",
                             "--payload", "log", "-o", "a.mdeh").status, 0)
        former = json.loads(Path("a.mdeh.json").read_text())
        self.write("b.csv", "log,a,b,payload\n3,2,9,1\n4,2,10,1\n")
        ran = run("import", "b.csv", "--like", "a.mdeh", "-o", "a.mdeh")
        self.assertEqual((ran.status, ran.out), (2, "2 rows: 1 stored, 1 refused (3: 1)\n"))
        later = json.loads(Path("a.mdeh.json").read_text())
        for part in ("attributes", "spare", "payload"):
            self.assertEqual(later[part], former[part])
        self.assertEqual(Table.load("a.mdeh").ask({}).rows, [(9, 2, 3)])
        self.assertEqual(run("import", "b.csv", "--like", "a.mdeh", "--payload", "payload", "-o", "b.mdeh").status, 2)
        self.assertEqual(Table.load("b.mdeh").ask({}).rows, [(9, 2, 1)])
        self.write("c.csv", "a,b\n2,9\n")
        self.assertEqual(run("import", "c.csv", "--like", "a.mdeh", "-o", "c.mdeh").status, 0)
        self.assertEqual(Table.load("c.mdeh").ask({}).rows, [(9, 2, 2)])
        self.refused(run("import", "c.csv", "--like", "none.mdeh", "-o", "c.mdeh"), "none.mdeh.json")
        for flags in (["--attribute", "a:3"], ["--spare", "2"]):
            self.refused(run("import", "c.csv", "--like", "a.mdeh", "-o", "c.mdeh", *flags), "--like")
        self.refused(run("import", "c.csv", "--like", "a.mdeh", "--columns", "a", "-o", "c.mdeh"), "--columns")

    def test_few_unreadable(self) -> None:
        """A column with whole numbers in half of the rows is taken, and its other rows are refused one by one."""
        rows = [f"{i},{7 if i != 4 else 'seven'}" for i in range(10)]
        self.write("a.csv", "\n".join(["a,b", *rows]) + "\n")
        ran = run("import", "a.csv", "-o", "a.mdeh")
        self.assertEqual((ran.status, ran.err), (2, 'line 6: b "seven" is no whole number\n'))
        self.assertIn("--attribute a:4:from=0,to=9 --attribute b:1:from=7,to=7\n", ran.out)
        self.assertEqual(len(Table.load("a.mdeh").ask({}).rows), 9)
        self.write("a.csv", "a,b\n1,x\n2,y\n3,4\n")
        ran = run("import", "a.csv", "-o", "a.mdeh")
        self.assertEqual((ran.status, ran.err), (0, ""))
        self.assertIn('"b" (2 of 3 rows have no whole number, the first on line 2: "x")', ran.out)

    def test_outlier(self) -> None:
        """A value far from the others is refused with 3, and its column is an attribute."""
        self.write("a.csv", "a,b\n" + "".join(f"{i},{400 + i}\n" for i in range(99)) + "99,4120000\n")
        ran = run("import", "a.csv", "-o", "a.mdeh")
        self.assertEqual(ran.status, 2)
        self.assertIn("--attribute b:7:from=400,to=498\n", ran.out)
        self.assertIn("line 101: 3 (", ran.err)
        self.assertIn("b 4120000 is outside 400 to 498", ran.err)
        self.assertEqual(run("ask", "a.mdeh", "a=99").status, 2)
        self.write("a.csv", "a,b\n" + "".join(f"{i},{400 + i}\n" for i in range(97)) + "98,4120000\n99,4120001\n")
        self.assertIn('"b" (its values from 400 to 4120001 need 22 bits', run("import", "a.csv", "-o", "a.mdeh").out)

    def test_quotes_that_swallow_rows(self) -> None:
        """Rows between two stray quotes are not lost without a word."""
        lines = [f"{i},{i % 5},text" for i in range(20)]
        lines[3], lines[9] = '3,3,"text', '9,4,text"'
        self.write("a.csv", "\n".join(["a,b,text", *lines]) + "\n")
        ran = run("import", "a.csv", "-o", "a.mdeh")
        self.assertEqual((ran.status, ran.err), (2, "line 5: it goes on to line 11, over rows of their own: "
                                                    "a quote is not closed\n"))
        self.assertIn("14 rows: 13 stored, 1 refused (unreadable: 1)\n", ran.out)
        self.write("a.csv", 'a,b,text\n1,2,"one\n2,2,two"\n3,3,x\n')
        self.assertIn("line 2: it goes on to line 3", run("import", "a.csv", "-o", "a.mdeh").err)
        for text in ('a,b,text\n1,2,"one\ntwo, or\nthree"\n2,2,x\n',
                     'text,a,b\n"one\n""two"", or\nthree",1,2\nx,2,2\n'):
            self.write("a.csv", text)
            self.assertEqual(run("import", "a.csv", "-o", "a.mdeh")[::2], (0, ""))
            self.assertEqual(len(Table.load("a.mdeh").ask({}).rows), 2)

    def test_no_description(self) -> None:
        """A file beside the output that is no description is left alone."""
        self.write("a.csv", "a\n1\n")
        self.write("keep.json", '{"mine": 1}')
        self.refused(run("import", "a.csv", "-o", "keep"), "keep.json")
        self.assertEqual(Path("keep.json").read_text(), '{"mine": 1}')

    def test_forms(self) -> None:
        """A byte order mark, quotes, spaces, ends of lines, delimiters and encodings."""
        forms = [('\ufeff"code" , slot,"a ""b"", c"\r\n 30, 2 ,x\r\n"31","3",y\r\n', []),
                 ("code;slot;text\n30;2;a,b\n+31;003;\n", ["--delimiter", ";"]),
                 ("code\tslot\n30\t2\n31\t3", ["--delimiter", "tab"]), ("code,slot\r30,2\r31,3\r", []),
                 ("codfslot\n30f2\n31f3\n", ["--delimiter", "f"])]
        for text, flags in forms:
            self.write("a.csv", text)
            ran = run("import", "a.csv", "-o", "a.mdeh", *flags)
            self.assertEqual(ran.status, 0, (text, ran))
            self.assertEqual([row[:2] for row in Table.load("a.mdeh").ask({}).rows], [(30, 2), (31, 3)])
        Path("a.csv").write_bytes("cöde,slot\n30,2\n31,3\n".encode("utf-16"))
        self.refused(run("import", "a.csv", "-o", "a.mdeh"), "a.csv: it is no text in utf-8-sig")
        self.assertEqual(run("import", "a.csv", "--encoding", "utf-16", "-o", "a.mdeh").status, 0)
        self.assertEqual(run("ask", "a.mdeh", "cöde=31").out.splitlines()[1], "  31     3     3")


class Refused(FolderTest):
    """Rows that are refused, and input that cannot be used."""

    def test_rows(self) -> None:
        """Each refused row is told by its line, number and reason, counted, and kept in the description."""
        self.write("a.csv", "code,slot,log\n30,2,7\n30,2,8\n200,2,9\nabc,1,10\n1,2,0\n1,2\n1,2,-3\n1,2,x\n,,\n1_0,1,1\n"
                            "1,-1,4294967296\n99,4,4294967295\n9999999999999999999999999,1,1\n")
        ran = run("import", "a.csv", "--attribute", "code:7", "--attribute", "slot:5", "-o", "a.mdeh")
        bounds = "3 (a value, index or address is outside its bounds, or an unused value is not 0): code"
        payload = "is no whole number from 1 to 4294967295"
        self.assertEqual(ran.err.splitlines(), [
            "line 3: 4 (the key is stored already)", f"line 4: {bounds} 200 is outside 0 to 127",
            'line 5: code "abc" is no whole number', "line 6: 11 (the payload is 0)", "line 7: 2 fields, not 3",
            f'line 8: log "-3" {payload}', f'line 9: log "x" {payload}', 'line 10: code "" is no whole number',
            'line 11: code "1_0" is no whole number', f'line 12: log "4294967296" {payload}',
            f"line 14: {bounds} 9999999999999999999999999 is outside 0 to 127"])
        self.assertEqual((ran.status, ran.out),
                         (2, "13 rows: 2 stored, 11 refused (3: 2, 4: 1, 11: 1, unreadable: 7)\n"))
        self.assertEqual(json.loads(Path("a.mdeh.json").read_text())["missing"], {"0": 7, "3": 2, "11": 1})
        quiet = run("import", "a.csv", "--attribute", "code:7", "--attribute", "slot:5", "--quiet", "-o", "a.mdeh")
        self.assertEqual(quiet, (2, ran.out, ""))
        asked = run("ask", "a.mdeh", "code=30")
        self.assertEqual(asked.status, 0)
        self.assertEqual(asked.err, "mdeh: a.mdeh lacks 10 of the imported rows: an answer may lack them too\n")

    def test_unusable(self) -> None:
        """Input that cannot be used is one line of text, leaves status 2 and writes nothing."""
        os.mkdir("folder")
        cases = [("", "it is empty"), ("\n \n", "it is empty"), ("1,2\n3,4\n", "line 1 has numbers"),
                 ("a;b\n1;2\n", '--delimiter ";"'), ("a,b\n", "no row"), ("a,b\nx,y\n", "no column"),
                 ('a,b\n1,2\n3,"4\n5,6\n', "line 3: a quote is not closed"), ("a\n" + "1" * 200000, "field")]
        for text, part in cases:
            self.refused(run("import", self.write("a.csv", text), "-o", "a.mdeh"), part)
        Path("a.csv").write_bytes(b"a,b\n\xff,1\n")
        self.refused(run("import", "a.csv", "-o", "a.mdeh"), "no text in utf-8")
        self.refused(run("import", "a.csv", "--encoding", "no such", "-o", "a.mdeh"), "no such")
        self.refused(run("import", "folder", "-o", "a.mdeh"), "folder")
        self.refused(run("import", "gone.csv", "-o", "a.mdeh"), "gone.csv: No such file")
        self.write("a.csv", "a,b\n1,2\n")
        for output, part in (("a.csv", "overwritten"), ("folder", "no ordinary"), ("gone/a", "No such"),
                             (os.devnull, "no ordinary")):
            self.refused(run("import", "a.csv", "--attribute", "a:3", "-o", output), output, part)
        for flags in (["--capacity", "17"], ["--capacity", "x"], ["--delimiter", "ab"], ["--attribute", "a:99"],
                      ["--spare", "0"], ["--what"], ["--attribute", "a:3", "--attribute", "a:4"]):
            self.refused(run("import", "a.csv", "-o", "a.mdeh", *flags))
        self.refused(run("import", "a.csv"), "-o")
        self.assertEqual(sorted(os.listdir()), ["a.csv", "folder"])

    def test_header_alone(self) -> None:
        """A header without rows gives an empty file under attributes that are given."""
        ran = run("import", self.write("a.csv", "a,b\n"), "--attribute", "a:3", "-o", "a.mdeh")
        self.assertEqual(ran, (0, "0 rows: 0 stored, 0 refused\n", ""))
        self.assertEqual(run("ask", "a.mdeh"), (1, "a  line\n0 records, 0 pages read\n", ""))

    def test_random_texts(self) -> None:
        """Any bytes are imported or refused, never more than that, and what is written can be asked."""
        draw = random.Random(11)
        for seed in range(300):
            Path("a.csv").write_bytes(bytes(draw.choice(b'01299,,,;"\n\n\r -+\0ab\xc3\xa4') for _ in range(60)))
            flags = draw.choice([[], ["--columns", "a"], ["--attribute", "a:2"], ["--delimiter", ";"]])
            ran = run("import", "a.csv", "-o", "a.mdeh", *flags)
            self.assertIn(ran.status, (0, 2), (seed, ran))
            if os.path.exists("a.mdeh"):
                self.assertIn(run("ask", "a.mdeh").status, (0, 1), seed)
                os.unlink("a.mdeh")
                os.unlink("a.mdeh.json")


class Written(FolderTest):
    """The files that are written."""

    def test_description(self) -> None:
        """The description has every part of the attributes, and is that of the file beside it."""
        self.write("a.csv", "a,b,c\n1,-3,5\n")
        ran = run("import", "a.csv", "--attribute", "a:3:from=1,to=8", "--attribute", "b:4:signed", "--attribute",
                  "c:5:reversed", "--spare", "2", "--capacity", "3", "-o", "a.mdeh")
        self.assertEqual(ran.status, 0, ran)
        whole = json.loads(Path("a.mdeh.json").read_text())
        self.assertEqual(len(whole.pop("sha256")), 64)
        parts = [("a", 3, 1, 8, False, False), ("b", 4, None, None, True, False), ("c", 5, None, None, False, True)]
        self.assertEqual(whole, {
            "mdeh": 1, "spare": 2, "payload": "line", "missing": {},
            "attributes": [dict(zip(("name", "width", "from", "to", "signed", "reversed"), part)) for part in parts]})
        store = Store.load(Path("a.mdeh").read_bytes())
        self.assertEqual((store.shape.widths, store.shape.capacity, store.shape.signed), ((3, 4, 5, 2), 3, (1,)))
        self.assertEqual(store.query().records, [((0, -3, 20, (0 + 5 + 5) % 4), 2)])

    def test_replaced_whole(self) -> None:
        """A file takes the place of a former one through a link, with its mode, and leaves nothing beside."""
        self.write("a.csv", "a\n1\n2\n")
        os.symlink("real.mdeh", "a.mdeh")
        for _ in range(2):
            self.assertEqual(run("import", "a.csv", "-o", "a.mdeh").status, 0)
        self.assertTrue(os.path.islink("a.mdeh"))
        self.assertEqual(sorted(os.listdir()), ["a.csv", "a.mdeh", "a.mdeh.json", "real.mdeh"])
        mask = os.umask(0)
        os.umask(mask)
        self.assertEqual(os.stat("a.mdeh").st_mode & 0o777, 0o666 & ~mask)

    def test_never_with_another_description(self) -> None:
        """An import that ends between its two files leaves the later one without a description, and nothing beside."""
        self.write("a.csv", "a\n1\n2\n")
        self.write("b.csv", "b\n3\n4\n5\n")
        self.assertEqual(run("import", "a.csv", "-o", "a.mdeh").status, 0)
        former, renames = Path("a.mdeh").read_bytes(), iter([os.replace])

        def replace(source: str, target: str) -> None:
            """Renames once, then fails."""
            next(renames, mock.Mock(side_effect=OSError(5, "no more")))(source, target)

        with mock.patch("os.replace", replace):
            self.assertEqual(run("import", "b.csv", "-o", "a.mdeh")[::2], (2, "mdeh: a.mdeh.json: no more\n"))
        self.assertNotEqual(Path("a.mdeh").read_bytes(), former)
        self.assertEqual(sorted(os.listdir()), ["a.csv", "a.mdeh", "b.csv"])

    def test_four_attributes(self) -> None:
        """Four attributes have no place for a spare one, and are answered as others."""
        draw = random.Random(2)
        rows = {tuple(draw.randrange(20) for _ in range(4)) for _ in range(3000)}
        self.write("a.csv", "\n".join(["a,b,c,d"] + [",".join(map(str, row)) for row in rows]))
        ran = run("import", "a.csv", "-o", "a.mdeh")
        self.assertEqual((ran.status, "--spare" in ran.out), (0, False), ran)
        self.assertEqual([row[:4] for row in Table.load("a.mdeh").ask({}).rows], sorted(rows))
        self.refused(run("import", "a.csv", "-o", "a.mdeh", "--spare", "2"), "four attributes")
