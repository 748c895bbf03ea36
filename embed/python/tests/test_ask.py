"""`mdeh ask`: every answer is that of a scan of the rows."""
from __future__ import annotations

import csv
import io
import json
import os
import random
from pathlib import Path
from typing import Dict, List, Optional, Tuple
from unittest import mock

from mdeh import Table

from .helpers import FolderTest, first_of, gateway_rows, run

NAMES = ["code", "slot", "release", "log"]
BOUNDS = [(0, 99), (0, 23), (398, 479)]
SPREAD = ["code:7:from=0,to=99", "slot:5:from=0,to=23", "release:7:from=398,to=479"]
REVERSED = ["code:7:reversed", "slot:5:from=0,to=23,reversed", "release:7:from=398,reversed"]
MIXED = ["code:8:signed", "slot:5:from=-2", "release:7:from=398,to=479,reversed"]

Interval = Tuple[Optional[int], Optional[int]]


class Scanned(FolderTest):
    """20,000 rows by several seeds, under several attributes."""

    def test_answers(self) -> None:
        """Values, intervals and both, as columns, CSV and JSON."""
        for seed, specs in enumerate(([], SPREAD, REVERSED, MIXED)):
            draw = random.Random(seed)
            rows = gateway_rows(seed + 20)
            self.write_rows("events.csv", rows)
            flags = [part for spec in specs for part in ("--attribute", spec)]
            run("import", "events.csv", "--quiet", "-o", "gw.mdeh", *flags)
            stored = [row[:3] + (row[3],) for row in Table.load("gw.mdeh").ask({}).rows]
            payloads = first_of(rows)
            self.assertTrue(set(stored) <= {key + (log,) for key, log in payloads.items()})
            self.assertGreater(len(stored), 2000 if specs is MIXED else 18900)
            for _ in range(16):
                self.compare(stored, self.conditions(draw))

    def conditions(self, draw: random.Random) -> Dict[int, Interval]:
        """Random conditions: values, intervals, and intervals with an open end."""
        chosen: Dict[int, Interval] = {}
        for j, (least, greatest) in enumerate(BOUNDS):
            low, high = sorted(draw.randint(least, greatest) for _ in range(2))
            kind = draw.randrange(6)
            if kind < 5:
                chosen[j] = [(low, low), (low, high), (low, None), (None, high), (low, low)][kind]
        return chosen

    def compare(self, stored: List[Tuple[int, ...]], conditions: Dict[int, Interval]) -> None:
        """Asks in all forms, and compares with the rows that meet the conditions."""
        wanted = [row for row in stored if all((low is None or low <= row[j]) and (high is None or row[j] <= high)
                                               for j, (low, high) in conditions.items())]
        texts = [f"{NAMES[j]}={low}" if low == high else
                 f"{NAMES[j]}={'' if low is None else low}..{'' if high is None else high}"
                 for j, (low, high) in conditions.items()]
        plain, by_json, by_csv = (run("ask", "gw.mdeh", *flags, *texts) for flags in ([], ["--json"], ["--csv"]))
        whole = json.loads(by_json.out)
        nothing = 2 if whole["doubtful"] else 1
        self.assertEqual([plain.status, by_json.status, by_csv.status], [0 if wanted else nothing] * 3, texts)
        self.assertEqual(whole["doubtful"], "lacks" in plain.err)
        self.assertEqual([tuple(record[name] for name in NAMES) for record in whole["records"]], wanted, texts)
        self.assertEqual(whole["total"], len(wanted))
        listed = list(csv.reader(io.StringIO(by_csv.out)))
        self.assertEqual(listed, [NAMES] + [list(map(str, row)) for row in wanted])
        lines = plain.out.splitlines()
        self.assertEqual([line.split() for line in lines[:-1]], listed)
        self.assertEqual(len(set(map(len, lines[:-1]))), 1)
        records, pages = ("record" if len(wanted) == 1 else "records"), ("page" if whole["reads"] == 1 else "pages")
        self.assertEqual(lines[-1], f"{len(wanted)} {records}, {whole['reads']} {pages} read")
        self.assertTrue(by_csv.err.endswith(lines[-1] + "\n"))

    def test_reads(self) -> None:
        """Reads are those of the store's own call, and fewer for what is given more closely."""
        self.write_rows("events.csv", gateway_rows(9))
        run("import", "events.csv", "--quiet", "-o", "gw.mdeh")
        table = Table.load("gw.mdeh")
        attributes = table.attributes
        query = table.store.query({0: attributes[0].encode(30)}, limit=0)
        self.assertEqual((len(table.ask({"code": 30}).rows), table.ask({"code": 30}).reads), query[1:])
        box = table.store.range({0: (attributes[0].encode(30),) * 2,
                                 2: (attributes[2].encode(400), attributes[2].encode(410))}, limit=0)
        narrow = table.ask({"code": 30, "release": (400, 410)})
        self.assertEqual((len(narrow.rows), narrow.reads), box[1:])
        self.assertLess(narrow.reads, query.reads)
        self.assertLess(query.reads, table.ask({}).reads)
        with mock.patch.object(table.store, "range", side_effect=AssertionError):
            self.assertEqual(table.ask({"code": 30, "release": (400, 400)}).rows,
                             [row for row in narrow.rows if row[2] == 400])

    def test_limit(self) -> None:
        """--limit prints the first records, and the total is that of all."""
        self.write_rows("events.csv", gateway_rows(9, 500))
        run("import", "events.csv", "--quiet", "-o", "gw.mdeh")
        whole = run("ask", "gw.mdeh", "code=30..60").out.splitlines()
        cut = run("ask", "gw.mdeh", "--limit", "3", "code=30..60")
        self.assertEqual([line.split() for line in cut.out.splitlines()[:-1]], [line.split() for line in whole[:4]])
        self.assertEqual(cut.out.splitlines()[-1], whole[-1].replace("records", "records (3 shown)"))
        none = run("ask", "gw.mdeh", "code=30..60", "--json", "--limit", "0")
        self.assertEqual(json.loads(none.out)["records"], [])
        self.assertEqual(none.status, 0)


class Asked(FolderTest):
    """What may be asked of a small file."""

    def setUp(self) -> None:
        """Imports three rows."""
        super().setUp()
        self.write("a.csv", "code,release,log\n30,400,7\n31,405,8\n40,410,9\n")
        self.assertEqual(run("import", "a.csv", "-o", "a.mdeh").status, 0)

    def test_status(self) -> None:
        """0 for records, 1 for none, 2 for a refusal; options may stand anywhere."""
        self.assertEqual(run("ask", "a.mdeh", "code=35"), (1, "code  release  log\n0 records, 1 page read\n", ""))
        wanted = (0, "code,release,log\n31,405,8\n", "1 record, 1 page read\n")
        for arguments in (["a.mdeh", "--csv", "code=31", "release=405.."],
                          ["a.mdeh", "code=31", "--csv", "release=405.."],
                          ["--csv", "a.mdeh", "code=31..31", "release=+405"]):
            self.assertEqual(run("ask", *arguments), wanted)

    def test_bounds(self) -> None:
        """A value or an interval that no record can have is refused with 3; one that reaches beyond is cut, which is
        told."""
        for text in ("code=29", "code=41", "code=41..50", "code=..29", "code=41..", "code=-30", "code=9999999999999"):
            self.refused(run("ask", "a.mdeh", text), text.replace("=", " "), "is outside 30 to 40: 3 (a value")
        self.refused(run("ask", "a.mdeh", "code=35..31"), "code 35..31: 10 (an interval's low end")
        note = "mdeh: release 403..999 reaches beyond the file's values: 403..410 is asked\n"
        ran = run("ask", "a.mdeh", "release=403..999")
        self.assertEqual((ran.status, ran.err, ran.out.splitlines()[-1]), (0, note, "2 records, 1 page read"))

    def test_unusable(self) -> None:
        """Names that there are not, texts that are no conditions, options that exclude each other."""
        self.refused(run("ask", "a.mdeh", "cod=30"), 'no attribute "cod"; there are code, release')
        self.refused(run("ask", "a.mdeh", "log=7"), 'no attribute "log"')
        self.refused(run("ask", "a.mdeh", "code=30", "code=31"), "twice")
        for text in ("code", "code=", "=30", "code=x", "code=1.5", "code=1...2", "code=1..x", "code=1_0", "code=٣"):
            self.refused(run("ask", "a.mdeh", text), "NAME=VALUE")
        for flags in (["--csv", "--json"], ["--limit", "-1"], ["--limit", "x"], ["--what"]):
            self.refused(run("ask", "a.mdeh", *flags))
        self.refused(run("ask"), "FILE")
        self.refused(run("ask", "gone.mdeh"), "gone.mdeh: No such file")
        self.refused(run("ask", "."), "Is a directory")

    def test_signed(self) -> None:
        """Values below 0, by a mark and by a bias: intervals may begin below 0 and end above it."""
        rows = [(x, -3 * x, i + 2) for i, x in enumerate(range(-30, 31))]
        self.write("s.csv", "\n".join(["x,y"] + [f"{x},{y}" for x, y, _ in rows]))
        for flags in (["--attribute", "x:6:signed", "--attribute", "y:8:signed"], [],
                      ["--attribute", "x:6:from=-30", "--attribute", "y:8:signed", "--spare", "2"]):
            self.assertEqual(run("import", "s.csv", "-o", "s.mdeh", *flags).status, 0)
            for text, low, high in (("x=-30", -30, -30), ("x=-5..7", -5, 7), ("x=..-29", -30, -29), ("x=0", 0, 0)):
                found = json.loads(run("ask", "s.mdeh", text, "--json").out)["records"]
                self.assertEqual([tuple(record.values()) for record in found],
                                 [row for row in rows if low <= row[0] <= high], (flags, text))
            self.assertEqual(run("info", "s.mdeh").status, 0)

    def test_without_description(self) -> None:
        """Without a description, attributes are a0 and a1 with the store's values, which is told."""
        os.unlink("a.mdeh.json")
        ran = run("ask", "a.mdeh", "a0=0")
        self.assertEqual((ran.status, ran.out), (0, "a0  a1  payload\n 0   0        7\n1 record, 1 page read\n"))
        self.assertEqual(ran.err, "mdeh: a.mdeh.json is not there: attributes are a0, a1 and so on, "
                                  "with the store's values, which may not be those of the rows\n")

    def test_damaged_file(self) -> None:
        """A file that is cut off or damaged is refused with its number, by every command that reads it."""
        data = Path("a.mdeh").read_bytes()
        for damaged, number in ((data[:-1], 12), (data[12:], 12), (b"", 12), (data[12:24] + data[:12] + data[24:], 13)):
            Path("a.mdeh").write_bytes(damaged)
            for name in ("ask", "info", "check"):
                self.refused(run(name, "a.mdeh"), f"a.mdeh: {number} (")

    def test_damaged_description(self) -> None:
        """A description that is damaged, or of another shape or other keys, is refused; each part counts."""
        text = Path("a.mdeh.json").read_text()
        whole = json.loads(text)
        changes = [('"mdeh": 1', '"mdeh": 2'), ("sha256", "sha"), ('"width": 4', '"width": 5'), ("{}", '{"a": 1}'),
                   ('"width": 4', '"width": 4.0'), ('"spare": 0', '"spare": 1'), ('"to": 40', '"to": 31'),
                   ('"from": 30', '"from": null'), ('"signed": false', '"signed": true'), ("{}", '{"3": "x"}'),
                   ('"signed": false', '"signed": 0'), ('"code"', '"release"'), ('"log"', '"code"'),
                   ('"log"', '"a\\nb"'), ('"log"', "7")]
        texts = ["", "{", "[]", "null", "7", "[" * 100000, '"\\ud800"', text[:-4]]
        texts.append(json.dumps({**whole, "attributes": whole["attributes"][:1]}))
        for damaged in texts + [text.replace(former, latter) for former, latter in changes]:
            self.assertNotEqual(damaged, text)
            Path("a.mdeh.json").write_text(damaged)
            for name in ("ask", "info", "check"):
                self.refused(run(name, "a.mdeh"), "a.mdeh.json: ")
        Path("a.mdeh.json").write_bytes(b"\xff\xfe")
        self.refused(run("ask", "a.mdeh"), "a.mdeh.json: ")

    def test_changed_file(self) -> None:
        """A file that was changed since its description was written is answered, and that is told."""
        table = Table.load("a.mdeh")
        table.store.delete(table.description.keys.encode((31, 405)))
        Path("a.mdeh").write_bytes(table.store.save())
        ran = run("ask", "a.mdeh")
        self.assertEqual((ran.status, ran.out.splitlines()[-1]), (0, "2 records, 1 page read"))
        self.assertIn("a.mdeh or a.mdeh.json was changed since they were written", ran.err)
        self.assertEqual(run("import", "a.csv", "-o", "a.mdeh").status, 0)
        self.assertEqual(run("ask", "a.mdeh").err, "")
        text = Path("a.mdeh.json").read_text()
        Path("a.mdeh.json").write_text(text.replace('"to": 40', '"to": 39'))
        self.assertIn("a.mdeh or a.mdeh.json was changed since they were written", run("ask", "a.mdeh").err)
