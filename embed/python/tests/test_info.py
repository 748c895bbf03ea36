"""`mdeh info`: the store's leaves, and what is refused with 6 next."""
from __future__ import annotations

import itertools
import json
import random

from mdeh import Attribute, Keys, Refusal, Shape, Store, Table
from mdeh.info_command import gather, value_text
from mdeh.layout import Region, bits_of, layout_of, overflows, regions_of, values_in
from mdeh.table import plain

from .helpers import FolderTest, gateway_rows, run
from .model import Model


class Layouts(FolderTest):
    """Layouts against the plain model."""

    def test_against_model(self) -> None:
        """Leaves by depth, and each leaf's box and records, are the model's; so are the regions of L bits."""
        shapes = [Shape([4, 3, 2], 2), Shape([3, 4], 3, [1]), Shape([6], 1), Shape([2, 2, 2, 2], 4)]
        for seed, shape in enumerate(shapes):
            draw = random.Random(seed)
            store, model = Store.fresh(shape), Model(shape, min(12, sum(shape.widths)), 4096)
            for _ in range(30):
                key = tuple(draw.randrange(1 << width) - (1 << width - 1) * (j in shape.signed)
                            for j, width in enumerate(shape.widths))
                if key not in model.records:
                    self.assertEqual(store.insert(key, 1), model.insert(key, 1))
            layout = layout_of(store)
            found = {(depth, leaf) for depth, leaves in layout.filled.items() for leaf in leaves}
            wanted = {(len(bits), (tuple(model.box(bits)), len(keys))) for bits, keys in model.leaves().items()}
            self.assertEqual(found, wanted)
            self.assertEqual((layout.pages, layout.records), (len(wanted), len(model.records)))
            self.assertEqual(layout.directory_depth, max(layout.leaves))
            self.assertEqual(sum(count << 12 - depth for depth, count in layout.leaves.items()), 1 << 12)
            cells = [model.bits(key)[:5] for key in model.records]
            wanted_regions = {(tuple(model.box(bits)), cells.count(bits)) for bits in cells}
            regions = regions_of(store, 5)
            self.assertEqual(set(regions), wanted_regions)
            self.assertEqual([region.records for region in regions], sorted((r[1] for r in regions), reverse=True))

    def test_overflows(self) -> None:
        """A region overflows where more keys than a page takes have their encodings in it, counted one by one."""
        draw, met = random.Random(8), set()
        specs = ["a:3:from=0,to=4", "b:2:reversed", "c:3:signed"]
        for spare in (0, 2):
            keys = Keys(tuple(map(Attribute.parse, specs)), spare)
            every = [keys.encode(values) for values in itertools.product(range(5), range(4), range(-4, 4))]
            offsets = [0, 0, 4, 0]
            for _ in range(200):
                box = tuple(tuple(sorted(draw.randrange(1 << width) for _ in range(2))) for width in (3, 2, 3, 2))
                box = box[:3 + bool(spare)]
                count = sum(all(low <= code + offset <= high for code, offset, (low, high) in zip(key, offsets, box))
                            for key in every)
                capacity = draw.choice([count, max(1, count - 1), 1, 2, 16])
                self.assertEqual(overflows(keys, Region(box, 1), capacity), count > capacity, (spare, box, capacity))
                met.add(count > capacity)
        self.assertEqual(met, {True, False})

    def test_never(self) -> None:
        """6 never comes where a region of L bits has as many keys as a page takes, or fewer."""
        for width, capacity, never in ((12, 1, True), (13, 2, True), (13, 1, False), (16, 16, True), (16, 15, False)):
            shape = Shape([width], capacity)
            self.assertEqual(gather(Table(Store.fresh(shape), plain(shape)))["never"], never)

    def test_bits(self) -> None:
        """Split bits are taken in turn, a used-up attribute is passed over."""
        self.assertEqual([bits_of([7, 5, 7], depth) for depth in (0, 1, 5, 12, 19)],
                         [[0, 0, 0], [1, 0, 0], [2, 2, 1], [4, 4, 4], [7, 5, 7]])
        self.assertEqual(bits_of([1, 3], 3), [1, 2])


class Printed(FolderTest):
    """What is printed of files."""

    def test_full_regions_are_refused(self) -> None:
        """A key with the values of a full region is refused with 6; in others as many fit as are told."""
        self.write_rows("events.csv", gateway_rows(1))
        flags = ["--attribute", "code:7:from=0,to=99", "--attribute", "slot:5", "--attribute", "release:7:from=398"]
        for spare in ([], ["--spare", "2"]):
            self.assertEqual(run("import", "events.csv", "--quiet", "-o", "gw.mdeh", *flags, *spare).status, 2)
            table = Table.load("gw.mdeh")
            keys, store = table.description.keys, table.store
            near = [region for region in regions_of(store, 12) if overflows(keys, region, 16)]
            self.assertEqual(near[0].records, 16)
            self.assertEqual(gather(table)["full"], sum(region.records == 16 for region in near))
            for region in (near[0], next(region for region in near if region.records < 16)):
                self.assertEqual(self.count_until_6(keys, store, region), 16 - region.records)

    def count_until_6(self, keys, store, region) -> int:
        """How many keys of a region are taken before one is refused with 6."""
        low, high = region.intervals[-1]
        for taken in itertools.count():
            for values in itertools.product(*values_in(keys, region)):
                key = keys.encode(values)
                if keys.spare and not low <= key[-1] <= high:
                    continue
                try:
                    store.insert(key, 1)
                    break
                except Refusal as refusal:
                    if refusal.number == 6:
                        return taken
        raise AssertionError

    def test_text(self) -> None:
        """Every line of a small file's facts, and the same as JSON."""
        lines = "\n".join(f"{i},{i % 3}" for i in range(10))
        run("import", self.write("a.csv", f"code,slot\n{lines}\n"), "--capacity", "2", "-o", "a.mdeh",
            "--attribute", "code:4:from=0,to=9", "--attribute", "slot:2")
        self.assertEqual(run("info", "a.mdeh"), (0, """\
attributes  code 0..9 (4 bits, spread), slot 0..3 (2 bits)
payload     line
records     10
pages       6 of up to 2 records, 83 % full
depth       T = 3 of L = 6
leaves      2 of depth 2, 4 of depth 3; 0 without records
fullest leaves of depth 3:
   2 of 2 records: code 0..2, slot 0..1
   2 of 2 records: code 3..4, slot 0..1
   2 of 2 records: code 5..7, slot 0..1
   1 of 2 records: code 8..9, slot 0..1
6 never comes: a region of L split bits has no more keys than a page takes
""", ""))
        facts = json.loads(run("info", "a.mdeh", "--json").out)
        self.assertEqual((facts["records"], facts["pages"], facts["T"], facts["L"], facts["leaves"], facts["fill"]),
                         (10, 6, 3, 6, {"2": 2, "3": 4}, 83))
        self.assertEqual(facts["fullest"][0], {"records": 2, "more": 0, "values": {"code": "0..2", "slot": "0..1"}})

    def test_plain_widths(self) -> None:
        """With widths of 16 bits, what the next refusal with 6 is."""
        self.write_rows("events.csv", gateway_rows(1, 100))
        flags = [part for name in ("code", "slot", "release") for part in ("--attribute", f"{name}:16")]
        self.assertEqual(run("import", "events.csv", "--quiet", "-o", "gw.mdeh", *flags).status, 2)
        self.assertIn("refused with 6 next (1 of the regions of L split bits are full):\n  full: the next key with "
                      "code 0..4095, slot 0..4095, release 0..4095 is refused with 6\n", run("info", "gw.mdeh").out)

    def test_values(self) -> None:
        """Values in words."""
        for values, text in (([3], "3"), ([3, 4, 5], "3..5"), ([3, 19], "3/19"), ([1, 2, 4], "1/2/4"),
                             (list(range(0, 80, 10)), "0/10/../70 (8 values)")):
            self.assertEqual(value_text(values), text)
