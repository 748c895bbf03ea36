"""The store against the plain model, in memory of every kind."""
from __future__ import annotations

import array
import copy
import mmap
import random
import threading
import unittest
from typing import Any
from unittest import mock

from mdeh import Memory, Refusal, Shape, Store

from .model import Model, numbered

SHAPES = [
    (Shape([2, 2], 2), 16, 16), (Shape([3], 1), 8, 8), (Shape([4, 3, 2], 2), 8, 9), (Shape([3, 4], 3, [1]), 64, 5),
    (Shape([2, 1, 3, 2], 1, [0, 3]), 32, 40), (Shape([16, 16], 2, [0]), 16, 16), (Shape([5, 5], 16, [0, 1]), 4, 3),
]


class AgainstModel(unittest.TestCase):
    """Random calls."""

    def test_random_calls(self) -> None:
        """Every call on every shape answers as the model does, refusals, depths and reads too."""
        met = set()
        for seed, (shape, words, pages) in enumerate(SHAPES * 3):
            with self.subTest(seed=seed, shape=shape):
                met |= self.run_calls(random.Random(seed), shape, words, pages)
        self.assertEqual(met, {None, 3, 4, 5, 6, 7, 8, 10, 11})

    def run_calls(self, draw: random.Random, shape: Shape, words: int, pages: int) -> set:
        """Runs calls on one store, and gives the numbers that were met."""
        store = Store.fresh(shape, words, pages)
        limit = min(12, sum(shape.widths), words.bit_length() - 1)
        model = Model(shape, limit, pages)
        met = set()
        for _ in range(250):
            name, arguments = self.call(draw, shape)
            answer, refused = numbered(getattr(store, name), *arguments)
            wanted = numbered(model.range if name == "query" else getattr(model, name), *self.plain(name, arguments))
            self.assertEqual((answer, refused), wanted, (name, arguments))
            met.add(refused and refused[0])
        self.assertTrue(store.check())
        self.assertEqual(store.count(), len(model.records))
        self.assertEqual(Store.load(store.save()).query().records, store.query().records)
        return met

    def call(self, draw: random.Random, shape: Shape):
        """A random call; some values and attributes are out of bounds."""
        name = draw.choice(["insert"] * 5 + ["delete", "lookup", "query", "range"])
        key = tuple(self.value(draw, shape, j) for j in range(len(shape.widths)))
        if name in ("delete", "lookup"):
            return name, (key,)
        if name == "insert":
            return name, (key, draw.choice([0, 1, 7, 2**32 - 1] + [draw.randrange(1, 999)] * 9))
        given = [j for j in range(len(shape.widths)) if draw.random() < 0.5] + [3] * (draw.random() < 0.05)
        values = {j: self.value(draw, shape, min(j, len(shape.widths) - 1)) for j in given}
        if name == "query":
            return name, (values,)
        return name, ({j: (low, low + draw.choice([-1, 0, 1, 2])) for j, low in values.items()},)

    def value(self, draw: random.Random, shape: Shape, j: int) -> int:
        """A value of an attribute, mostly within its bounds and among few."""
        width = shape.widths[j]
        low = -(1 << width - 1) if j in shape.signed else 0
        if draw.random() < 0.02:
            return draw.choice([low - 1, low + (1 << width), 2**31, -2**31, 2**40 + 1, -2**40])
        return low + draw.randrange(min(1 << width, 64)) * (1 << max(0, width - 6))

    @staticmethod
    def plain(name: str, arguments):
        """The arguments as the model takes them: a query is a range with equal ends."""
        return ({j: (value, value) for j, value in arguments[0].items()},) if name == "query" else arguments


class Memories(unittest.TestCase):
    """Memory of Python's own, and buffers."""

    def test_buffers(self) -> None:
        """A store in one mapping, in arrays, and reopened from them."""
        whole = mmap.mmap(-1, 92 + 64 + 16 * 26)
        view = memoryview(whole)
        parts = [view[:92], view[92:156], view[156:]]
        store = Store.fresh(Shape([2, 2], 2), memory=Memory(*parts))
        store.insert((2, 1), 13)
        kept = [array.array("I", bytes(parts[0])), bytearray(parts[1]), bytearray(parts[2])]
        self.assertEqual(Store.open(*kept).lookup((2, 1)), (13, 1, 0))
        kept[1][0] = 9
        self.assertFalse(Store.open(*kept).check())
        self.assertTrue(store.check())

    def test_refused_buffers(self) -> None:
        """Read-only memory, words that are not aligned, and slices that overlap."""
        word, page = bytearray(96), bytearray(26)
        with self.assertRaises(TypeError):
            Memory(word, bytes(16), page)
        with self.assertRaisesRegex(ValueError, "multiple of 4"):
            Memory(memoryview(word)[1:93], bytearray(16), page)
        with self.assertRaisesRegex(ValueError, "overlap"):
            Memory(word, memoryview(word)[88:], page)

    def test_defaults(self) -> None:
        """By default the memory is as much as the shape has use for."""
        for widths, cells in (([7, 5, 7], 4096), ([2, 3], 32), ([16] * 4, 4096)):
            memory = Store.fresh(Shape(widths, 4)).memory
            self.assertEqual((len(memory.directory), len(memory.pages)), (cells, cells * 50))
        self.assertEqual(len(Store.fresh(Shape([7, 5, 7], 4), words=64).memory.pages), 64 * 50)
        self.assertEqual(Store.fresh(Shape([7, 5, 7], 4), words=64, pages=3).state[6:8], (3, 6))

    def test_empty_state(self) -> None:
        """Too few words of a state show no shape."""
        store = Store.open(bytearray(8), bytearray(64), bytearray(64))
        for call in (store.check, store.count, store.save, lambda: store.lookup((1,)), lambda: store.shape):
            self.assertEqual(numbered(call), (None, (1, 0)))


class Refusals(unittest.TestCase):
    """What is amiss with shapes, keys, payloads and files."""

    def test_shapes(self) -> None:
        """Counts, widths and capacities out of bounds, also far out."""
        cases = [(Shape([]), 1, 0), (Shape([1] * 5), 1, 0), (Shape([9, 17, 99], 0), 14, 1), (Shape([1, 0]), 14, 1),
                 (Shape([2**32 + 1]), 14, 0), (Shape([-1]), 14, 0), (Shape([1], 17), 15, 0),
                 (Shape([1], 2**32 + 1), 15, 0)]
        for shape, number, attribute in cases:
            with self.assertRaises(Refusal) as raised:
                Store.fresh(shape)
            self.assertEqual((raised.exception.number, raised.exception.attribute), (number, attribute), shape)
        self.assertEqual(str(Refusal(14, 1)), "the width of attribute 1 is outside 1 to 16")
        self.assertEqual(numbered(Store.fresh, Shape([2]), 0), (None, (2, 0)))

    def test_keys_and_payloads(self) -> None:
        """Another count of values, and payloads that 32 bits do not hold, are no call at all."""
        store = Store.fresh(Shape([2, 2], 2))
        for key, payload in (((1,), 1), ((1, 1, 0), 1), ((1, 1), -1), ((1, 1), 2**32)):
            with self.assertRaises(ValueError):
                store.insert(key, payload)
        self.assertEqual(numbered(store.query, {4: 1}), (None, (8, 0)))
        self.assertEqual(numbered(store.query, {-1: 1}), (None, (8, 0)))
        self.assertEqual(store.insert_all([((1, 1), 5), ((1, 1), 6), ((1, 4), 6), ((1, 2), 0)]), [0, 4, 3, 11])
        self.assertEqual(store.query().records, [((1, 1), 5)])

    def test_files(self) -> None:
        """Bytes that are no file, or one that is damaged."""
        store = Store.fresh(Shape([2, 2], 2))
        store.insert((2, 1), 13)
        store.insert((3, 1), 12)
        file = store.save()
        self.assertEqual(Store.load(bytearray(file)).query().records, [((2, 1), 13), ((3, 1), 12)])
        cases = [(b"", 12), (file[1:], 12), (bytes(12) + file[12:], 0), (file[:1] + b"\1" + file[2:], 13),
                 (file[:24] + b"\5" + file[25:], 1), (file[:26] + b"\0" + file[27:], 14)]
        for damaged, number in cases:
            _, refused = numbered(Store.load, damaged)
            self.assertEqual(refused[0] if refused else 0, number, damaged)
        self.assertEqual(numbered(Store.load, file, 8, 0), (None, (2, 0)))

    def test_limits(self) -> None:
        """A listing is cut at its limit, and still tells the total."""
        store = Store.fresh(Shape([4], 2))
        store.insert_all([((i,), i + 1) for i in range(9)])
        listing = store.query(limit=4)
        self.assertEqual(([record.payload for record in listing.records], listing.total), ([1, 2, 3, 4], 9))
        self.assertEqual(store.range({0: (3, 12)}, limit=0)[:2], ([], 6))


class Threads(unittest.TestCase):
    """Threads that share a store."""

    def test_inserts_at_once(self) -> None:
        """Calls of several threads come one after the other."""
        store = Store.fresh(Shape([6, 6], 4))
        workers = [threading.Thread(target=store.insert_all, args=([((i, j), 1) for j in range(64)],))
                   for i in range(16)]
        for worker in workers:
            worker.start()
        for worker in workers:
            worker.join()
        self.assertEqual((store.count(), store.check()), (1024, True))

    def test_lists_beside_inserts(self) -> None:
        """A list has as many records as its total, whatever comes between the calls that make it."""
        store = Store.fresh(Shape([6, 6], 4))
        store.insert((1, 1), 1)
        call, stored = store._library.mdeh_query, [1]

        def query(*arguments: Any) -> Any:
            """Answers, and inserts one record more as long as there are few."""
            result = call(*arguments)
            if stored[0] < 5:
                stored[0] += 1
                store.insert((1, 1 + stored[0]), 1)
            return result

        with mock.patch.object(store._library, "mdeh_query", query):
            listing = store.query({0: 1})
        self.assertEqual((len(listing.records), listing.total), (5, 5))

    def test_copied_memory(self) -> None:
        """A copy of a store's memory is a store of its own."""
        store = Store.fresh(Shape([6, 6], 4))
        store.insert((1, 1), 1)
        copied = Store(copy.deepcopy(store.memory))
        copied.insert((2, 2), 2)
        self.assertEqual((store.count(), copied.count(), copied.check()), (1, 2, True))
