"""The plain model of a store: a dict of keys that is scanned in full for every answer."""
from __future__ import annotations

from typing import Dict, List, Mapping, Optional, Tuple

from mdeh import Refusal, Shape

Key = Tuple[int, ...]


class Model:
    """A set of records, a depth limit and a page limit."""

    def __init__(self, shape: Shape, depth_limit: int, page_limit: int) -> None:
        """A model without records."""
        self.shape = shape
        self.depth_limit = depth_limit
        self.page_limit = page_limit
        self.records: Dict[Key, int] = {}
        self.known: Dict[Key, str] = {}

    def encodings(self, key: Key) -> List[int]:
        """The encoding of each value. Refused with 3 where one is out of bounds."""
        codes = [value + (1 << width - 1) * (j in self.shape.signed)
                 for j, (value, width) in enumerate(zip(key, self.shape.widths))]
        if any(not 0 <= code < 1 << width for code, width in zip(codes, self.shape.widths)):
            raise Refusal(3)
        return codes

    def bits(self, key: Key) -> str:
        """The split bits of a key: the highest of each encoding in turn, then the next of each."""
        if key not in self.known:
            codes, widths = self.encodings(key), self.shape.widths
            self.known[key] = "".join(str(codes[j] >> width - 1 - k & 1)
                                      for k in range(16) for j, width in enumerate(widths) if k < width)
        return self.known[key]

    def depth(self, key: Key) -> int:
        """The depth of a key's leaf: the fewest bits that at most a page of records begin with."""
        bits, stored = self.bits(key), [self.bits(other) for other in self.records]
        return next(x for x in range(65) if sum(other[:x] == bits[:x] for other in stored) <= self.shape.capacity)

    def leaves(self) -> Dict[str, List[Key]]:
        """The leaves that have records, each by its bits."""
        leaves: Dict[str, List[Key]] = {}
        for key in self.records:
            leaves.setdefault(self.bits(key)[:self.depth(key)], []).append(key)
        return leaves

    def insert(self, key: Key, payload: int) -> int:
        """The depth of the key's leaf afterwards, or a refusal."""
        bits = self.bits(key)
        if payload == 0:
            raise Refusal(11)
        if key in self.records:
            raise Refusal(4)
        alike = sum(self.bits(other)[:self.depth_limit] == bits[:self.depth_limit] for other in self.records)
        if alike >= self.shape.capacity:
            raise Refusal(6)
        self.records[key] = payload
        if len(self.leaves()) > self.page_limit:
            del self.records[key]
            raise Refusal(7)
        return self.depth(key)

    def delete(self, key: Key) -> int:
        """The depth of the key's leaf afterwards, or a refusal."""
        self.lookup(key)
        del self.records[key]
        return self.depth(key)

    def lookup(self, key: Key) -> Tuple[int, int, int]:
        """Payload, reads and depth, or a refusal."""
        depth = self.depth(key)
        if key not in self.records:
            raise Refusal(5, 0, depth)
        return self.records[key], 1, depth

    def range(self, given: Mapping[int, Tuple[int, int]]) -> Tuple[List[Tuple[Key, int]], int, int]:
        """Records in split order, total and reads, or a refusal."""
        if any(j >= len(self.shape.widths) for j in given):
            raise Refusal(8)
        for j, ends in given.items():
            for end in ends:
                self.encodings(tuple(end if i == j else 0 for i in range(len(self.shape.widths))))
        if any(low > high for low, high in given.values()):
            raise Refusal(10)
        met = [key for key in self.records if all(low <= key[j] <= high for j, (low, high) in given.items())]
        reads = sum(self.meets(leaf, given) for leaf in self.leaves())
        return [(key, self.records[key]) for key in sorted(met, key=self.bits)], len(met), reads

    def meets(self, leaf: str, given: Mapping[int, Tuple[int, int]]) -> bool:
        """Whether a key with these first split bits lies in the intervals."""
        ends = self.box(leaf)
        offset = [(1 << width - 1) * (j in self.shape.signed) for j, width in enumerate(self.shape.widths)]
        return all(ends[j][0] <= high + offset[j] and low + offset[j] <= ends[j][1]
                   for j, (low, high) in given.items())

    def box(self, leaf: str) -> List[Tuple[int, int]]:
        """The least and the greatest encodings of the keys with these first split bits."""
        steps = [j for k in range(16) for j, width in enumerate(self.shape.widths) if k < width]
        ends = []
        for j, width in enumerate(self.shape.widths):
            own = "".join(bit for bit, step in zip(leaf, steps) if step == j)
            ends.append((int(own.ljust(width, "0"), 2), int(own.ljust(width, "1"), 2)))
        return ends


def numbered(call, *arguments) -> Tuple[Optional[object], Optional[Tuple[int, int]]]:
    """What a call gives, or its refusal's number and depth."""
    try:
        return call(*arguments), None
    except Refusal as refusal:
        return None, (refusal.number, refusal.depth)
