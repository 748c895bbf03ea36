"""The leaves of a store, read from its words and pages, and the regions that are nearest to a refusal with 6."""
from __future__ import annotations

import itertools
from collections import Counter
from typing import Dict, List, NamedTuple, Sequence, Tuple

from .keys import Keys
from .interface import page_bytes
from .shape import Shape
from .store import Store

# how many keys of a region are looked at, at most, to learn whether a page takes them all
_MOST_KEYS = 65536


class Region(NamedTuple):
    """All keys whose encodings lie in these intervals, both ends included, and how many of them are stored."""

    intervals: Tuple[Tuple[int, int], ...]
    records: int


class Layout(NamedTuple):
    """How a store is divided: T, L, the leaves by depth, the leaves that have records by depth."""

    directory_depth: int
    depth_limit: int
    leaves: Dict[int, int]
    filled: Dict[int, List[Region]]

    @property
    def pages(self) -> int:
        """How many pages have records."""
        return sum(map(len, self.filled.values()))

    @property
    def records(self) -> int:
        """How many records there are."""
        return sum(leaf.records for leaves in self.filled.values() for leaf in leaves)


def layout_of(store: Store) -> Layout:
    """The layout of a sound store."""
    state, shape = store.state, store.shape
    words = set(store.memory.directory[:1 << state[8]])
    filled: Dict[int, List[Region]] = {}
    for word in sorted(words):
        page, depth = word & 0xFFFF, word >> 16
        if page:
            filled.setdefault(depth, []).append(_leaf(store, shape, page - 1, depth))
    leaves = {depth: count for depth, count in enumerate(state[9:22]) if count}
    return Layout(state[8], state[7], leaves, filled)


def regions_of(store: Store, depth: int) -> List[Region]:
    """The regions of so many split bits that have records, those with the most first."""
    shape = store.shape
    drops = [width - bits for width, bits in zip(shape.widths, bits_of(shape.widths, depth))]
    firsts: Dict[Tuple[int, ...], Tuple[int, ...]] = {}
    counts: Counter = Counter()
    for key, _ in store.query().records:
        tops = tuple([value >> drop for value, drop in zip(key, drops)])
        firsts.setdefault(tops, key)
        counts[tops] += 1
    regions = [Region(_intervals(shape, firsts[tops], depth), count) for tops, count in counts.items()]
    return sorted(regions, key=lambda region: (-region.records, region.intervals))


def bits_of(widths: Sequence[int], depth: int) -> List[int]:
    """How many of the first `depth` split bits are those of each attribute."""
    bits = [0] * len(widths)
    turns = (j for k in range(16) for j, width in enumerate(widths) if k < width)
    for j in itertools.islice(turns, depth):
        bits[j] += 1
    return bits


def values_in(keys: Keys, region: Region) -> List[List[int]]:
    """The host's values of each attribute that a region has."""
    return [attribute.values_between(low, high) for attribute, (low, high) in zip(keys.attributes, region.intervals)]


def overflows(keys: Keys, region: Region, capacity: int) -> bool:
    """Whether a region has more keys than a page takes: at its depth L one more than a page is refused with 6."""
    combinations = itertools.islice(itertools.product(*values_in(keys, region)), _MOST_KEYS)
    if not keys.spare:
        return sum(1 for _ in itertools.islice(combinations, capacity + 1)) > capacity
    low, high = region.intervals[-1]
    inside = (values for values in combinations if low <= keys.encode(values)[-1] <= high)
    return sum(1 for _ in itertools.islice(inside, capacity + 1)) > capacity


def _leaf(store: Store, shape: Shape, page: int, depth: int) -> Region:
    """The leaf of a page: the region of its first record."""
    begin = page * page_bytes(shape.capacity)
    pages = store.memory.pages
    count = pages[begin] + 256 * pages[begin + 1]
    key = shape.record_format().unpack(bytes(pages[begin + 2:begin + 14]))[:-1]
    return Region(_intervals(shape, key, depth), count)


def _intervals(shape: Shape, key: Sequence[int], depth: int) -> Tuple[Tuple[int, int], ...]:
    """The encodings of all keys that have the first `depth` split bits of this one."""
    intervals = []
    for j, (width, bits) in enumerate(zip(shape.widths, bits_of(shape.widths, depth))):
        encoding = key[j] + (1 << width - 1) * (j in shape.signed)
        low = encoding >> width - bits << width - bits
        intervals.append((low, low + (1 << width - bits) - 1))
    return tuple(intervals)
