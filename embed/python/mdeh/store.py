"""The store: records in memory that Python owns or lends, by the proved calls."""
from __future__ import annotations

import ctypes
from ctypes import c_uint8
from typing import Any, Iterable, List, Mapping, NamedTuple, Optional, Sequence, Tuple

from . import refusal as numbers
from .interface import MOST_RECORDS, RECORD_BYTES, STATE_WORDS, MdehKey, MdehQuery, MdehRange, file_bytes, library
from .memory import Memory
from .refusal import Refusal
from .shape import Shape

MOST_PAYLOAD = 0xFFFFFFFF

# an integer of 32 bits that is no value of any attribute
_NO_VALUE = 0x7FFFFFFF


class Record(NamedTuple):
    """A stored key, with a value for each attribute, and its payload."""

    key: Tuple[int, ...]
    payload: int


class Found(NamedTuple):
    """What a lookup finds: the payload, how many pages were read, and the depth of the key's leaf."""

    payload: int
    reads: int
    depth: int


class Listing(NamedTuple):
    """What a query or a range finds: records in split order, how many match, and how many pages one pass reads."""

    records: List[Record]
    total: int
    reads: int


class Store:
    """A store over its memory. A refused call raises Refusal and has changed nothing.

    `fresh` makes a store without records, `load` one of a file's bytes, `open` takes up kept memory as it is.
    Attributes are counted from 0, and a key is a sequence with a value for each.
    """

    def __init__(self, memory: Memory) -> None:
        """Takes up memory as it is; see `open`."""
        self.memory = memory
        self._library = library()

    @classmethod
    def fresh(cls, shape: Shape, words: Optional[int] = None, pages: Optional[int] = None,
              memory: Optional[Memory] = None) -> Store:
        """A store without records, in so many directory words and pages, by default as many as it could ever use, or in
        lent memory, whatever it held. Refused with 1, 14, 15, 2."""
        store = cls(memory or _owned(shape, words, pages))
        _accept(store._library.mdeh_fresh(shape.raw(), *store.memory.arguments))
        return store

    @classmethod
    def load(cls, file: bytes, words: Optional[int] = None, pages: Optional[int] = None,
             memory: Optional[Memory] = None) -> Store:
        """A store of a file's shape and records; the memory is as of `fresh`. Refused with 12, 1, 14, 15, 13, 2, 6, 7;
        lent memory is then as it was."""
        data = bytes(file)
        store = cls(memory or _owned(Shape.of_file(data) or Shape([]), words, pages))
        _accept(store._library.mdeh_load(data, len(data), *store.memory.arguments))
        return store

    @classmethod
    def open(cls, state: Any, directory: Any, pages: Any) -> Store:
        """Takes up a kept store: its state, directory and pages in writable buffers (see Memory). Nothing is tested:
        ask `check`. A state that an earlier version kept has one word less: a word of 0 behind it makes it one."""
        return cls(Memory(state, directory, pages))

    @property
    def shape(self) -> Shape:
        """The shape in the words of the state. Refused with 1 where they are too few."""
        return Shape.of_state(self.state)

    @property
    def state(self) -> Tuple[int, ...]:
        """The words of the state. Refused with 1 where they are too few."""
        words = tuple(self.memory.state)
        if len(words) < STATE_WORDS:
            raise Refusal(numbers.SHAPE)
        return words

    def insert(self, key: Sequence[int], payload: int) -> int:
        """Adds a record, and gives the depth of its leaf then. Refused with 1, 14, 15, 2, 3, 11, 4, 6, 7, 9. ValueError
        for a payload that 32 bits do not hold, or another count of values than of attributes."""
        result = self._library.mdeh_insert(*self.memory.arguments, self._key(key), _payload(payload))
        return _accept(result).depth

    def insert_all(self, records: Iterable[Tuple[Sequence[int], int]]) -> List[int]:
        """Inserts pairs of key and payload in turn, and gives the number of each: 0, or the reason for its refusal."""
        insert, arguments, key_of = self._library.mdeh_insert, self.memory.arguments, self._key
        return [insert(*arguments, key_of(key), _payload(payload)).number for key, payload in records]

    def delete(self, key: Sequence[int]) -> int:
        """Removes the record of a key, and gives the depth of the key's leaf then. Refused with 1, 14, 15, 2, 3, 5, 9:
        5 with a depth too."""
        return _accept(self._library.mdeh_delete(*self.memory.arguments, self._key(key))).depth

    def lookup(self, key: Sequence[int]) -> Found:
        """The payload of a key's record. Refused with 1, 14, 15, 2, 3, 5, 9: 5 with a depth too."""
        result = _accept(self._library.mdeh_lookup(*self.memory.arguments, self._key(key)))
        return Found(result.payload, result.reads, result.depth)

    def query(self, given: Optional[Mapping[int, int]] = None, limit: Optional[int] = None) -> Listing:
        """The records whose attributes have the given values, at most `limit` of them; all where nothing is given.
        Refused with 1, 14, 15, 2, 8, 3, 9."""
        query = MdehQuery()
        for j, value in (given or {}).items():
            _present(j)
            query.given[j], query.values[j] = 1, _value(value)
        return self._list(self._library.mdeh_query, query, limit)

    def range(self, given: Mapping[int, Tuple[int, int]], limit: Optional[int] = None) -> Listing:
        """The records whose attributes lie in the given intervals, both ends included. Refused with 1, 14, 15, 2, 8, 3,
        10, 9."""
        box = MdehRange()
        for j, (low, high) in given.items():
            _present(j)
            box.given[j], box.low[j], box.high[j] = 1, _value(low), _value(high)
        return self._list(self._library.mdeh_range, box, limit)

    def count(self) -> int:
        """How many records are stored. Refused with 1, 14, 15, 2, 9."""
        return self.query(limit=0).total

    def check(self) -> bool:
        """Whether the memory holds a sound store: to be asked before people act on a list. Refused with 1, 14, 15,
        2."""
        return _accept(self._library.mdeh_check(*self.memory.arguments)).sound == 1

    def save(self) -> bytes:
        """The file of the records. Refused with 1, 14, 15, 2, 9."""
        out = (c_uint8 * file_bytes(MOST_RECORDS))()
        result = self._library.mdeh_save(*self.memory.arguments, ctypes.addressof(out), len(out))
        return ctypes.string_at(out, _accept(result).size)

    def _key(self, values: Sequence[int]) -> MdehKey:
        """A key as a call takes it. A store whose state shows no attribute count takes any, and the call refuses it."""
        state = self.memory.state
        count = state[0] if len(state) else 0
        if len(values) != count and 1 <= count <= 4:
            raise ValueError(f"a key of {len(values)} values for {count} attributes")
        key = MdehKey()
        key.values[:min(len(values), 4)] = [_value(value) for value in values[:4]]
        return key

    def _list(self, call: Any, asked: Any, limit: Optional[int]) -> Listing:
        """Learns the total with an empty output, then fetches the records, at most `limit`."""
        result = _accept(call(*self.memory.arguments, asked, None, 0))
        while True:  # another thread may insert between two calls
            wanted = result.total if limit is None else min(result.total, max(limit, 0))
            if wanted == 0:
                return Listing([], result.total, result.reads)
            out = (c_uint8 * (wanted * RECORD_BYTES))()
            result = _accept(call(*self.memory.arguments, asked, ctypes.addressof(out), len(out)))
            if limit is not None or result.written == result.total:
                break
        filled = memoryview(out).cast("B")[:result.written * RECORD_BYTES]
        fields = self.shape.record_format().iter_unpack(filled)
        return Listing([Record(field[:-1], field[-1]) for field in fields], result.total, result.reads)


def _owned(shape: Shape, words: Optional[int], pages: Optional[int]) -> Memory:
    """Memory of Python's own for a shape: where a count is None, as many as the shape, and the words, have use for."""
    words = shape.most_cells if words is None else words
    pages = min(shape.most_cells, words) if pages is None else pages
    return Memory.owned(words, pages, shape.page_capacity)


def _accept(result: Any) -> Any:
    """A call's result; Refusal where its number is not 0."""
    if result.number:
        raise Refusal(result.number, result.attribute, getattr(result, "depth", 0))
    return result


def _present(attribute: int) -> None:
    """Refuses an attribute that no shape has with 8."""
    if not 0 <= attribute < 4:
        raise Refusal(numbers.ATTRIBUTE)


def _value(value: int) -> int:
    """A value as a call takes it; one that 32 bits do not hold becomes another that is out of bounds."""
    return value if -_NO_VALUE <= value <= _NO_VALUE else _NO_VALUE


def _payload(payload: int) -> int:
    """A payload as a call takes it."""
    if not 0 <= payload <= MOST_PAYLOAD:
        raise ValueError(f"the payload {payload} is outside 1 to {MOST_PAYLOAD}")
    return payload
