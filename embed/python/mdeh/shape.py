"""What the records of a store look like."""
from __future__ import annotations

import struct
from dataclasses import dataclass
from typing import List, Optional, Sequence, Tuple

from .interface import MOST_WORDS, RECORD_BYTES, STATE_WORDS, MdehShape, file_bytes

_MOST_WORD = 0xFFFFFFFF


@dataclass(frozen=True)
class Shape:
    """The widths of one to four attributes in bits, how many records a page takes, and which attributes are signed.

    Any numbers may stand here: a shape that is out of bounds is refused with 1, 14 or 15 by the call that is given it.
    """

    widths: Tuple[int, ...]
    capacity: int = 16
    signed: Tuple[int, ...] = ()

    def __init__(self, widths: Sequence[int], capacity: int = 16, signed: Sequence[int] = ()) -> None:
        """`signed` has the attributes, counted from 0, whose values may be below 0; others are passed over."""
        marks = sorted({j for j in signed if 0 <= j < len(widths)})
        object.__setattr__(self, "widths", tuple(widths))
        object.__setattr__(self, "capacity", capacity)
        object.__setattr__(self, "signed", tuple(marks))

    @classmethod
    def of_state(cls, state: Sequence[int]) -> Shape:
        """The shape in the words of a state. An attribute count past 4 stays out of bounds."""
        widths = list(state[1:5])[:state[0]] + [0] * min(1, max(0, state[0] - 4))
        marks = state[STATE_WORDS - 1]
        return cls(widths, state[5], [j for j in range(4) if marks >> j & 1])

    @classmethod
    def of_file(cls, file: bytes) -> Optional[Shape]:
        """The shape near the end of a file; None where the bytes are too few. No other byte is looked at."""
        if len(file) < file_bytes(0):
            return None
        count, *rest = file[-24:-17]
        return cls.of_state([count, *rest[:5]] + [0] * (STATE_WORDS - 7) + [rest[5]])

    @property
    def most_cells(self) -> int:
        """How many directory words, and so how many pages, a store of this shape has use for at most."""
        bits = sum(min(max(width, 0), 16) for width in self.widths[:4])
        return min(MOST_WORDS, 1 << bits)

    @property
    def page_capacity(self) -> int:
        """The capacity, cut to its bounds: memory is sized by it."""
        return min(max(self.capacity, 1), 16)

    def raw(self) -> MdehShape:
        """The shape as a call takes it; numbers past 32 bits become others that are out of bounds."""
        marks = sum(1 << j for j in self.signed if j < 4)
        shape = MdehShape(len(self.widths), capacity=_word(self.capacity), signs=marks)
        for j, width in enumerate(self.widths[:4]):
            shape.widths[j] = _word(width)
        return shape

    def columns(self, records: bytes) -> List[List[int]]:
        """The values of each attribute in the bytes of records, those of a file's beginning for one."""
        fields = memoryview(records)
        marked = [fields.cast("h" if j in self.signed else "H") for j in range(min(len(self.widths), 4))]
        return [field[j::RECORD_BYTES // 2].tolist() for j, field in enumerate(marked)]

    def record_format(self) -> struct.Struct:
        """How the used fields of a record and its payload are unpacked."""
        used = min(len(self.widths), 4)
        fields = "".join("h" if j in self.signed else "H" for j in range(used))
        return struct.Struct(f"<{fields}{2 * (4 - used)}xI")


def _word(number: int) -> int:
    """A number cut to 32 bits without a sign."""
    return min(max(number, 0), _MOST_WORD)
