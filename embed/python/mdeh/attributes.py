"""An attribute: its name and width, and how the host's values become the store's.

Split bits are taken from the top of each width in turn, so a store divides well where the top bits vary. A bias takes
the least value off; spread values fill the width evenly and keep their order; reversed bits fill the first split bits
from the low ends of the values, and lose the order.
"""
from __future__ import annotations

import re
from dataclasses import dataclass
from typing import Dict, Iterable, List, Optional, Union

from . import refusal as numbers
from .refusal import Refusal
from .unusable import Unusable, shown

_SPEC = re.compile(r"(?P<name>.+?):(?P<width>[0-9]{1,4})(?::(?P<options>[^:]*))?", re.DOTALL)
_OPTION = re.compile(r"(from|to)=([+-]?[0-9]{1,40})|signed|reversed")


@dataclass(frozen=True)
class Attribute:
    """An attribute of a width in bits. `low` is taken off each value; with `high` the values from low to high are
    spread over the width. Unusable where the parts do not go together."""

    name: str
    width: int
    low: Optional[int] = None
    high: Optional[int] = None
    signed: bool = False
    reversed: bool = False

    def __post_init__(self) -> None:
        """Tests the parts against each other."""
        fault = self._fault()
        if fault:
            raise Unusable(f"attribute {shown(self.name)}: {fault}")

    def _fault(self) -> Optional[str]:
        """What does not go together; None for an attribute that can be used."""
        if not self.name or not self.name.isprintable():
            return "a name is printable text"
        if not 1 <= self.width <= 16:
            return f"the width {self.width} is outside 1 to 16"
        if self.high is not None and self.low is None:
            return "to is given without from"
        if self.signed and (self.low is not None or self.reversed):
            return f"signed goes with no other option; from={-(1 << self.width - 1)} takes the same values"
        if self.high is not None and self.high < self.low:
            return f"from={self.low} is above to={self.high}"
        if self.high is not None and self.greatest - self.least >= 1 << self.width:
            return f"the values from {self.low} to {self.high} need {bits_for(self.low, self.high)} bits"
        return None

    @classmethod
    def parse(cls, text: str) -> Attribute:
        """The attribute of a text NAME:WIDTH[:OPTION[,OPTION...]]. Unusable for any other."""
        matched = _SPEC.fullmatch(text)
        if not matched:
            raise Unusable(f"{shown(text)} is no attribute: NAME:WIDTH[:OPTION[,OPTION...]]")
        parts: Dict[str, Union[int, bool]] = {}
        for option in [] if matched["options"] is None else matched["options"].split(","):
            found = _OPTION.fullmatch(option)
            if not found:
                raise Unusable(f"{shown(option)} in {shown(text)} is none of from=N, to=M, signed, reversed")
            part = {"from": "low", "to": "high"}.get(found[1], option)
            if part in parts:
                raise Unusable(f"{shown(option)} in {shown(text)} comes twice")
            parts[part] = int(found[2]) if found[1] else True
        return cls(matched["name"], int(matched["width"]), **parts)

    def spec(self) -> str:
        """The text that `parse` reads as this attribute."""
        options = [f"{name}={value}" for name, value in (("from", self.low), ("to", self.high)) if value is not None]
        options += [name for name in ("signed", "reversed") if getattr(self, name)]
        return ":".join([self.name, str(self.width)] + ([",".join(options)] if options else []))

    @property
    def least(self) -> int:
        """The least value that the attribute takes."""
        if self.signed:
            return -(1 << self.width - 1)
        return self.low or 0

    @property
    def greatest(self) -> int:
        """The greatest value that the attribute takes."""
        return self.high if self.high is not None else self.least + (1 << self.width) - 1

    def takes(self, value: int) -> bool:
        """Whether it is a value of the attribute."""
        return self.least <= value <= self.greatest

    def encode(self, value: int) -> int:
        """The store's value for the host's. Refused with 3 outside `least` to `greatest`."""
        if not self.takes(value):
            raise Refusal(numbers.VALUE)
        if self.signed:
            return value
        code = value - self.least
        if self.high is not None:
            code = (code << self.width) // (self.high - self.low + 1)
        return reversed_bits(code, self.width) if self.reversed else code

    def decode(self, code: int) -> int:
        """The host's value for the store's. Refused with 3 where the store's value is that of no host value."""
        value = code
        if not self.signed:
            rank = reversed_bits(code, self.width) if self.reversed else code
            if self.high is not None:
                rank = -(-rank * (self.high - self.low + 1) >> self.width)
            value = rank + self.least
        if not self.takes(value) or self.encode(value) != code:
            raise Refusal(numbers.VALUE)
        return value

    def codes(self, values: Iterable[int]) -> Dict[int, Optional[int]]:
        """The store's value for each of some values, None where it is outside the bounds."""
        return {value: self.encode(value) if self.takes(value) else None for value in set(values)}

    def values_between(self, low: int, high: int) -> List[int]:
        """The host's values, in order, whose encodings in the store lie between two of them, both included. An encoding
        is the store's value, of a signed attribute with 2^(width-1) added."""
        if self.reversed:
            return [value for value in range(self.least, self.greatest + 1) if low <= self.encode(value) <= high]
        count = self.greatest - self.least + 1
        first, end = (-(-code * count >> self.width) for code in (low, high + 1))
        return list(range(self.least + first, self.least + end))


def bits_for(low: int, high: int) -> int:
    """The least width, from 1 on, that has a value for each number from low to high."""
    return max(1, (high - low).bit_length())


def reversed_bits(value: int, width: int) -> int:
    """The value whose `width` bits are those of `value` from the other end; its own inverse."""
    return int(f"{value:0{width}b}"[::-1], 2)
