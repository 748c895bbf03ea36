"""Keys: the values of several attributes as a key of the store, with a spare attribute where one is wanted."""
from __future__ import annotations

from dataclasses import dataclass
from typing import List, Optional, Sequence, Tuple

from . import refusal as numbers
from .attributes import Attribute
from .refusal import Refusal
from .shape import Shape
from .unusable import Unusable, shown


@dataclass(frozen=True)
class Keys:
    """One to four attributes in the order of a key. A spare attribute of `spare` bits, none for 0, is the last of the
    store's: the sum of the others' ranks (each value less its least) modulo 2^spare. It evens out leaves, no query
    gives it, and no list shows it."""

    attributes: Tuple[Attribute, ...]
    spare: int = 0

    def __post_init__(self) -> None:
        """Tests the counts, the spare width and that names differ."""
        names = [attribute.name for attribute in self.attributes]
        if not 1 <= len(names) <= 4:
            raise Unusable(f"{len(names)} attributes: a store has 1 to 4")
        twice = next((name for name in names if names.count(name) > 1), None)
        if twice is not None:
            raise Unusable(f"attribute {shown(twice)} comes twice")
        if not 0 <= self.spare <= 8:
            raise Unusable(f"the spare width {self.spare} is outside 1 to 8")
        if self.spare and len(names) == 4:
            raise Unusable("four attributes leave no place for a spare one")

    def shape(self, capacity: int) -> Shape:
        """The shape of a store of these keys."""
        widths = [attribute.width for attribute in self.attributes] + [self.spare] * bool(self.spare)
        return Shape(widths, capacity, [j for j, attribute in enumerate(self.attributes) if attribute.signed])

    def encode(self, values: Sequence[int]) -> Tuple[int, ...]:
        """The store's key for the host's values. Refused with 3 where one is outside its bounds."""
        key = tuple(attribute.encode(value) for attribute, value in zip(self.attributes, values))
        return key + (self._spare_of(values),) * bool(self.spare)

    def encode_columns(self, columns: Sequence[Sequence[int]]) -> List[Optional[Tuple[int, ...]]]:
        """The store's key for each row of columns of values, None where a value is outside its bounds."""
        codes = [list(map(attribute.codes(column).__getitem__, column))
                 for attribute, column in zip(self.attributes, columns)]
        if self.spare:
            base, mask = self._base(), (1 << self.spare) - 1
            codes.append([sum(values) - base & mask for values in zip(*columns)])
        return [None if None in key else key for key in zip(*codes)]

    def decode(self, key: Sequence[int]) -> Tuple[int, ...]:
        """The host's values for a key of the store. Refused with 3 where no values have this key."""
        values = tuple(attribute.decode(code) for attribute, code in zip(self.attributes, key))
        if self.spare and key[-1] != self._spare_of(values):
            raise Refusal(numbers.VALUE)
        return values

    def decode_columns(self, columns: Sequence[Sequence[int]]) -> List[List[int]]:
        """The host's values for columns of the store's, a row of which is a key, as `decode` gives them."""
        decoded = []
        for attribute, column in zip(self.attributes, columns):
            table = {code: attribute.decode(code) for code in set(column)}
            decoded.append(list(map(table.__getitem__, column)))
        if self.spare and columns:
            base, mask = self._base(), (1 << self.spare) - 1
            if any(total - base & mask != spare for total, spare in zip(map(sum, zip(*decoded)), columns[-1])):
                raise Refusal(numbers.VALUE)
        return decoded

    def _spare_of(self, values: Sequence[int]) -> int:
        """The value of the spare attribute."""
        return sum(values) - self._base() & (1 << self.spare) - 1

    def _base(self) -> int:
        """The sum of the least values."""
        return sum(attribute.least for attribute in self.attributes)
