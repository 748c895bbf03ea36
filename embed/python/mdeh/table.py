"""A file of records that is asked by the names of its attributes."""
from __future__ import annotations

from typing import Dict, List, Mapping, NamedTuple, Optional, Tuple, Union

from . import describe, files
from . import refusal as numbers
from .attributes import Attribute
from .describe import Description
from .keys import Keys
from .interface import file_bytes
from .refusal import Refusal
from .shape import Shape
from .store import Store
from .unusable import Unusable, refused, shown, told

# a value, or the two ends of an interval, None for an open one
Condition = Union[int, Tuple[Optional[int], Optional[int]]]
Interval = Tuple[int, int]


class Answer(NamedTuple):
    """Rows of the host's values and the payload, sorted, and how many pages were read."""

    rows: List[Tuple[int, ...]]
    reads: int


class Table:
    """The store of a file, with the names and the host's values of its attributes.

    `described` tells whether the file has a description; without one attributes are a0 to a3, with the store's values.
    `unchanged` tells whether file and description are those that were written together.
    """

    def __init__(self, store: Store, description: Description, described: bool = True, unchanged: bool = True) -> None:
        """Takes a store and a description that fits it."""
        self.store = store
        self.description = description
        self.described = described
        self.unchanged = unchanged

    @classmethod
    def load(cls, path: str) -> Table:
        """The table of a file and the description beside it, if there is one. Unusable where the file is refused, its
        store is not sound, or the description is damaged or of another file."""
        data = files.read(path)
        store = loaded(path, data)
        description = describe.read(path)
        if description is None:
            return cls(store, plain(store.shape), False)
        expect_fit(description, data, describe.path_of(path))
        return cls(store, description, True, description.describes(data))

    @property
    def attributes(self) -> Tuple[Attribute, ...]:
        """The attributes, the spare one left out."""
        return self.description.keys.attributes

    def intervals(self, conditions: Mapping[str, Condition]) -> Dict[int, Interval]:
        """The interval that each named attribute is asked for, cut to the attribute's bounds. Unusable for a name that
        there is not, for an interval wholly outside the bounds (3), and for one whose low end is above its high end
        (10)."""
        names = [attribute.name for attribute in self.attributes]
        for name in conditions:
            if name not in names:
                raise Unusable(f"there is no attribute {shown(name)}; there are {', '.join(names)}")
        return {names.index(name): _cut(self.attributes[names.index(name)], *ends(condition))
                for name, condition in conditions.items()}

    def ask(self, conditions: Mapping[str, Condition]) -> Answer:
        """The rows that meet all conditions. Single values go to the store's query, intervals to its range. An interval
        of more than one value of a reversed attribute has no order in the store: the attribute is left free, the rows
        are filtered, and more pages are read."""
        asked = self.intervals(conditions)
        filtered = {j: ends for j, ends in asked.items() if self.attributes[j].reversed and ends[0] != ends[1]}
        given = {j: tuple(map(self.attributes[j].encode, ends)) for j, ends in asked.items() if j not in filtered}
        if all(low == high for low, high in given.values()):
            listing = self.store.query({j: low for j, (low, _) in given.items()})
        else:
            listing = self.store.range(given)
        columns = self.description.keys.decode_columns(list(zip(*(record.key for record in listing.records))))
        rows = sorted(zip(*columns, (record.payload for record in listing.records)))
        for j, (low, high) in filtered.items():
            rows = [row for row in rows if low <= row[j] <= high]
        return Answer(rows, listing.reads)


def ends(condition: Condition) -> Tuple[Optional[int], Optional[int]]:
    """The two ends of a condition."""
    return (condition, condition) if isinstance(condition, int) else condition


def loaded(path: str, data: bytes) -> Store:
    """The store of a file's bytes, checked. Unusable where it is refused or not sound."""
    try:
        store = Store.load(data)
        sound = store.check()
    except Refusal as refusal:
        raise refused(path, refusal) from refusal
    if not sound:
        raise Unusable(f"{path}: {told(numbers.UNSOUND)}")
    return store


def plain(shape: Shape) -> Description:
    """The description of a file that has none: attributes a0 to a3 with the store's values."""
    attributes = [Attribute(f"a{j}", width, signed=j in shape.signed) for j, width in enumerate(shape.widths)]
    return Description(Keys(tuple(attributes)), "payload")


def expect_fit(description: Description, data: bytes, path: str) -> None:
    """Unusable where the description is of another shape than a file that loads, or a key is none of its
    attributes'."""
    shape = Shape.of_file(data)
    if description.keys.shape(shape.capacity) != shape:
        raise Unusable(f"{path}: it describes a store of another shape than the file's")
    try:
        description.keys.decode_columns(shape.columns(data[:-file_bytes(0)]))
    except Refusal as refusal:
        raise Unusable(f"{path}: the file has a key that its attributes cannot have") from refusal


def interval_text(low: Optional[int], high: Optional[int]) -> str:
    """An interval as a command line has it."""
    if low is not None and low == high:
        return str(low)
    return f"{'' if low is None else low}..{'' if high is None else high}"


def _cut(attribute: Attribute, low: Optional[int], high: Optional[int]) -> Interval:
    """An interval's part within the attribute's bounds."""
    asked = f"{attribute.name} {interval_text(low, high)}"
    outside = low is not None and low > attribute.greatest or high is not None and high < attribute.least
    if outside:
        raise Unusable(f"{asked} is outside {attribute.least} to {attribute.greatest}: {told(numbers.VALUE)}")
    if low is not None and high is not None and low > high:
        raise Unusable(f"{asked}: {told(numbers.INTERVAL)}")
    return (attribute.least if low is None else max(low, attribute.least),
            attribute.greatest if high is None else min(high, attribute.greatest))
