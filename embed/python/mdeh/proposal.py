"""Attributes proposed from data: which columns, which bounds and widths, and a form under which every row has room."""
from __future__ import annotations

from typing import Iterator, List, NamedTuple, Optional, Sequence, Tuple

from .attributes import Attribute, bits_for
from .fill import Events, Filled, fill
from .keys import Keys
from .progress import Progress
from .rows import Rows, whole_numbers
from .unusable import Unusable, shown

_MOST_ATTRIBUTES = 4
_MOST_BITS = 16

# the widths of a spare attribute that are tried, the one that helps most often first
_SPARE_WIDTHS = (2, 1, 3)


class Columns(NamedTuple):
    """The columns that a proposal takes, and the others with the reason for each."""

    taken: List[str]
    left: List[str]


class Proposal(NamedTuple):
    """Keys, and what becomes of the rows under them."""

    keys: Keys
    filled: Filled


def payload_column(rows: Rows, attributes: Sequence[str], wanted: Optional[str]) -> Optional[str]:
    """The column of the payloads: the wanted one, or `payload` or `log` where it is no attribute; None for the line
    numbers."""
    if wanted is not None:
        return wanted
    return next((name for name in ("payload", "log") if rows.header.count(name) == 1 and name not in attributes), None)


def columns_of(rows: Rows, payload: Optional[str]) -> Columns:
    """The first four columns, the payload's left out, with whole numbers in half of the rows or more, of which 99 in
    100 are within 16 bits of each other. Their other rows are refused one by one."""
    taken: List[str] = []
    left: List[str] = []
    for name in rows.header:
        reason = "the payload" if name == payload else _reason_against(rows, name)
        if reason is None and len(taken) == _MOST_ATTRIBUTES:
            reason = "four are taken"
        if reason is None:
            taken.append(name)
        elif name != payload:
            left.append(f"{shown(name)} ({reason})")
    if not taken:
        raise Unusable("no column has whole numbers in half of the rows; left: " + ", ".join(left))
    return Columns(taken, left)


def propose(names: Sequence[str], spare: Optional[int], capacity: int, events: Events, replace: bool,
            progress: Progress) -> Proposal:
    """The first candidate under which every row has room, or the one under which the fewest have none. A spare width
    that is given is that of each candidate."""
    if not events.lines:
        raise Unusable("there is no row from which attributes could be proposed")
    best: Optional[Proposal] = None
    for keys in _candidates(names, spare, events):
        filled = fill(keys, capacity, events, replace, progress)
        if best is None or filled.lacking < best.filled.lacking:
            best = Proposal(keys, filled)
        if filled.lacking == 0:
            break
    return best


def _candidates(names: Sequence[str], spare: Optional[int], events: Events) -> Iterator[Keys]:
    """Spread values; then with a spare attribute, where there is a place for it; then reversed bits."""
    bounds = [_bounds(column) for column in events.columns]
    spread = tuple(Attribute(name, _width(name, low, high), low, high) for name, (low, high) in zip(names, bounds))
    yield Keys(spread, spare or 0)
    if spare is None and len(names) < _MOST_ATTRIBUTES:
        for width in _SPARE_WIDTHS:
            yield Keys(spread, width)
    yield Keys(tuple(Attribute(a.name, a.width, a.low, reversed=True) for a in spread), spare or 0)


def _width(name: str, low: int, high: int) -> int:
    """The least width for the values from low to high. Unusable where no attribute is so wide."""
    width = bits_for(low, high)
    if width > _MOST_BITS:
        raise Unusable(f"{shown(name)}: {_too_wide(low, high)}")
    return width


def _reason_against(rows: Rows, name: str) -> Optional[str]:
    """Why a column can be no attribute; None where it can."""
    if not name or not name.isprintable():
        return "it has no printable name"
    if rows.header.count(name) > 1:
        return "its name comes twice"
    fields = rows.column(name)
    read = whole_numbers(fields)
    values = [value for value in read if value is not None]
    if 2 * len(values) < len(read):
        row = read.index(None)
        return (f"{len(read) - len(values)} of {len(read)} rows have no whole number, "
                f"the first on line {rows.lines[row]}: {shown(fields[row])}")
    low, high = _bounds(values)
    return _too_wide(low, high) if bits_for(low, high) > _MOST_BITS else None


def _bounds(values: Sequence[int]) -> Tuple[int, int]:
    """The ends of the most values that lie within 16 bits of each other, if they are 99 in 100; otherwise of all."""
    ordered = sorted(values) or [0]
    first, begin, end = 0, 0, 0
    for last, value in enumerate(ordered):
        while value - ordered[first] >= 1 << _MOST_BITS:
            first += 1
        if last - first > end - begin:
            begin, end = first, last
    if 100 * (end - begin + 1) < 99 * len(ordered):
        return ordered[0], ordered[-1]
    return ordered[begin], ordered[end]


def _too_wide(low: int, high: int) -> str:
    """That a column's values are too far apart."""
    return f"its values from {low} to {high} need {bits_for(low, high)} bits, and an attribute has at most {_MOST_BITS}"
