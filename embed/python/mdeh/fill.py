"""Rows into a store: what becomes of each, by number."""
from __future__ import annotations

from collections import Counter
from typing import Dict, List, NamedTuple, Optional, Sequence

from . import refusal as numbers
from .attributes import Attribute
from .keys import Keys
from .progress import Progress
from .rows import Fault, Rows, whole_numbers
from .store import MOST_PAYLOAD, Store
from .unusable import shown, told

_BATCH = 1000


class Events(NamedTuple):
    """The rows that are read as numbers: a column of values for each attribute, payloads and lines; and the rows that
    are not."""

    columns: List[List[int]]
    payloads: List[int]
    lines: List[int]
    faults: List[Fault]


class Filled(NamedTuple):
    """A store with the rows that it takes, the number of each row, and how many took the place of a former one."""

    store: Store
    numbers: List[int]
    replaced: int

    @property
    def lacking(self) -> int:
        """How many rows have no room."""
        return sum(number in (numbers.DEPTH, numbers.PAGES) for number in self.numbers)


def events_of(rows: Rows, names: Sequence[str], payload: Optional[str]) -> Events:
    """The values under names, and the payloads under another, or the lines where it is None."""
    texts = [rows.column(name) for name in names]
    columns = [whole_numbers(column) for column in texts]
    payload_texts = [] if payload is None else rows.column(payload)
    payloads = rows.lines if payload is None else whole_numbers(payload_texts)
    faults = {}
    for name, column, fields in reversed(list(zip(names, columns, texts))):
        faults.update((i, f"{name} {shown(fields[i])} is no whole number")
                      for i, value in enumerate(column) if value is None)
    if payload is not None:
        faults.update((i, f"{payload} {shown(payload_texts[i])} is no whole number from 1 to {MOST_PAYLOAD}")
                      for i, value in enumerate(payloads)
                      if i not in faults and (value is None or not 0 <= value <= MOST_PAYLOAD))
    kept = [i for i in range(len(rows.lines)) if i not in faults]
    unread = [Fault(rows.lines[i], why) for i, why in faults.items()]
    return Events([[column[i] for i in kept] for column in columns], [payloads[i] for i in kept],
                  [rows.lines[i] for i in kept], rows.faults + unread)


def fill(keys: Keys, capacity: int, events: Events, replace: bool, progress: Progress) -> Filled:
    """A store of all the memory that it could use, and the events put into it in turn. With `replace` a later row takes
    the place of a stored one with its key. Refused with 15."""
    store = Store.fresh(keys.shape(capacity))
    encoded = keys.encode_columns(events.columns)
    rows = [i for i, key in enumerate(encoded) if key is not None]
    results = [numbers.VALUE] * len(encoded)
    replaced = 0
    for begin in range(0, len(rows), _BATCH):
        batch = [(i, encoded[i], events.payloads[i]) for i in rows[begin:begin + _BATCH]]
        answers = store.insert_all((key, payload) for _, key, payload in batch)
        for (i, key, payload), number in zip(batch, answers):
            if replace and number == numbers.STORED:
                store.delete(key)
                store.insert(key, payload)
                number, replaced = numbers.ACCEPTED, replaced + 1
            results[i] = number
        progress.tell(f"{begin + len(batch)} of {len(rows)} rows")
    progress.clear()
    return Filled(store, results, replaced)


def refused_rows(events: Events, filled: Filled, attributes: Sequence[Attribute]) -> List[Fault]:
    """The rows that are not in the store, by line, each with its number and reason."""
    refused = [Fault(events.lines[i], told(number) + _outside(events, i, attributes) * (number == numbers.VALUE))
               for i, number in enumerate(filled.numbers) if number]
    return sorted(events.faults + refused)


def counts_of(events: Events, filled: Filled) -> Dict[int, int]:
    """How many rows were refused by each number, 0 for those that could not be read."""
    counts = Counter(number for number in filled.numbers if number)
    if events.faults:
        counts[0] = len(events.faults)
    return dict(sorted(counts.items()))


def _outside(events: Events, row: int, attributes: Sequence[Attribute]) -> str:
    """The values of a row that are outside their bounds; nothing where there are none."""
    values = [(attribute, column[row]) for attribute, column in zip(attributes, events.columns)]
    texts = [f"{a.name} {value} is outside {a.least} to {a.greatest}" for a, value in values if not a.takes(value)]
    return ": " + ", ".join(texts) if texts else ""
