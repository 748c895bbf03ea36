"""`mdeh import`: a CSV file of events becomes a file of records and its description."""
from __future__ import annotations

import argparse
import shlex
import sys
from typing import Dict, List, Optional, Sequence, Tuple

from . import describe, files, proposal, rows
from . import refusal as numbers
from .attributes import Attribute
from .describe import Description
from .fill import Events, Filled, counts_of, events_of, fill, refused_rows
from .keys import Keys
from .progress import Progress
from .proposal import Proposal
from .refusal import Refusal
from .rows import Rows
from .unusable import Unusable, refused

# the names that the payload may have where it is the line number: one more than there are attributes
_LINE_NAMES = ("line", "csv line", "row", "csv row", "number")


def run(args: argparse.Namespace) -> int:
    """Imports the file. 0 where every row's key is in the written file, otherwise 2."""
    files.apart([args.output, describe.path_of(args.output)], [args.csv])
    describe.read(args.output)  # a file beside that is no description is not written over
    progress = Progress()
    progress.tell(f"reading {args.csv}")
    table = rows.read(args.csv, args.delimiter, args.encoding)
    try:
        given = args.attribute or args.like is not None
        imported = _given(args, table, progress) if given else _proposed(args, table, progress)
    except Refusal as refusal:
        raise refused(args.csv, refusal) from refusal
    finally:
        progress.clear()
    return imported


def _given(args: argparse.Namespace, table: Rows, progress: Progress) -> int:
    """Imports under the attributes of the command line, or of another file's description."""
    if args.columns:
        raise Unusable("--columns chooses for a proposal, --attribute and --like give attributes: one of them")
    keys, wanted = _described(args, table) if args.like is not None else _on_the_line(args)
    names = [attribute.name for attribute in keys.attributes]
    payload = proposal.payload_column(table, names, wanted)
    events = events_of(table, names, payload)
    filled = fill(keys, args.capacity, events, args.replace, progress)
    return _finish(args, Proposal(keys, filled), payload, events)


def _on_the_line(args: argparse.Namespace) -> Tuple[Keys, Optional[str]]:
    """The attributes and the payload's column of the command line."""
    return Keys(tuple(map(Attribute.parse, args.attribute)), args.spare or 0), args.payload


def _described(args: argparse.Namespace, table: Rows) -> Tuple[Keys, Optional[str]]:
    """The attributes of the description beside another file, and the payload's column, if the rows have it."""
    if args.attribute or args.spare:
        raise Unusable("--like gives all attributes: neither --attribute nor --spare goes with it")
    description = describe.read(args.like)
    if description is None:
        raise Unusable(f"{describe.path_of(args.like)} is not there")
    named = description.payload if description.payload in table.header else None
    return description.keys, named if args.payload is None else args.payload


def _proposed(args: argparse.Namespace, table: Rows, progress: Progress) -> int:
    """Imports under attributes that the data give, and says under which."""
    chosen = [name.strip() for name in args.columns.split(",")] if args.columns else None
    payload = proposal.payload_column(table, chosen or [], args.payload)
    columns = proposal.columns_of(table, payload) if chosen is None else proposal.Columns(chosen, [])
    events = events_of(table, columns.taken, payload)
    proposed = proposal.propose(columns.taken, args.spare, args.capacity, events, args.replace, progress)
    print("proposed: " + _flags(args, proposed.keys, payload))
    if columns.left:
        print("left out (--columns chooses): " + ", ".join(columns.left))
    return _finish(args, proposed, payload, events)


def _flags(args: argparse.Namespace, keys: Keys, payload: Optional[str]) -> str:
    """The flags that give the same attributes again."""
    flags = [part for attribute in keys.attributes for part in ("--attribute", attribute.spec())]
    flags += ["--spare", str(keys.spare)] if keys.spare else []
    flags += ["--payload", payload] if payload is not None else []
    flags += ["--capacity", str(args.capacity)] if args.capacity != 16 else []
    return " ".join(map(shlex.quote, flags))


def _finish(args: argparse.Namespace, proposed: Proposal, payload: Optional[str], events: Events) -> int:
    """Writes the file and its description, tells the refused rows and counts them."""
    keys, filled = proposed
    counts = counts_of(events, filled)
    missing = {str(number): count for number, count in counts.items() if number != numbers.STORED}
    data = filled.store.save()
    if payload is None:
        payload = _line_name([attribute.name for attribute in keys.attributes])
    describe.write(args.output, data, Description(keys, payload, missing))
    if not args.quiet:
        for line, why in refused_rows(events, filled, keys.attributes):
            print(f"line {line}: {why}", file=sys.stderr)
    print(_summary(events, filled, counts))
    _advise(filled)
    return 2 if missing else 0


def _line_name(taken: Sequence[str]) -> str:
    """The name of the payload where it is the line number, which no attribute has."""
    return next(name for name in _LINE_NAMES if name not in taken)


def _summary(events: Events, filled: Filled, counts: Dict[int, int]) -> str:
    """How many rows there are, and what became of them."""
    total = len(filled.numbers) + len(events.faults)
    stored = filled.numbers.count(numbers.ACCEPTED) - filled.replaced
    parts = [f"{stored} stored"]
    if filled.replaced:
        parts.append(f"{filled.replaced} replaced")
    told: List[str] = [f"{number}: {count}" for number, count in counts.items() if number]
    if counts.get(0):
        told.append(f"unreadable: {counts[0]}")
    parts.append(f"{sum(counts.values())} refused" + (f" ({', '.join(told)})" if told else ""))
    return f"{total} row{'s' * (total != 1)}: " + ", ".join(parts)


def _advise(filled: Filled) -> None:
    """What to do about rows that have no room."""
    if filled.lacking:
        print("mdeh: rows without room (6, 7): least widths, from and to, --spare 2, reversed or capacity 16 make "
              "room, or several files, each with a part of the rows", file=sys.stderr)
