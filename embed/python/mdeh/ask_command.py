"""`mdeh ask`: the records of a file that meet conditions on its attributes."""
from __future__ import annotations

import argparse
import csv
import json
import re
import sys
from typing import Dict, List, Mapping, Sequence, Tuple

from .describe import path_of
from .table import Answer, Condition, Table, ends, interval_text
from .unusable import Unusable, shown

_NUMBER = r"[+-]?[0-9]{1,40}"
_VALUE = re.compile(rf"({_NUMBER})|({_NUMBER})?\.\.({_NUMBER})?")


def run(args: argparse.Namespace) -> int:
    """Asks and prints. 0 where records are found, 1 where none are, 2 where none are and the file may lack some."""
    conditions = parse(args.conditions)
    table = Table.load(args.file)
    doubtful = warn(args.file, table)
    for note in _cuts(table, conditions):
        print(f"mdeh: {note}", file=sys.stderr)
    answer = table.ask(conditions)
    names = [attribute.name for attribute in table.attributes] + [table.description.payload]
    shown_rows = answer.rows if args.limit is None else answer.rows[:args.limit]
    if args.json:
        _print_json(names, shown_rows, answer, doubtful)
    elif args.csv:
        writer = csv.writer(sys.stdout, lineterminator="\n")
        writer.writerow(names)
        writer.writerows(shown_rows)
        print(_counts(answer, len(shown_rows)), file=sys.stderr)
    else:
        _print_columns(names, shown_rows)
        print(_counts(answer, len(shown_rows)))
    return 0 if answer.rows else 2 if doubtful else 1


def parse(texts: Sequence[str]) -> Dict[str, Condition]:
    """The conditions NAME=VALUE, NAME=LOW..HIGH, NAME=LOW.. and NAME=..HIGH. Unusable for other texts."""
    conditions: Dict[str, Condition] = {}
    for text in texts:
        name, equals, value = text.rpartition("=")
        found = _VALUE.fullmatch(value.strip())
        name = name.strip()
        if not equals or not name or not found:
            raise Unusable(f"{shown(text)} is none of NAME=VALUE, NAME=LOW..HIGH, NAME=LOW.., NAME=..HIGH "
                           "with whole numbers")
        if name in conditions:
            raise Unusable(f"{shown(name)} is asked for twice")
        low, high = (int(end) if end else None for end in (found[2], found[3]))
        conditions[name] = int(found[1]) if found[1] else (low, high)
    return conditions


def warn(path: str, table: Table) -> bool:
    """Tells what a reader of an answer is to know of the file, and gives whether an answer may lack records."""
    missing = sum(table.description.missing.values())
    if not table.described:
        print(f"mdeh: {path_of(path)} is not there: attributes are a0, a1 and so on, with the store's values, "
              "which may not be those of the rows",
              file=sys.stderr)
    elif not table.unchanged:
        print(f"mdeh: {path} or {path_of(path)} was changed since they were written: names and values may be others",
              file=sys.stderr)
    if missing:
        print(f"mdeh: {path} lacks {missing} of the imported rows: an answer may lack them too", file=sys.stderr)
    return missing > 0 or not table.unchanged


def _cuts(table: Table, conditions: Mapping[str, Condition]) -> List[str]:
    """Which intervals reach beyond the values that an attribute takes."""
    notes = []
    for (name, condition), cut in zip(conditions.items(), table.intervals(conditions).values()):
        low, high = ends(condition)
        if low not in (None, cut[0]) or high not in (None, cut[1]):
            notes.append(f"{name} {interval_text(low, high)} reaches beyond the file's values: {cut[0]}..{cut[1]} "
                         "is asked")
    return notes


def _counts(answer: Answer, shown_count: int) -> str:
    """How many records there are, and how many pages were read."""
    total = len(answer.rows)
    cut = f" ({shown_count} shown)" if shown_count < total else ""
    return f"{total} record{'s' * (total != 1)}{cut}, {answer.reads} page{'s' * (answer.reads != 1)} read"


def _print_columns(names: Sequence[str], rows: Sequence[Tuple[int, ...]]) -> None:
    """Prints rows under their names, aligned on the right."""
    texts = [names] + [list(map(str, row)) for row in rows]
    widths = [max(map(len, column)) for column in zip(*texts)]
    sys.stdout.writelines("  ".join(map(str.rjust, row, widths)) + "\n" for row in texts)


def _print_json(names: Sequence[str], rows: Sequence[Tuple[int, ...]], answer: Answer, doubtful: bool) -> None:
    """Prints one JSON value: records by name, the total, the pages read, and whether records may be lacking."""
    records = [dict(zip(names, row)) for row in rows]
    whole = {"records": records, "total": len(answer.rows), "reads": answer.reads, "doubtful": doubtful}
    print(json.dumps(whole, ensure_ascii=False))
