"""The rows of a CSV file: a header with names, then fields by line."""
from __future__ import annotations

import csv
import itertools
import re
from typing import IO, List, NamedTuple, Optional, Sequence, Tuple

from .unusable import Unusable, shown

# a line behind the last one of a file, which is a row of its own unless a quote is open
_END = "end of file"

_WHOLE = re.compile(r"\s*[+-]?[0-9]{1,40}\s*")


class Fault(NamedTuple):
    """A row that cannot be read, by the line on which it begins, and why."""

    line: int
    why: str


class Rows(NamedTuple):
    """The names of the columns; the rows that have a field for each, with the lines on which they begin; the others."""

    header: List[str]
    fields: List[List[str]]
    lines: List[int]
    faults: List[Fault]

    def column(self, name: str) -> List[str]:
        """The fields under a name. Unusable where no column or several have it."""
        if name not in self.header:
            raise Unusable(f"there is no column {shown(name)}; there are {', '.join(map(shown, self.header))}")
        if self.header.count(name) > 1:
            raise Unusable(f"{self.header.count(name)} columns are called {shown(name)}")
        place = self.header.index(name)
        return [fields[place] for fields in self.fields]


def read(path: str, delimiter: str = ",", encoding: str = "utf-8-sig") -> Rows:
    """The rows of a CSV file with a header line. Blank lines are passed over. Unusable where there is no header, or
    where the file is no such text."""
    try:
        with open(path, encoding=encoding, newline="") as file:
            return _rows(path, file, delimiter)
    except OSError as error:
        raise Unusable(f"{path}: {error.strerror or error}") from error
    except UnicodeError as error:
        raise Unusable(f"{path}: it is no text in {encoding} ({error}); --encoding names another") from error
    except (LookupError, ValueError, TypeError) as error:
        raise Unusable(f"{path}: {error}") from error


def whole(text: str) -> Optional[int]:
    """The whole number that a field has, None for any other text."""
    return int(text) if _WHOLE.fullmatch(text) else None


def whole_numbers(fields: Sequence[str]) -> List[Optional[int]]:
    """The whole number of each field, None where it has none."""
    table = {text: whole(text) for text in set(fields)}
    return list(map(table.__getitem__, fields))


def _rows(path: str, file: IO[str], delimiter: str) -> Rows:
    """The rows of an opened file. A row whose quotes hold what has as many fields as the header is refused: they were
    not meant to hold a row."""
    lines = list(file)
    kept = _numbered(path, lines, delimiter)
    if not kept:
        raise Unusable(f"{path}: it is empty; a header line with the names of the columns is wanted")
    header = _header(path, kept[0][0], kept[0][2])
    whole_rows, faults = [], []
    for line, end, fields in kept[1:]:
        held = lines[line:end - 1] + [text.split('"')[0] for text in lines[line:end][-1:]]
        if any(text.count(delimiter) >= max(1, len(header) - 1) for text in held):
            faults.append(Fault(line, f"it goes on to line {end}, over rows of their own: a quote is not closed"))
        elif len(fields) != len(header):
            faults.append(Fault(line, f"{len(fields)} fields, not {len(header)}"))
        else:
            whole_rows.append((line, fields))
    return Rows(header, [fields for _, fields in whole_rows], [line for line, _ in whole_rows], faults)


def _numbered(path: str, lines: Sequence[str], delimiter: str) -> List[Tuple[int, int, List[str]]]:
    """The rows that are not blank, each with the lines on which it begins and ends. Unusable where a quote is not
    closed: the line behind the last is then no row of its own."""
    reader = csv.reader(itertools.chain(lines, [_END]), delimiter=delimiter, skipinitialspace=True)
    numbered: List[Tuple[int, int, List[str]]] = []
    begin = 1
    try:
        for fields in reader:
            if len(fields) > 1 or "".join(fields).strip():
                numbered.append((begin, reader.line_num, fields))
            begin = reader.line_num + 1
    except csv.Error as error:
        raise Unusable(f"{path}: line {begin}: {error}") from error
    line, _, last = numbered.pop()
    if last != next(csv.reader([_END], delimiter=delimiter, skipinitialspace=True)):
        raise Unusable(f"{path}: line {line}: a quote is not closed up to the end of the file")
    return numbered


def _header(path: str, line: int, fields: List[str]) -> List[str]:
    """The names in the first row. Unusable where one is a number, or there is one with another delimiter in it."""
    names = [field.strip() for field in fields]
    other = next((c for c in ";\t|," if len(names) == 1 and c in names[0]), None)
    if other is not None:
        raise Unusable(f"{path}: line {line} is one column, {shown(names[0])}; "
                       f"--delimiter {shown(other)} may be wanted")
    if any(whole(name) is not None for name in names):
        raise Unusable(f"{path}: line {line} has numbers; a header line with the names of the columns is wanted")
    return names
