"""The command `mdeh`: its arguments, its errors and its exit status."""
from __future__ import annotations

import argparse
import contextlib
import os
import sys
from typing import Callable, List, NoReturn, Optional, Sequence

from . import ask_command, image_commands, import_command, info_command
from .interface import MOST_PAGES, MOST_WORDS, VERSION, LibraryMissing
from .refusal import Refusal
from .unusable import Unusable, told

_REFUSED = 2
_INTERRUPTED = 130
_PIPE_CLOSED = 141

_OVERVIEW = """\
Event records in a file, asked by any of their attributes.

  mdeh import events.csv -o gw.mdeh     a file of records from a CSV file with a header line
  mdeh ask gw.mdeh code=30              the records with code 30
  mdeh info gw.mdeh                     how full the store is, and where it has no room
  mdeh check gw.mdeh                    whether the file, or a memory image, is sound
  mdeh save STATE DIRECTORY PAGES -o gw.mdeh
  mdeh load gw.mdeh STATE DIRECTORY PAGES
                                        between a host's memory image and a file

mdeh COMMAND --help tells more."""

_STATUS = ("Exit status: 0; 1 for nothing found (ask); 2 for a refusal, with its reason on standard error, and for\n"
           "nothing found in a file that lacks imported rows or was changed.")

_IMPORT = """\
Reads a CSV file with a header line and writes a file of records, and its description beside it (FILE.json).

A row has a whole number under each attribute, and a payload: a pointer into a log. Rows that are refused are told on
standard error by line, number and reason. Without --attribute the attributes are proposed from the data: the first
four columns of whole numbers, or those of --columns, each spread from its least to its greatest value; if rows have no
room so, with a spare attribute, then with reversed bits. The flags that give the same again are printed.

  mdeh import events.csv -o gw.mdeh
  mdeh import events.csv --columns code,slot,release --payload log -o gw.mdeh
  mdeh import events.csv --attribute code:7:from=0,to=99 --attribute slot:5 --attribute offset:10:signed -o gw.mdeh
  mdeh import later.csv --like gw.mdeh -o gw.mdeh
"""

_IMPORT_END = """\
An attribute is NAME:WIDTH[:OPTION[,OPTION...]], the width in bits from 1 to 16:
  from=N     N is taken off each value: for values that do not start at 0
  to=M       with from=N: values from N to M, spread over the width; their order is kept
  signed     values from -2^(WIDTH-1) on; goes with no other option
  reversed   the bits are reversed: for clustered values that are asked for one by one and not by intervals

Exit status: 0 where every row's key is in the file, otherwise 2 (the file is still written); 2 for unusable input."""

_ASK = """\
Prints the records that meet all conditions, sorted, with the total and how many pages were read.

  mdeh ask gw.mdeh code=30
  mdeh ask gw.mdeh code=30 release=400..479
  mdeh ask gw.mdeh release=470.. slot=..3 --csv

A value outside those that an attribute takes is refused with 3, as is an interval wholly outside; an interval that
reaches beyond them is cut, which is told on standard error. An interval on a reversed attribute is answered by leaving
the attribute free and filtering: more pages are read. The file is checked before it is asked.
"""


class Parser(argparse.ArgumentParser):
    """A parser whose errors are one line."""

    def error(self, message: str) -> NoReturn:
        """Tells what is amiss, and ends with 2."""
        self.exit(_REFUSED, f"mdeh: {message} ({self.prog} --help tells more)\n")


def main(arguments: Optional[Sequence[str]] = None) -> int:
    """Runs the command of the arguments, those of the process by default, and gives its exit status."""
    for stream in (sys.stdout, sys.stderr):
        if hasattr(stream, "reconfigure"):
            stream.reconfigure(errors="backslashreplace")
    try:
        status = _run(list(sys.argv[1:] if arguments is None else arguments))
        sys.stdout.flush()
        return status
    except (Unusable, LibraryMissing) as error:
        return _told(str(error))
    except Refusal as refusal:
        return _told(told(refusal.number, refusal.attribute))
    except BrokenPipeError:
        os.dup2(os.open(os.devnull, os.O_WRONLY), sys.stdout.fileno())
        return _PIPE_CLOSED
    except KeyboardInterrupt:
        return _INTERRUPTED
    except OSError as error:
        return _told(str(error))
    except MemoryError:
        return _told("there is too little memory")
    except Exception as error:  # Python's own status for it, 1, would say that nothing was found
        return _told(f"a fault of mdeh itself: {type(error).__name__}: {error}")


def _told(text: str) -> int:
    """Tells why nothing was done, as far as there is where to."""
    with contextlib.suppress(OSError, ValueError):
        print(f"mdeh: {text}", file=sys.stderr, flush=True)
    return _REFUSED


def _run(arguments: List[str]) -> int:
    """Finds the command and runs it."""
    name = arguments[0] if arguments else ""
    if name in _COMMANDS:
        parser = _COMMANDS[name]()
        parsed = parser.parse_intermixed_args(arguments[1:])
        return parsed.run(parsed)
    parser = _parser("mdeh", _OVERVIEW, _STATUS)
    parser.usage = "mdeh COMMAND ..."
    parser.add_argument("--version", action="version", version=f"mdeh {VERSION}")
    parser.add_argument("command", choices=list(_COMMANDS), metavar="COMMAND", help=", ".join(_COMMANDS))
    parser.parse_args(arguments[:1])
    return 0


def _parser(program: str, description: str, end: str, run: Optional[Callable[..., int]] = None) -> Parser:
    """A parser that keeps the lines of its texts as they are."""
    parser = Parser(prog=program, description=description, epilog=end, allow_abbrev=False,
                    formatter_class=argparse.RawDescriptionHelpFormatter)
    parser.set_defaults(run=run)
    return parser


def _import_parser() -> Parser:
    """The arguments of `mdeh import`."""
    parser = _parser("mdeh import", _IMPORT, _IMPORT_END, import_command.run)
    parser.add_argument("csv", metavar="CSV", help="the rows, under a header line with names")
    _add_attributes(parser)
    parser.add_argument("--columns", metavar="NAME,...", help="the columns of which attributes are proposed")
    parser.add_argument("--like", metavar="FILE",
                        help="take the attributes and the payload's column of an earlier import (FILE.json)")
    parser.add_argument("--capacity", type=_number(1, 16), default=16, metavar="N",
                        help="records of a page, from 1 to 16 (16)")
    parser.add_argument("--delimiter", type=_delimiter, default=",", metavar="C", help="between fields (,)")
    parser.add_argument("--encoding", default="utf-8-sig", metavar="NAME", help="of the text (UTF-8)")
    parser.add_argument("--replace", action="store_true",
                        help="a later row with a stored key takes its place, and is not refused with 4")
    parser.add_argument("--quiet", action="store_true", help="count the refused rows, and do not tell each")
    _add_output(parser)
    return parser


def _ask_parser() -> Parser:
    """The arguments of `mdeh ask`."""
    parser = _parser("mdeh ask", _ASK, _STATUS, ask_command.run)
    parser.add_argument("file", metavar="FILE", help="a file of records")
    parser.add_argument("conditions", metavar="CONDITION", nargs="*",
                        help="NAME=VALUE, NAME=LOW..HIGH, NAME=LOW.. or NAME=..HIGH; all records without any")
    form = parser.add_mutually_exclusive_group()
    form.add_argument("--csv", action="store_true", help="as CSV with a header; the total on standard error")
    form.add_argument("--json", action="store_true", help="as one JSON value with records, total, reads, doubtful")
    parser.add_argument("--limit", type=_number(0), metavar="N", help="print the first N records alone")
    return parser


def _info_parser() -> Parser:
    """The arguments of `mdeh info`."""
    text = "Prints records, pages, depths, the fullest of the deepest leaves, and which keys would be refused with 6."
    parser = _parser("mdeh info", text, _STATUS, info_command.run)
    parser.add_argument("file", metavar="FILE", help="a file of records")
    parser.add_argument("--json", action="store_true", help="as one JSON value")
    return parser


def _check_parser() -> Parser:
    """The arguments of `mdeh check`."""
    text = "Checks a file of records, or a memory image: three files with the words (little-endian) of its state\n" \
           "and its directory, and the bytes of its pages."
    parser = _parser("mdeh check", text, _STATUS, image_commands.run_check)
    parser.usage = "mdeh check FILE | mdeh check STATE DIRECTORY PAGES"
    parser.add_argument("files", metavar="FILE", nargs="+", help="a file of records, or STATE DIRECTORY PAGES")
    return parser


def _save_parser() -> Parser:
    """The arguments of `mdeh save`."""
    text = "Saves a memory image as a file of records. --attribute gives it a description; without, one that stands\n" \
           "beside the output is kept if it fits."
    parser = _parser("mdeh save", text, _STATUS, image_commands.run_save)
    for name in ("state", "directory", "pages"):
        parser.add_argument(name, metavar=name.upper(), help=f"the file of the {name}")
    _add_attributes(parser)
    _add_output(parser)
    return parser


def _load_parser() -> Parser:
    """The arguments of `mdeh load`."""
    parser = _parser("mdeh load", "Loads a file of records into a memory image.", _STATUS, image_commands.run_load)
    parser.add_argument("file", metavar="FILE", help="a file of records")
    parser.add_argument("state", metavar="STATE", help="the file of the state")
    parser.add_argument("directory", metavar="DIRECTORY", help="the file of the directory")
    parser.add_argument("pages_file", metavar="PAGES", help="the file of the pages")
    parser.add_argument("--words", type=_number(0, MOST_WORDS), metavar="N",
                        help="directory words (as many as the store could use)")
    parser.add_argument("--pages", type=_number(0, MOST_PAGES), metavar="N",
                        help="pages (as many as the store could use)")
    return parser


def _add_attributes(parser: Parser) -> None:
    """What names the parts of a record."""
    parser.add_argument("--attribute", action="append", metavar="SPEC", help="NAME:WIDTH[:OPTION[,OPTION...]], 1 to 4")
    parser.add_argument("--spare", type=_number(1, 8), metavar="WIDTH",
                        help="a further attribute with the sum of the others: it evens out leaves")
    parser.add_argument("--payload", metavar="COLUMN",
                        help="the log pointers (the column payload or log, otherwise the line numbers)")


def _add_output(parser: Parser) -> None:
    """Where a file of records goes."""
    parser.add_argument("-o", "--output", required=True, metavar="FILE", help="the file of records to write")


def _number(least: int, most: Optional[int] = None) -> Callable[[str], int]:
    """A reader of whole numbers within bounds."""
    def read(text: str) -> int:
        """The number of a text."""
        value = int(text) if text.isascii() and text.isdigit() and len(text) < 19 else -1
        if value < least or most is not None and value > most:
            bounds = f"from {least} on" if most is None else f"from {least} to {most}"
            raise argparse.ArgumentTypeError(f"{text!r} is no whole number {bounds}")
        return value
    return read


def _delimiter(text: str) -> str:
    """A single character between fields; `tab` for the tabulator."""
    delimiter = {"tab": "\t", "\\t": "\t"}.get(text, text)
    if len(delimiter) != 1 or delimiter in '"\r\n \0':
        raise argparse.ArgumentTypeError(f"{text!r} is no single character between fields")
    return delimiter


_COMMANDS = {"import": _import_parser, "ask": _ask_parser, "info": _info_parser, "check": _check_parser,
             "save": _save_parser, "load": _load_parser}
