"""The shared library: its structures and calls as embed/mdeh.h declares them, and where it is found."""
from __future__ import annotations

import ctypes
import ctypes.util
import functools
import os
from ctypes import Structure, c_int32, c_size_t, c_uint32, c_uint64, c_void_p
from pathlib import Path
from typing import Iterator

VERSION = "0.2.0"

STATE_WORDS = 23
RECORD_BYTES = 12
MOST_WORDS = 4096
MOST_PAGES = 4096
MOST_RECORDS = 65536


def page_bytes(capacity: int) -> int:
    """The bytes of a page that holds up to `capacity` records."""
    return 2 + RECORD_BYTES * capacity


def file_bytes(records: int) -> int:
    """The bytes of a file of so many records."""
    return 24 + RECORD_BYTES * records


class MdehShape(Structure):
    """What records look like."""

    _fields_ = [("attributes", c_uint32), ("widths", c_uint32 * 4), ("capacity", c_uint32), ("signs", c_uint32)]


class MdehKey(Structure):
    """A value for each attribute, 0 for an unused one."""

    _fields_ = [("values", c_int32 * 4)]


class MdehQuery(Structure):
    """The values of the attributes that are given."""

    _fields_ = [("given", c_uint32 * 4), ("values", c_int32 * 4)]


class MdehRange(Structure):
    """The intervals of the attributes that are given, both ends included."""

    _fields_ = [("given", c_uint32 * 4), ("low", c_int32 * 4), ("high", c_int32 * 4)]


class MdehMakeResult(Structure):
    """Of mdeh_fresh and mdeh_load."""

    _fields_ = [("number", c_uint32), ("attribute", c_uint32)]


class MdehChangeResult(Structure):
    """Of mdeh_insert and mdeh_delete."""

    _fields_ = [("number", c_uint32), ("attribute", c_uint32), ("depth", c_uint32)]


class MdehLookupResult(Structure):
    """Of mdeh_lookup."""

    _fields_ = [("number", c_uint32), ("attribute", c_uint32), ("payload", c_uint32), ("reads", c_uint32),
                ("depth", c_uint32)]


class MdehQueryResult(Structure):
    """Of mdeh_query and mdeh_range."""

    _fields_ = [("number", c_uint32), ("attribute", c_uint32), ("written", c_uint64), ("total", c_uint64),
                ("reads", c_uint64)]


class MdehCheckResult(Structure):
    """Of mdeh_check."""

    _fields_ = [("number", c_uint32), ("attribute", c_uint32), ("sound", c_uint32)]


class MdehSaveResult(Structure):
    """Of mdeh_save."""

    _fields_ = [("number", c_uint32), ("attribute", c_uint32), ("size", c_uint64)]


# state, directory and pages, each as an address and how many elements it has
_SLICES = [c_void_p, c_size_t] * 3
_BYTES = [c_void_p, c_size_t]

# what each call returns and takes
CALLS = {
    "mdeh_fresh": (MdehMakeResult, [MdehShape] + _SLICES),
    "mdeh_insert": (MdehChangeResult, _SLICES + [MdehKey, c_uint32]),
    "mdeh_delete": (MdehChangeResult, _SLICES + [MdehKey]),
    "mdeh_lookup": (MdehLookupResult, _SLICES + [MdehKey]),
    "mdeh_query": (MdehQueryResult, _SLICES + [MdehQuery] + _BYTES),
    "mdeh_range": (MdehQueryResult, _SLICES + [MdehRange] + _BYTES),
    "mdeh_check": (MdehCheckResult, _SLICES),
    "mdeh_save": (MdehSaveResult, _SLICES + _BYTES),
    "mdeh_load": (MdehMakeResult, _BYTES + _SLICES),
}


class LibraryMissing(Exception):
    """There is no shared library, or the file is none. The text says where it was looked for."""


def places() -> Iterator[str]:
    """Where the library may be, in the order in which it is looked for: the file that MDEH_LIBRARY names, and no other
    where it is set; beside these files; in the repository; among the system's libraries."""
    named = os.environ.get("MDEH_LIBRARY")
    if named:
        yield named
        return
    package = Path(__file__).resolve().parent
    beside = [package / "libmdeh.so"]
    if len(package.parents) > 2:
        beside.append(package.parents[2] / "target" / "lib" / "libmdeh.so")
    yield from (str(path) for path in beside if path.exists())
    found = ctypes.util.find_library("mdeh")
    if found:
        yield found


@functools.lru_cache(maxsize=None)
def library() -> ctypes.PyDLL:
    """The library, loaded once. A call holds the interpreter's lock: no two threads are in a call at once."""
    place = next(places(), None)
    if place is None:
        raise LibraryMissing("there is no libmdeh.so: make builds it, and MDEH_LIBRARY may name it")
    try:
        loaded = ctypes.PyDLL(place)
        for name, (result, arguments) in CALLS.items():
            call = getattr(loaded, name)
            call.restype = result
            call.argtypes = arguments
    except (OSError, AttributeError) as error:
        raise LibraryMissing(f"{place} is no libmdeh.so: {error}") from error
    return loaded
