"""The memory of a store: three slices of Python's own or of any writable buffers."""
from __future__ import annotations

import ctypes
from ctypes import c_uint8, c_uint32
from typing import Any, List, Tuple

from .interface import STATE_WORDS, page_bytes


class Memory:
    """The state, the directory and the pages of a store, as ctypes arrays over the buffers that hold them.

    While it lives, the buffers can be neither resized nor closed.
    """

    def __init__(self, state: Any, directory: Any, pages: Any) -> None:
        """Takes writable, contiguous buffers that do not overlap: bytearrays, arrays, mappings (of a file that is to
        stay as it is, with mmap.ACCESS_COPY), or memoryviews of parts of them. Words begin at multiples of 4 bytes.
        ValueError for others, TypeError for what is no writable buffer."""
        self.state = _words(state)
        self.directory = _words(directory)
        self.pages = _lent(c_uint8, pages)
        _apart([self.state, self.directory, self.pages])

    @property
    def arguments(self) -> Tuple[int, ...]:
        """The slices as a call takes them. They are not kept: those of a copy are its own."""
        return _arguments(self.state) + _arguments(self.directory) + _arguments(self.pages)

    @classmethod
    def owned(cls, words: int, pages: int, capacity: int) -> Memory:
        """Memory of Python's own: so many directory words, and pages of so many records each."""
        return cls(bytearray(4 * STATE_WORDS), bytearray(4 * words), bytearray(pages * page_bytes(capacity)))


def _lent(kind: Any, buffer: Any) -> Any:
    """The array of all whole elements of a buffer."""
    with memoryview(buffer) as view:
        count = view.nbytes // ctypes.sizeof(kind)
    return (kind * count).from_buffer(buffer) if count else (kind * 0)()


def _words(buffer: Any) -> Any:
    """The words of a buffer."""
    words = _lent(c_uint32, buffer)
    if len(words) and ctypes.addressof(words) % 4:
        raise ValueError("words begin at an address that is no multiple of 4")
    return words


def _arguments(slice_: Any) -> Tuple[int, int]:
    """A slice as a call takes it."""
    return ctypes.addressof(slice_), len(slice_)


def _apart(slices: List[Any]) -> None:
    """Raises ValueError where two slices share a byte."""
    places = sorted((ctypes.addressof(s), ctypes.sizeof(s)) for s in slices if len(s))
    for (place, size), (following, _) in zip(places, places[1:]):
        if place + size > following:
            raise ValueError("state, directory and pages overlap")
