"""The memory image of a store: three files with its state, directory and pages, as mdeh.h keeps them (KEEPING)."""
from __future__ import annotations

from typing import Sequence

from . import files
from .interface import MOST_WORDS, STATE_WORDS
from .memory import Memory
from .store import Store
from .unusable import Unusable

_WORD_BYTES = 4


def read(state: str, directory: str, pages: str) -> Store:
    """The store in three files. Directory words from 2^T on need not be kept: those past the file's end are 0. A state
    of one word less is that of an earlier version, without signed attributes. Unusable where words are not whole."""
    return Store.open(_words(state, STATE_WORDS, STATE_WORDS - 1), _words(directory, MOST_WORDS, 0),
                      bytearray(files.read(pages)))


def write(store: Store, paths: Sequence[str]) -> None:
    """Writes the state, the directory and the pages of a store into three files."""
    memory: Memory = store.memory
    files.write(list(zip(paths, map(bytes, (memory.state, memory.directory, memory.pages)))))


def _words(path: str, wanted: int, least: int) -> bytearray:
    """The words of a file, with words of 0 behind them up to the wanted count where there are `least` at least."""
    data = bytearray(files.read(path))
    if len(data) % _WORD_BYTES:
        raise Unusable(f"{path}: {len(data)} bytes are no whole number of 32-bit words")
    if len(data) >= _WORD_BYTES * least:
        data.extend(bytes(max(0, _WORD_BYTES * wanted - len(data))))
    return data
