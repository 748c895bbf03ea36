"""Files on disk: whole reads, and writes that leave the former file or the whole of the latter."""
from __future__ import annotations

import contextlib
import os
from typing import Iterator, List, Sequence, Tuple

from .unusable import Unusable


def read(path: str) -> bytes:
    """The bytes of a file. Unusable where it cannot be read."""
    with _telling(path), open(path, "rb") as file:
        return file.read()


def write(parts: Sequence[Tuple[str, bytes]], stale: Sequence[str] = ()) -> None:
    """Writes files beside, and gives them their names in turn once the bytes of all are on the disk: a crash leaves
    of each the former file or the whole of this one. The stale files go before the first gets its name. Unusable where
    a file cannot be written, or where the name is that of no ordinary file."""
    drafts: List[Tuple[str, str]] = []
    try:
        for path, data in parts:
            with _telling(path):
                drafts.append((path, _target(path)))
                _write_through(_beside(path), data)
        for path in stale:
            with _telling(path):
                _remove(path)
        for path, target in drafts:
            with _telling(path):
                os.replace(_beside(path), target)
                _settle(os.path.dirname(target))
    except BaseException:
        for path, _ in drafts:
            _remove(_beside(path))
        raise


def apart(outputs: Sequence[str], inputs: Sequence[str] = ()) -> None:
    """Unusable where an output is an input or comes twice."""
    taken = {os.path.realpath(path) for path in inputs}
    for path in outputs:
        real = os.path.realpath(path)
        if real in taken:
            raise Unusable(f"{path}: it is named twice, and would be overwritten")
        taken.add(real)


@contextlib.contextmanager
def _telling(path: str) -> Iterator[None]:
    """Tells what the system says against a path."""
    try:
        yield
    except (OSError, ValueError) as error:
        raise Unusable(f"{path}: {getattr(error, 'strerror', None) or error}") from error


def _target(path: str) -> str:
    """The file that a path names, which is no folder, device or pipe."""
    target = os.path.realpath(path)
    if os.path.exists(target) and not os.path.isfile(target):
        raise Unusable(f"{path}: it is no ordinary file")
    return target


def _beside(path: str) -> str:
    """Where the bytes of a file stand until it gets its name."""
    return f"{os.path.realpath(path)}.{os.getpid()}.part"


def _remove(path: str) -> None:
    """Removes a file if it is there."""
    with contextlib.suppress(FileNotFoundError):
        os.unlink(path)


def _write_through(path: str, data: bytes) -> None:
    """Writes bytes and waits until the disk has them."""
    with open(path, "wb") as file:
        file.write(data)
        file.flush()
        os.fsync(file.fileno())


def _settle(folder: str) -> None:
    """Waits until the disk has the names in a folder, where the system can."""
    with contextlib.suppress(OSError):
        opened = os.open(folder, os.O_RDONLY)
        try:
            os.fsync(opened)
        finally:
            os.close(opened)
