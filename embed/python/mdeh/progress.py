"""How far a command is, on a terminal alone."""
from __future__ import annotations

import sys


class Progress:
    """A line on standard error that is written over; nothing where that is no terminal."""

    def __init__(self) -> None:
        """Looks once whether there is a terminal."""
        self._shown = sys.stderr.isatty()

    def tell(self, text: str) -> None:
        """Shows a text in the place of the last."""
        if self._shown:
            sys.stderr.write(f"\r\x1b[K{text}")
            sys.stderr.flush()

    def clear(self) -> None:
        """Takes the line away."""
        self.tell("")
