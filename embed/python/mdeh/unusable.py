"""Input that a command or a table cannot use."""
from __future__ import annotations

from .refusal import Refusal, reason_of


class Unusable(Exception):
    """Input that cannot be used. The text says why, in one line."""


def refused(what: str, refusal: Refusal) -> Unusable:
    """A refusal of what is named, by its number and in words."""
    return Unusable(f"{what}: {told(refusal.number, refusal.attribute)}")


def told(number: int, attribute: int = 0) -> str:
    """A number with its reason in words."""
    return f"{number} ({reason_of(number, attribute)})"


def shown(text: str) -> str:
    """A text from a file as it is told on a terminal: in quotes, cut at 40 characters, without control characters."""
    cut = text if len(text) <= 40 else text[:37] + "..."
    return '"' + "".join(c if c.isprintable() else f"\\x{ord(c):02x}" for c in cut) + '"'
