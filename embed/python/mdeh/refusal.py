"""Why a call of the store is refused: the numbers of mdeh.h, and what they say in words."""
from __future__ import annotations

ACCEPTED = 0
SHAPE = 1
MEMORY = 2
VALUE = 3
STORED = 4
ABSENT = 5
DEPTH = 6
PAGES = 7
ATTRIBUTE = 8
UNSOUND = 9
INTERVAL = 10
PAYLOAD = 11
FILE = 12
CONTENT = 13
WIDTH = 14
CAPACITY = 15

_REASONS = {
    ACCEPTED: "accepted",
    SHAPE: "the attribute count is outside 1 to 4, or the words of a state are too few",
    MEMORY: "too few words or bytes are lent",
    VALUE: "a value, index or address is outside its bounds, or an unused value is not 0",
    STORED: "the key is stored already",
    ABSENT: "the key is not stored",
    DEPTH: "the directory cannot grow deep enough to tell the keys apart",
    PAGES: "there are too few pages",
    ATTRIBUTE: "the query or range gives an attribute that the shape does not have",
    UNSOUND: "the store is not sound",
    INTERVAL: "an interval's low end is above its high end",
    PAYLOAD: "the payload is 0",
    FILE: "the bytes are no whole file",
    CONTENT: "the file has a stray byte, a value out of bounds or records out of order",
    WIDTH: "the width of an attribute is outside 1 to 16",
    CAPACITY: "the page capacity is outside 1 to 16",
}


def reason_of(number: int, attribute: int = 0) -> str:
    """What a number says in words, as mdeh_reason_of has it: the text of 14 names the attribute beside it."""
    if number == WIDTH and 0 <= attribute < 4:
        return f"the width of attribute {attribute} is outside 1 to 16"
    return _REASONS.get(number, "no number of this library")


class Refusal(Exception):
    """A refused call, which has changed nothing. Its text is the reason in words.

    `attribute` counts with number 14: the attribute whose width is out of bounds. `depth` counts with number 5: that of
    the leaf in which the absent key falls.
    """

    def __init__(self, number: int, attribute: int = 0, depth: int = 0) -> None:
        """A refusal by its number and what stands beside it."""
        super().__init__(number, attribute, depth)
        self.number = number
        self.attribute = attribute
        self.depth = depth

    @property
    def reason(self) -> str:
        """What the number says in words."""
        return reason_of(self.number, self.attribute)

    def __str__(self) -> str:
        """The reason."""
        return self.reason
