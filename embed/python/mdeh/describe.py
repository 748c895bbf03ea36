"""The description of a file of records: a small JSON file beside it, with names, biases and what the file lacks."""
from __future__ import annotations

import hashlib
import json
import os
from dataclasses import dataclass, field, replace
from typing import Any, Dict, Optional

from . import files
from .attributes import Attribute
from .keys import Keys
from .unusable import Unusable, shown

_FORMAT = 1
_OPTIONAL = {"from": "low", "to": "high"}


@dataclass(frozen=True)
class Description:
    """What the records of a file mean: the attributes, the payload's name, and how many rows an import could not put
    into it, by the number of the refusal, "0" for rows that could not be read. `sum` is that of the file's bytes and
    of the other parts: see `sealed`."""

    keys: Keys
    payload: str
    missing: Dict[str, int] = field(default_factory=dict)
    sum: str = ""

    def __post_init__(self) -> None:
        """Tests the payload's name."""
        if not self.payload or not self.payload.isprintable():
            raise Unusable(f"{shown(self.payload)} is no printable name of a payload")
        if self.payload in [attribute.name for attribute in self.keys.attributes]:
            raise Unusable(f"{shown(self.payload)} is the name of an attribute and of the payload")

    def to_json(self) -> str:
        """The text of the file beside."""
        attributes = [{"name": a.name, "width": a.width, "from": a.low, "to": a.high, "signed": a.signed,
                       "reversed": a.reversed} for a in self.keys.attributes]
        whole = {"mdeh": _FORMAT, "attributes": attributes, "spare": self.keys.spare, "payload": self.payload,
                 "missing": self.missing, "sha256": self.sum}
        return json.dumps(whole, indent=2, ensure_ascii=False) + "\n"

    def sealed(self, data: bytes) -> Description:
        """The description with the sum by which it knows a file's bytes, and a change of its own."""
        bare = replace(self, sum="")
        return replace(self, sum=hashlib.sha256(data + bare.to_json().encode("utf-8")).hexdigest())

    def describes(self, data: bytes) -> bool:
        """Whether these are the bytes of the file that the description was written with, and it is as it was."""
        return self == self.sealed(data)


def path_of(path: str) -> str:
    """Where the description of a file is."""
    return path + ".json"


def read(path: str) -> Optional[Description]:
    """The description of a file; None where there is none. Unusable where it is damaged."""
    beside = path_of(path)
    if not os.path.lexists(beside):
        return None
    data = files.read(beside)
    try:
        return _description(json.loads(data.decode("utf-8")))
    except (ValueError, KeyError, TypeError, AttributeError, RecursionError, Unusable) as error:
        raise Unusable(f"{beside}: it is no description of a file of records ({error})") from error


def write(path: str, data: bytes, description: Description) -> None:
    """Writes a file and its description, sealed. The former description goes first: a crash between leaves a file
    without one, never a file with another's."""
    beside = path_of(path)
    files.write([(path, data), (beside, description.sealed(data).to_json().encode("utf-8"))], stale=[beside])


def _description(whole: Any) -> Description:
    """The description in the parts of a JSON text. ValueError, KeyError or TypeError for other parts."""
    if whole["mdeh"] != _FORMAT:
        raise ValueError(f"format {whole['mdeh']}")
    attributes = tuple(_attribute(part) for part in whole["attributes"])
    missing = {str(_whole(int(number))): _whole(count) for number, count in whole["missing"].items()}
    keys = Keys(attributes, _whole(whole["spare"]))
    return Description(keys, _text(whole["payload"]), missing, _text(whole["sha256"]))


def _attribute(part: Any) -> Attribute:
    """The attribute in a part of a JSON text."""
    ends = {name: None if part[key] is None else _whole(part[key]) for key, name in _OPTIONAL.items()}
    marks = {key: part[key] for key in ("signed", "reversed")}
    if not all(isinstance(mark, bool) for mark in marks.values()):
        raise TypeError("a mark is neither true nor false")
    return Attribute(_text(part["name"]), _whole(part["width"]), **ends, **marks)


def _whole(value: Any) -> int:
    """A whole number. TypeError for other values."""
    if isinstance(value, bool) or not isinstance(value, int):
        raise TypeError(f"{value!r} is no whole number")
    return value


def _text(value: Any) -> str:
    """A text. TypeError for other values."""
    if not isinstance(value, str):
        raise TypeError(f"{value!r} is no text")
    return value
