"""`mdeh info`: how full a file's store is, how deep it is divided, and where a refusal with 6 is near."""
from __future__ import annotations

import argparse
import json
from typing import Any, Dict, List, Sequence

from .ask_command import warn
from .attributes import Attribute
from .keys import Keys
from .layout import Region, layout_of, overflows, regions_of, values_in
from .shape import Shape
from .table import Table

# how many leaves and regions are listed
_LISTED = 5


def run(args: argparse.Namespace) -> int:
    """Prints what there is to tell. 0 always."""
    table = Table.load(args.file)
    warn(args.file, table)
    facts = gather(table)
    print(json.dumps(facts, ensure_ascii=False, indent=2) if args.json else "\n".join(_lines(table, facts)))
    return 0


def gather(table: Table) -> Dict[str, Any]:
    """The facts about a table's store, for a reader or a program."""
    keys, capacity = table.description.keys, table.store.shape.capacity
    layout = layout_of(table.store)
    deepest = max(layout.filled, default=0)
    fullest = sorted(layout.filled.get(deepest, []), key=lambda leaf: (-leaf.records, leaf.intervals))
    near = [region for region in regions_of(table.store, layout.depth_limit) if overflows(keys, region, capacity)]
    return {
        "records": layout.records,
        "pages": layout.pages,
        "capacity": capacity,
        "fill": round(100 * layout.records / (layout.pages * capacity)) if layout.pages else 0,
        "T": layout.directory_depth,
        "L": layout.depth_limit,
        "leaves": {str(depth): count for depth, count in layout.leaves.items()},
        "leaves_without_records": sum(layout.leaves.values()) - layout.pages,
        "deepest": deepest,
        "fullest": [_fact(keys, leaf, capacity) for leaf in fullest[:_LISTED]],
        "never": _never(table.store.shape, layout.depth_limit),
        "full": sum(region.records == capacity for region in near),
        "near": [_fact(keys, region, capacity) for region in near[:_LISTED]],
    }


def _never(shape: Shape, depth_limit: int) -> bool:
    """Whether no region of so many split bits has more keys than a page takes."""
    return 1 << sum(shape.widths) - depth_limit <= shape.capacity


def _fact(keys: Keys, region: Region, capacity: int) -> Dict[str, Any]:
    """A region by the names and host values of its attributes."""
    values = {attribute.name: value_text(found) for attribute, found in zip(keys.attributes, values_in(keys, region))}
    if keys.spare:
        low, high = region.intervals[-1]
        values["(spare)"] = value_text(list(range(low, high + 1)))
    return {"records": region.records, "more": capacity - region.records, "values": values}


def value_text(values: Sequence[int]) -> str:
    """Values in words: an interval, or a list of those that lie apart."""
    if len(values) == 1:
        return str(values[0])
    if values[-1] - values[0] == len(values) - 1:
        return f"{values[0]}..{values[-1]}"
    if len(values) <= 6:
        return "/".join(map(str, values))
    return f"{values[0]}/{values[1]}/../{values[-1]} ({len(values)} values)"


def _lines(table: Table, facts: Dict[str, Any]) -> List[str]:
    """The facts as lines of text."""
    leaves = ", ".join(f"{count} of depth {depth}" for depth, count in facts["leaves"].items())
    lines = [
        f"attributes  {', '.join(map(_attribute_text, table.attributes))}" + _spare_text(table.description.keys),
        f"payload     {table.description.payload}",
        f"records     {facts['records']}",
        f"pages       {facts['pages']} of up to {facts['capacity']} records, {facts['fill']} % full",
        f"depth       T = {facts['T']} of L = {facts['L']}",
        f"leaves      {leaves}; {facts['leaves_without_records']} without records",
    ]
    if facts["fullest"]:
        lines.append(f"fullest leaves of depth {facts['deepest']}:")
        lines += [f"  {leaf['records']:2} of {facts['capacity']} records: {_region_text(leaf)}"
                  for leaf in facts["fullest"]]
    return lines + _near_lines(facts)


def _near_lines(facts: Dict[str, Any]) -> List[str]:
    """What would be refused with 6 next."""
    if facts["never"]:
        return ["6 never comes: a region of L split bits has no more keys than a page takes"]
    if not facts["near"]:
        return ["6 is not near: no region of L split bits has both records and more keys than a page takes"]
    lines = [f"refused with 6 next ({facts['full']} of the regions of L split bits are full):"]
    for region in facts["near"]:
        if region["more"]:
            lines.append(f"  {region['more']} more fit: {_region_text(region)}")
        else:
            lines.append(f"  full: the next key with {_region_text(region)} is refused with 6")
    return lines


def _region_text(region: Dict[str, Any]) -> str:
    """A region's values by name."""
    return ", ".join(f"{name} {text}" for name, text in region["values"].items())


def _attribute_text(attribute: Attribute) -> str:
    """An attribute with its bounds and how its values are kept."""
    marks = [("spread", attribute.high is not None), ("signed", attribute.signed), ("reversed", attribute.reversed)]
    kept = ", ".join([_bits(attribute.width)] + [name for name, marked in marks if marked])
    return f"{attribute.name} {attribute.least}..{attribute.greatest} ({kept})"


def _spare_text(keys: Keys) -> str:
    """The spare attribute, if there is one."""
    return f", spare ({_bits(keys.spare)})" if keys.spare else ""


def _bits(width: int) -> str:
    """A width in words."""
    return f"{width} bit{'s' * (width != 1)}"
