"""`mdeh check`, `mdeh save` and `mdeh load`: files of records and memory images."""
from __future__ import annotations

import argparse
from typing import Optional

from . import describe, files, image
from . import refusal as numbers
from .ask_command import warn
from .attributes import Attribute
from .describe import Description
from .keys import Keys
from .refusal import Refusal
from .store import Store
from .table import Table, expect_fit
from .unusable import Unusable, refused, told


def run_check(args: argparse.Namespace) -> int:
    """Checks a file, or the three files of a memory image. 0 for a sound store."""
    if len(args.files) == 1:
        table = Table.load(args.files[0])
        if not table.unchanged:
            raise Unusable(f"{args.files[0]} or {describe.path_of(args.files[0])} was changed since they were written")
        if table.described:
            warn(args.files[0], table)
        count = table.store.count()
    elif len(args.files) == 3:
        count = sound_image(*args.files).count()
    else:
        raise Unusable("check takes a file of records, or the state, the directory and the pages of a memory image")
    print(f"sound: {count} record{'s' * (count != 1)}")
    return 0


def run_save(args: argparse.Namespace) -> int:
    """Saves a memory image as a file of records."""
    files.apart([args.output, describe.path_of(args.output)], [args.state, args.directory, args.pages])
    store = sound_image(args.state, args.directory, args.pages)
    data = store.save()
    description = _description(args, data)
    if description is None:
        files.write([(args.output, data)])
    else:
        describe.write(args.output, data, description)
    count = store.count()
    print(f"saved: {count} record{'s' * (count != 1)}")
    return 0


def run_load(args: argparse.Namespace) -> int:
    """Loads a file of records into a memory image."""
    paths = [args.state, args.directory, args.pages_file]
    files.apart(paths, [args.file])
    try:
        store = Store.load(files.read(args.file), args.words, args.pages)
        image.write(store, paths)
        count = store.count()
    except Refusal as refusal:
        raise refused(args.file, refusal) from refusal
    print(f"loaded: {count} record{'s' * (count != 1)}")
    return 0


def sound_image(state: str, directory: str, pages: str) -> Store:
    """The store of a memory image. Unusable where it is refused or not sound."""
    try:
        store = image.read(state, directory, pages)
        sound = store.check()
    except Refusal as refusal:
        raise refused(f"{state}, {directory}, {pages}", refusal) from refusal
    if not sound:
        raise Unusable(f"{state}, {directory}, {pages}: {told(numbers.UNSOUND)}")
    return store


def _description(args: argparse.Namespace, data: bytes) -> Optional[Description]:
    """The description of a saved file: that of the flags, or the one that stands beside the output already; None where
    there is neither. Unusable where it does not fit the store, or was changed since it was written."""
    if args.attribute:
        keys = Keys(tuple(map(Attribute.parse, args.attribute)), args.spare or 0)
        description: Optional[Description] = Description(keys, args.payload or "payload")
        where = "--attribute"
    else:
        description, where = describe.read(args.output), describe.path_of(args.output)
        if description is not None and not description.describes(files.read(args.output)):
            raise Unusable(f"{where}: it or {args.output} was changed since they were written; --attribute gives names")
    if description is not None:
        expect_fit(description, data, where)
    return description
