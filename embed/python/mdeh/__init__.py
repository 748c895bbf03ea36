"""A multidimensional extendible hash store whose calls are proved by machine, for Python hosts.

    from mdeh import Shape, Store

    store = Store.fresh(Shape([7, 5, 7], 16))   # three attributes of 7, 5 and 7 bits; 16 records a page
    store.insert((30, 2, 14), 7)                # a key and its payload
    for key, payload in store.query({0: 30}).records:
        print(key, payload)

What each call, number and layout is stands in embed/mdeh.h. A file that the command `mdeh` made is asked by names:

    from mdeh import Table

    for row in Table.load("gw.mdeh").ask({"code": 30, "release": (400, None)}).rows:
        print(row)                              # the values in the order of the attributes, then the payload
"""
from .attributes import Attribute
from .keys import Keys
from .interface import VERSION as __version__
from .interface import LibraryMissing
from .memory import Memory
from .refusal import Refusal, reason_of
from .shape import Shape
from .store import Found, Listing, Record, Store
from .table import Answer, Table
from .unusable import Unusable

__all__ = ["Answer", "Attribute", "Found", "Keys", "LibraryMissing", "Listing", "Memory", "Record", "Refusal", "Shape",
           "Store", "Table", "Unusable", "reason_of", "__version__"]
