"""Event records: 20 bytes each, read and written by document 01's layout."""

import struct

from recount.book import BUY, SELL, Add, Amend, Cancel, Deal, Tick

SIZE = 20
LAYOUT = struct.Struct("<4BIIiI")  # kind, three zero bytes, t, id, price, volume


def read(data):
    """The event of the first 20 bytes, or None where they are no record (cause 15)."""
    if len(data) < SIZE:
        return None
    kind, z1, z2, z3, t, id, price, volume = LAYOUT.unpack_from(data)
    if z1 or z2 or z3:
        return None
    if kind == 1:
        return Add(t, id, BUY, price, volume)
    if kind == 2:
        return Add(t, id, SELL, price, volume)
    if kind == 3:
        return Amend(t, id, price, volume)
    if kind == 4 and price == 0 and volume == 0:
        return Cancel(t, id)
    if kind == 5 and price == 0:
        return Deal(t, id, volume)
    if kind == 6 and id == 0 and price == 0 and volume == 0:
        return Tick(t)
    return None


def fields(event):
    """Kind, t, id, price and volume of an event; what its call does not take is zero."""
    if isinstance(event, Add):
        return (event.side, event.t, event.id, event.price, event.volume)
    if isinstance(event, Amend):
        return (3, event.t, event.id, event.price, event.volume)
    if isinstance(event, Cancel):
        return (4, event.t, event.id, 0, 0)
    if isinstance(event, Deal):
        return (5, event.t, event.id, 0, event.volume)
    return (6, event.t, 0, 0, 0)


def write(event):
    kind, t, id, price, volume = fields(event)
    return LAYOUT.pack(kind, 0, 0, 0, t, id, price, volume)


def split(data):
    """The record bytes one by one; bytes after the last full record are one that is cut short."""
    return (data[i : i + SIZE] for i in range(0, len(data), SIZE))
