"""Texts, such as ids and symbols, as keys of some numbers of 64 bits: the text itself where it fits, else a mix of its bytes.

No text has a byte 0, so texts that fit differ where their keys differ. A longer text is known by its mix alone.
"""

from typing import Any

import numpy as np

from quoting.exchange.columns import LONG, U, windows

Array = Any
FRONT = np.array([(1 << 8 * n) - 1 for n in range(9)], dtype=U)  # the first n bytes of eight
ODD = [U(0x9E3779B97F4A7C15), U(0xC2B2AE3D27D4EB4F), U(0xD6E8FEB86659FD93)]
MOST_ROUNDS = 4
WORDS = 3  # of a key: texts of up to 24 bytes are kept whole
MASKS = [FRONT[np.clip(np.arange(LONG + 1) - 8 * word, 0, 8)] for word in range(WORDS)]  # those of a word, by the text's length
SLOT_BITS = 16


def keys(seen: Array, begin: Array, count: Array, width: int = WORDS) -> Array:
    """The keys of texts, a row of words each; all 0 where the count is 0."""
    found = np.zeros((width, count.size), dtype=U)
    most = int(count.max()) if count.size else 0
    for word in range(min(width, (most + 7) // 8)):
        masks = MASKS[word][count] if most <= LONG else FRONT[np.minimum(np.maximum(count - 8 * word, 0), 8)]
        np.bitwise_and(seen[begin + 8 * word], masks, out=found[word])
    for at in range(8 * width, most, 8):
        long = np.flatnonzero(count > at)
        word = seen[begin[long] + at] & FRONT[np.minimum(count[long] - at, 8)]
        for part in range(width):
            found[part, long] = mixed((found[part, long] ^ word) * ODD[part] + U(at))
    return found


def mixed(x: Array) -> Array:
    return x ^ (x >> U(31))


def keys_of(texts: list[bytes], width: int = WORDS) -> Array:
    """The keys of some texts."""
    data = np.frombuffer(b"".join(texts) + b"\0" * 64, dtype=np.uint8)
    count = np.array([len(text) for text in texts], dtype=np.int64)
    return keys(windows(data), np.cumsum(count) - count, count, width)


def hashes(found: Array) -> Array:
    """One number for each key, evenly spread; two keys may have the same one."""
    hashed = found[0] * ODD[0]
    for part in range(1, len(found)):
        hashed = mixed(hashed ^ (found[part] * ODD[part % 3]))
    return hashed


def first_of(found: Any) -> Array:
    """For each key, whose words are in some arrays, the place where it occurs first."""
    used = [part for part in found if part.any()] or [found[0]]
    return first_by_table(used, hashes(used), MOST_ROUNDS)


def first_by_table(found: list[Array], hashed: Array, rounds: int) -> Array:
    """The same by a table with a slot for each hash, in which the first key of the slot is written last. Other keys of that slot go to
    another table, and after some rounds to a dictionary, since their hashes may be the same."""
    size, bits = hashed.size, max((4 * hashed.size).bit_length(), 1)
    slot = (hashed >> U(64 - bits)).astype(np.intp)
    table, turn = np.empty(1 << bits, dtype=np.int32), np.arange(size, dtype=np.int32)
    table[slot[::-1]] = turn[::-1]
    first = table[slot].astype(np.intp)
    again = np.flatnonzero(first != turn)
    differs = np.zeros(again.size, dtype=bool)
    for part in found:
        differs |= part[again] != part[first[again]]
    other = again[differs]
    if other.size:
        rest = [part[other] for part in found]
        first[other] = other[first_by_table(rest, mixed(hashed[other]) * ODD[2], rounds - 1) if rounds else slow_first_of(rest)]
    return first


def slow_first_of(found: Array) -> Array:
    places: dict[tuple[int, ...], int] = {}
    return np.array([places.setdefault(key, at) for at, key in enumerate(zip(*(part.tolist() for part in found)))], dtype=np.int64)


class Names:
    """Small numbers for texts of which there are few, in the order in which they come."""

    def __init__(self) -> None:
        self.names: list[bytes] = []
        self.known = np.zeros((WORDS, 0), dtype=U)
        self.order, self.sorted = np.zeros(0, dtype=np.int64), np.zeros(0, dtype=U)
        self.table, self.is_plain = np.zeros(1 << SLOT_BITS, dtype=np.int64), True  # by hash, while no two names share a slot

    def numbers(self, data: Array, seen: Array, begin: Array, count: Array) -> Array:
        found = keys(seen, begin, count)
        number, is_known = self.look(found)
        if not is_known.all():
            new = np.flatnonzero(~is_known)
            self.learn(data, begin, count, found, new[np.flatnonzero(first_of(found[:, new]) == np.arange(new.size))])
            number, _ = self.look(found)
        return number

    def learn(self, data: Array, begin: Array, count: Array, found: Array, places: Array) -> None:
        self.names += [data[begin[at] : begin[at] + count[at]].tobytes() for at in places.tolist()]
        self.known = np.concatenate([self.known, found[:, places]], axis=1)
        hashed = hashes(self.known)
        self.order = np.argsort(hashed)
        self.sorted = hashed[self.order]
        if (self.sorted[1:] == self.sorted[:-1]).any():
            raise ValueError("two names of the log have one hash")
        slots = slots_of(hashed)
        self.table[slots] = np.arange(slots.size)
        self.is_plain = np.unique(slots).size == slots.size

    def look(self, found: Array) -> tuple[Array, Array]:
        """The number of each text, and whether it is known already."""
        if not self.names:
            return np.zeros(found.shape[1], dtype=np.int64), np.zeros(found.shape[1], dtype=bool)
        hashed = hashes(found)
        if self.is_plain:
            number = self.table[slots_of(hashed)]
        else:
            number = self.order[np.minimum(np.searchsorted(self.sorted, hashed), self.sorted.size - 1)]
        is_known = self.known[0][number] == found[0]
        for word in range(1, WORDS):
            is_known &= self.known[word][number] == found[word]
        return number, is_known


def slots_of(hashed: Array) -> Array:
    return (hashed >> U(64 - SLOT_BITS)).astype(np.intp)
