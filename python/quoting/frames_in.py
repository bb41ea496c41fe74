"""The events of a DataFrame as records, a column at a time."""

from decimal import Decimal, InvalidOperation
from typing import Any, Union

import numpy as np

from quoting.events import SIDES, dtype
from quoting.values import Time, time_of

Array = Any
KINDS = {"add": 0, "amend": 3, "cancel": 4, "deal": 5, "tick": 6}
NEAR = 1e-9  # of a step's number: two floats so near are the same price


def column(frame: Any, name: str, count: int) -> Array:
    """A column as an array, all empty where the frame has none."""
    try:
        found = frame[name]
    except KeyError:
        return np.full(count, None, dtype=object)
    return np.asarray(found)


def fail(bad: Array, name: str, given: Array, said: str) -> None:
    if bad.any():
        row = int(np.argmax(bad))
        raise ValueError(f"row {row}: {name}: {given[row]!r} {said}")


def is_empty(given: Array) -> Array:
    if given.dtype.kind == "f":
        return np.isnan(given)
    if given.dtype.kind != "O":
        return np.zeros(given.size, dtype=bool)
    return np.array([each is None or each != each or each == "" for each in given.tolist()], dtype=bool)


def words(given: Array, known: dict[str, int], name: str) -> Array:
    """One of some words in each row, as a number; -1 where the cell is empty."""
    kinds, each = np.unique(np.where(is_empty(given), "", given).astype(str), return_inverse=True)
    numbers = np.array([known.get(kind, -1 if kind == "" else -2) for kind in kinds], dtype=np.int64)[each]
    fail(numbers == -2, name, given, f"is none of {', '.join(known)}")
    return numbers


def numbers(given: Array, wanted: Array, name: str, low: int, high: int, step: Union[None, Decimal] = None) -> Array:
    """Whole numbers, or prices in whole steps, where they are wanted; elsewhere the cells must be empty."""
    empty = is_empty(given)
    fail(wanted & empty, name, given, "is missing")
    fail(~wanted & ~empty & (np.where(empty, 0, given) != 0), name, given, "is not taken by this kind of event")
    values = np.where(wanted, given, 0)
    if values.dtype.kind in "iu" and step is None:
        found = values.astype(np.int64)
    else:
        found = steps_of(values, wanted, name, given, step)
    fail((found < low) | (found > high), name, given, f"must be {low} to {high}")
    return found


def steps_of(values: Array, wanted: Array, name: str, given: Array, step: Union[None, Decimal]) -> Array:
    try:
        scaled = values.astype(np.float64) / float(step or 1)
    except (TypeError, ValueError):
        raise ValueError(f"{name}: not all cells are numbers") from None
    whole = np.rint(scaled)
    fail(wanted & ~(np.abs(scaled - whole) <= NEAR * np.maximum(np.abs(scaled), 1)), name, given, f"is not a whole number of steps of {step or 1}")
    fail(np.abs(whole) >= 2**53, name, given, "is too large")
    return whole.astype(np.int64)


def times(frame: Any, count: int, start: Time) -> Array:
    """Milliseconds from the start."""
    given = column(frame, "t", count)
    if not is_empty(given).all():
        return numbers(given, np.ones(count, dtype=bool), "t", 0, 2**32 - 1)
    stamps = np.asarray(frame["timestamp"]).astype("datetime64[ms]") if count else np.zeros(0, dtype="datetime64[ms]")
    days = stamps.astype("datetime64[D]")
    fail(np.isnat(stamps), "timestamp", stamps, "is missing")
    fail(days != days[:1], "timestamp", stamps, "is of another day than the first one")
    found = (stamps - days).astype(np.int64) - time_of(start, "start")
    fail(found < 0, "timestamp", stamps, "is before the start")
    return found


def records_of(frame: Any, start: Time, step: Any) -> Array:
    """The records of a frame."""
    try:
        unit = None if step is None else Decimal(str(step))
    except InvalidOperation:
        raise ValueError(f"step: {step!r} is not a decimal") from None
    given = np.asarray(frame["kind"])
    kind = words(given, KINDS, "kind")
    fail(kind == -1, "kind", given, "is missing")
    is_add, has_price, has_volume = kind == 0, (kind == 0) | (kind == 3), (kind != 4) & (kind != 6)
    sides = column(frame, "side", kind.size)
    side = words(sides, {name: number for name, number in SIDES.items()}, "side")
    fail(is_add & (side < 0), "side", sides, "is missing")
    made = np.zeros(kind.size, dtype=dtype())
    made["kind"] = np.where(is_add, side, kind)
    made["t"] = times(frame, kind.size, start)
    made["id"] = numbers(column(frame, "id", kind.size), kind != 6, "id", 0, 2**32 - 1)
    made["price"] = numbers(column(frame, "price", kind.size), has_price, "price", -(2**31), 2**31 - 1, unit)
    made["volume"] = numbers(column(frame, "volume", kind.size), has_volume, "volume", 0, 2**32 - 1)
    return made
