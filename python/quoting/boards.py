"""A board of strikes: its text, and a table of the time that each strike and all together kept, must keep and still lack."""

from dataclasses import dataclass, replace
from typing import Iterator, Optional

from quoting import native, reading
from quoting.calculations import board
from quoting.reading import TextError
from quoting.values import brief

MOST_STRIKES = 32
LENGTHS = range(1_000, 86_400_001, 1_000)  # of a row
SHARES = range(1, 101)


@dataclass(frozen=True)
class Strike:
    """A strike's closed quantum, and the number of its line."""

    name: str
    kept: int
    length: int
    line: int


# ---------------------------------------------------------------- text


def is_other_answer(words: list[str]) -> bool:
    """Whether a line is an answer of the month that is no cell; a strike may have any name."""
    return words == ["accepted"] or (words[0] == "refused" and len(words) == 2) or words[:2] in (["report", "open"], ["asked", "bid"])


def read_strike(words: list[str], line: int) -> Strike:
    """The strike of one line; its name is empty where the line has none."""
    if words[:2] == ["cell", "kept"]:
        if len(words) < 5 or words[3] != "of":
            raise TextError("an answer of the month begins with: cell kept K of L")
        words = ["", words[2], words[4]]
    if len(words) == 2:
        words = ["", *words]
    if len(words) != 3:
        raise TextError("a strike is written: NAME K L, or cell kept K of L ..")
    return Strike(words[0], reading.time(words[1], "K"), reading.time(words[2], "L"), line)


def read(text: str, file: str) -> list[Strike]:
    """The strikes of a text; one without a name gets the file's, and its place where there are more."""
    found: list[Strike] = []
    others = 0
    for at, first, rest in reading.lines(text):
        try:
            if is_other_answer([first, *rest]):
                others += 1
            else:
                found.append(read_strike([first, *rest], at))
        except TextError as error:
            error.line = at
            raise
    if others and len(found) != 1:
        raise TextError(f"a strike's month has one look, but here are {len(found)} cells")
    names = [file if len(found) == 1 else f"{file}:{at}" for at in range(1, len(found) + 1)]
    return [replace(strike, name=strike.name or name) for strike, name in zip(found, names)]


def check_names(strikes: list[Strike]) -> None:
    """Each strike of a board has its own name."""
    seen: set[str] = set()
    for strike in strikes:
        if strike.name in seen:
            error = TextError(f"the strike {brief(strike.name)} is given twice")
            error.line = strike.line
            raise error
        seen.add(strike.name)


# ---------------------------------------------------------------- verdict


def causes(first: int, second: int, strikes: list[Strike]) -> Iterator[str]:
    """The possible causes of refusal 18, each in a few words."""
    yield from (f"a share of {share} is not 1 to 100" for share in (first, second) if share not in SHARES)
    if not strikes:
        yield "no strike"
    if len(strikes) > MOST_STRIKES:
        yield f"{len(strikes)} strikes, of {MOST_STRIKES} at most"
    for strike in strikes:
        if strike.length not in LENGTHS:
            yield f"{strike.name}: a length of {strike.length} is no row's"
        elif strike.length != strikes[0].length:
            yield f"{strike.name}: a length of {strike.length}, but {strikes[0].name} has {strikes[0].length}"
        if strike.kept > strike.length:
            yield f"{strike.name}: {strike.kept} kept of {strike.length}"


def verdict(first: int, second: int, strikes: list[Strike]) -> bool:
    """Whether the board is met, by the library; a refusal says its causes."""
    check_names(strikes)
    try:
        return board([(strike.kept, strike.length) for strike in strikes], first, second)
    except native.Refused as refused:
        why = "; ".join(causes(first, second, strikes))
        raise native.Refused(refused.number, refused.place, why or refused.sentence) from None


@dataclass(frozen=True)
class Line:
    """A line of the table: a strike, or all together."""

    strike: str
    kept: int
    of: int
    share: str
    due: int
    lacks: Optional[int]


def lacking(share: int, length: int, kept: int) -> int:
    """Milliseconds that are missing to that share of a length."""
    return max(0, -(-share * length // 100) - kept)


def lines(first: int, second: int, strikes: list[Strike]) -> list[Line]:
    rows = [(strike.name, strike.kept, strike.length, first) for strike in strikes]
    rows.append(("together", sum(strike.kept for strike in strikes), sum(strike.length for strike in strikes), second))
    shares = [10_000 * kept // length for _, kept, length, _ in rows]
    return [
        Line(name, kept, length, f"{share // 100}.{share % 100:02}", due, lacking(due, length, kept) or None)
        for (name, kept, length, due), share in zip(rows, shares)
    ]
