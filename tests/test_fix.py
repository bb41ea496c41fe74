"""FIX messages (document 02, W11): `probe` and `replay` against the recount.

Single messages go through case 9 of `probe`, pairs of times through case 11, written messages through case 10 and, their bytes, through
case 9 again; lists of calls with messages go through `replay`. A test fails where an answer differs, and where something that the cases
are meant to show never came up. A case that differs is written to target/differential/, and `python3 -m tests.differential` shows it again.
"""

from collections import Counter
from random import Random
from typing import Iterator

import pytest

from recount import fix, programs
from recount.book import Add, Cancel, Message, Open
from recount.fix import END, USED, WORD
from tests import calls_text, message_lists, messages
from tests import message_coverage as coverage
from tests.conftest import Note
from tests.differential import Program, Replay, case_rng, write_failure
from tests.paths import EXAMPLES
from tests.running import words

LONG = 65_536  # bytes of a message that must pass through both programs
TIME = b"20261115-10:00:00.000"


class Cases(Program):
    """A case of `probe`."""

    name = "probe"

    def parts(self, data: bytes) -> tuple[bytes, list[bytes]]:
        return data, []

    def as_text(self, data: bytes) -> str:
        return f"probe {programs.to_words(data[:4])} {calls_text.texts.message_text(data[4:])}\n"

    def further(self, data: bytes, answer: str) -> Iterator[bytes]:
        """More cases that an answer gives rise to."""
        return iter(())


# ---------------------------------------------------------------- single messages


class Messages(Cases):
    cases, title, must = 1_500, "messages", [*coverage.MUST_READ, "long"]

    def special(self) -> Iterator[bytes]:
        yield from [words(9), words(9) + END, words(9)[:3], words(9) + bytes(26)]
        yield from (words(9) + data for kind in USED for data in messages.directed(kind))
        for data in messages.long_messages(LONG):
            yield words(9) + data
            yield words(9) + data[:-1]
            yield words(9) + data.replace(b"54=1", b"54=3")
        whole = fix.write(fix.Order("G", {11: 1, 41: 2, 54: 1, 38: 5, 44: -5}, TIME))
        yield from (words(9) + whole[:size] for size in range(len(whole)))
        yield words(9) + whole + bytes(programs.PROBE_BYTES - 4 - len(whole))
        yield words(9) + whole + bytes(programs.PROBE_BYTES - 3 - len(whole))  # past the longest case

    def make(self, rng: Random) -> bytes:
        return words(9) + messages.any_message(rng)[1]

    def situations_in(self, data: bytes, answer: str) -> Iterator[str]:
        if len(data) > LONG and answer.startswith("message"):
            yield "long"
        elif len(data) < LONG:
            yield from coverage.situations_of_bytes(data[4:])


# ---------------------------------------------------------------- times


class Times(Cases):
    cases, title = 400, "times"
    must = [*coverage.MUST_TIME, "bad case", *(f"no date: {date}" for date in messages.WRONG_DATES)]

    @staticmethod
    def case(start: bytes, time: bytes) -> bytes:
        return words(11, len(start)) + start + time

    def special(self) -> Iterator[bytes]:
        yield from [words(11), words(11, 0), words(11, 1), words(11, WORD) + TIME * 2, words(11, 43) + TIME * 2]
        yield from (words(11, size) + TIME * 2 for size in range(43))
        for date in messages.WRONG_DATES:
            yield self.case(TIME, f"{date}-10:00:00.000".encode())
        first, last = b"00010101-00:00:00.000", b"99991231-23:59:59.999"
        yield from [self.case(first, last), self.case(last, first), self.case(first, first), self.case(last, last)]
        for year in (1, 4, 1900, 2000, 2024, 2026, 9999):  # the last days of each month against the next first
            for month in range(1, 13):
                first_day = b"%04d%02d01-00:00:00.000" % (year + month // 12, month % 12 + 1)
                for day in (28, 29, 30, 31):
                    yield self.case(b"%04d%02d%02d-23:59:59.999" % (year, month, day), first_day)

    def make(self, rng: Random) -> bytes:
        start, time = messages.time_pair(rng)
        return self.case(start, time)

    def situations_in(self, data: bytes, answer: str) -> Iterator[str]:
        answer = answer.strip()
        if answer == "bad case":
            yield answer
            return
        size = programs.to_words(data)[1]
        start, time = data[8 : 8 + size], data[8 + size :]
        yield from coverage.situations_of_times(start, time, answer)
        if start == TIME and answer == "refused 21":
            yield f"no date: {time[:8].decode()}"


# ---------------------------------------------------------------- written messages


class Written(Cases):
    cases, title = 250, "written"
    must = [*(f"a {kind} is written" for kind in USED), "refused 21", "bad case", "114 bytes", "62 bytes"]

    @staticmethod
    def case(order: fix.Order) -> bytes:
        kind = next(number for number, kind in fix.KINDS.items() if kind == order.kind)
        given = [order.numbers.get(tag, 0) & WORD for tag in fix.NUMBERS]
        return words(10, kind, *given) + order.time

    def special(self) -> Iterator[bytes]:
        high = {11: WORD, 41: WORD, 54: 2, 38: WORD, 44: -(2**31)}
        for kind, used in USED.items():
            for numbers in (high, {tag: 1 if tag == 54 else 0 for tag in high}):
                yield self.case(fix.Order(kind, {tag: numbers[tag] for tag in used}, TIME))
            good = programs.to_words(self.case(fix.Order(kind, {tag: 1 for tag in used}, TIME)))
            for at, tag in enumerate(fix.NUMBERS, start=2):
                yield from (words(*good[:at], wrong, *good[at + 1 : 7]) + TIME for wrong in (0, 1, 2, 3, WORD))
            yield from (words(*good[:size]) for size in range(1, 8))
            yield from (words(10, other, *good[2:7]) + TIME for other in (0, 4, WORD))
        for power in range(10):
            for number in (10**power - 1, 10**power):
                yield self.case(fix.Order("F", {11: number, 41: number + 1}, TIME))

    def make(self, rng: Random) -> bytes:
        order = messages.order(rng, rng.choice("DFG"))
        return self.case(order._replace(time=messages.wrong_time(rng)) if rng.random() < 0.2 else order)

    def situations_in(self, data: bytes, answer: str) -> Iterator[str]:
        if not answer.startswith("bytes"):
            yield answer.strip()
            return
        written = bytes.fromhex(answer[6:])
        yield f"{len(written)} bytes"
        yield f"a {coverage.kind_of(written)} is written"

    def further(self, data: bytes, answer: str) -> Iterator[bytes]:
        """What is written is read, by the same program."""
        if answer.startswith("bytes"):
            yield words(9) + bytes.fromhex(answer[6:])


# ---------------------------------------------------------------- lists


class Lists(Replay):
    cases, title, must = 200, "lists", [*coverage.MUST_LIST, "long"]

    def special(self) -> Iterator[bytes]:
        example = EXAMPLES / "fix.calls"
        yield calls_text.to_bytes(example.read_text())
        opened, report = calls_text.calls_bytes([Open([1, 1, 10_000, 500, 100, 1, 600], 1, 2_000)]), words(12)
        for data in messages.long_messages(LONG):
            yield opened + calls_text.calls_bytes([Message(TIME, data)] * 3) + report
        whole = fix.write(fix.Order("D", {11: 7, 54: 1, 38: 500, 44: -99}, TIME))
        block = calls_text.calls_bytes([Message(TIME, whole + END)])
        size = 12 + len(TIME) + len(whole) + 1
        yield from (opened + block[:short] for short in range(len(block)))
        for filling in (b"\0\0\0\0", b"\xff\xff\xff\xff", b"8=F\x01"):  # whatever it is, it is not read
            yield opened + block[:size] + filling[: len(block) - size] + report
        yield from (words(16, *lengths) + report * 3 for lengths in ((), (0,), (0, 0), (4, 4), (3, 2), (5, 4)))
        yield from (words(16, *lengths) + report for lengths in ((WORD, 0), (0, WORD), (WORD, WORD), (WORD, 5), (1, 4)))

    def make(self, rng: Random) -> bytes:
        data = calls_text.calls_bytes(message_lists.any_calls(rng)[1])
        if rng.random() < 0.1:
            at = rng.randrange(len(data) + 1)
            return data[:at] + rng.choice([b"", rng.randbytes(4), words(16)]) + data[at + rng.randrange(5) :]
        return data

    def situations_in(self, data: bytes, answer: str) -> Iterator[str]:
        calls, _ = programs.read_calls(data)
        if any(isinstance(call, Message) and len(call.bytes) >= LONG for call in calls) and "accepted" in answer:
            yield "long"
        yield from coverage.list_situations(calls, answer.splitlines())

    def further(self, data: bytes, answer: str) -> Iterator[bytes]:
        """The same list with each accepted message as its calls, and without the refused ones."""
        pairs = list(as_calls(data, answer.splitlines()))
        block = calls_text.calls_bytes([call for call, _ in pairs])
        assert programs.replay(block).splitlines() == [line for _, line in pairs], self.as_text(data)
        yield block


def as_calls(data: bytes, answers: list[str]) -> Iterator[tuple[object, str]]:
    """The calls of a list with their lines, each accepted message as its calls, refused ones left out."""
    for call, line in zip(programs.read_calls(data)[0], answers):
        if not isinstance(call, Message):
            yield call, line
        elif line == "accepted":
            kind, numbers, time = fix.read(call.bytes)
            t = fix.since(call.start, time)
            if kind != "D":
                yield Cancel(t, numbers[41]), line
            if kind != "F":
                yield Add(t, numbers[11], numbers[54], numbers[44], numbers[38]), line


# ---------------------------------------------------------------- all of them


Tested = Messages | Times | Written | Lists


def cases_of(program: Tested, seed: int) -> Iterator[tuple[str, bytes]]:
    """Each case with its label."""
    for at, data in enumerate(program.special()):
        yield f"{program.title}-special-{at}", data
    for at in range(program.cases):
        yield f"{program.title}-seed-{seed}-{at}", program.make(case_rng(seed, program.title, at))


def run_cases(program: Tested, seed: int) -> Counter[str]:
    """Runs the cases; what they showed."""
    seen: Counter[str] = Counter()
    todo = list(cases_of(program, seed))
    while todo:
        label, data = todo.pop()
        expected = program.expected(data)
        if program.actual(data) != expected:
            write_failure(program, data, label)
        seen["cases"] += 1
        if not label.endswith("further"):
            seen.update(set(program.situations_in(data, expected)))
            todo += [(f"{label}-further", more) for more in program.further(data, expected)]
    return seen


@pytest.mark.usefixtures("programs")
@pytest.mark.parametrize("kind", [Messages, Times, Written, Lists], ids=lambda kind: kind.title)
def test_fix(kind: type[Tested], seed: int, note: Note) -> None:
    program = kind()
    seen = run_cases(program, seed)
    assert not [what for what in program.must if not seen[what]], "these never came up"
    note(f"fix: {seen['cases']} {program.title} agree", {what: seen[what] for what in program.must})
