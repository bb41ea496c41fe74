"""The programs and the C call against the recount, on known and seeded random cases: what is tested, and how.

tests/test_differential.py runs them. A case that differs is made smaller and written to target/differential/; this shows it again,
with both answers:

    python3 -m tests.differential target/differential/seed-1-7.replay
"""

import random
import re
import struct
import subprocess
import sys
import time
from collections import Counter
from pathlib import Path

from recount import account as accounts
from recount import book, programs, records
from recount import session as run
from recount.book import Tick
from tests import ask_coverage, calls_text, crossed, generate, known, months, outlook_coverage, session_text, strike_coverage, volatile_cases
from tests.paths import ARCHIVES, BIN, EXAMPLES, INCLUDE, ROOT, TARGET, TESTS
from tests.running import run_program, words

FAILED = TARGET / "differential"
SHOWN_LINES = 60  # of a case or an answer


def case_rng(seed, name, at):
    return random.Random(f"{seed} {name} {at}")


# ---------------------------------------------------------------- the five that are tested


class Program:
    """A program that reads one case from standard input. Its cases are bytes."""

    refusals = range(0)  # the numbers that its cases must have met
    must_show = {}  # what its answers must have shown, as patterns
    must_meet = ()  # the situations that its cases must have met, by name

    def actual(self, data):
        return run_program(BIN / self.name, data)

    def actual_many(self, cases):
        return (self.actual(data) for data in cases)

    def expected(self, data):
        return getattr(programs, self.name)(data)

    def refusals_in(self, answer):
        """The refusal numbers of an answer."""
        return [int(number) for number in re.findall(r"^refused (\d+)", answer, re.M)]

    def situations_in(self, data, answer):
        """The situations that a case and its answer show, by name."""
        return ()

    def kept_in(self, answer):
        """Kept time of each accepted session of an answer."""
        return [int(kept) for kept in re.findall(r"^kept (\d+)", answer, re.M)]

    def parts(self, data):
        """A case as a front that stays and parts that can be left out one by one."""
        raise NotImplementedError

    def as_text(self, data):
        """The case for a reader."""
        raise NotImplementedError


class Replay(Program):
    name = "replay"
    cases = 2_500
    refusals = [*range(1, 15), 17, 18, 19]
    must_meet = [*strike_coverage.MUST_SHOW, *ask_coverage.MUST_SHOW, *outlook_coverage.MUST_SHOW]
    must_show = {
        "15 failed cells and a fee": r"failed (\d+ )*15 .*fee [1-9]",
        "16 failed cells and no fee": r"failed (\d+ )*16 .*fee 0$",
        "a fee at its limit": r"fee 120000000$",
        "64 live orders": r"orders 64 ",
        "a price at each limit": r"bid 1000000000 ask -1000000000 ",
        "charges at their limit": r"active 100000000000 passive 100000000000 ",
        "as many lapses as the limit": r"lapses ([1-9]\d*) limit \1 active .* verdict met",
        "a lapse too many": r"^cell kept 8\d{7} .* lapses 3 limit 2 .* verdict failed weight 0$",
        "1001 lapses, limit 1000": r"lapses 1001 limit 1000 .* verdict failed weight 0$",
        "1001 lapses, no limit": r"lapses 1001 limit none .* verdict met weight 20000$",
        "lapses of an open quantum": r"^report open yes .* lapses [1-9]\d* failed",
        "72.5% just kept": r"^cell kept 7250 of 10000 share 725 .* verdict met weight 10000$",
        "72.5% missed by a millisecond": r"^cell kept 7249 of 10000 share 725 .* verdict failed weight 0$",
        "a weight by a half percent": r" share \d*[1-9] .* weight 1(?!0000$)\d{4}$",
    }

    def special(self):
        for calls in (
            known.paper_calls, known.greatest_charges, known.every_refusal, known.edge_calls, known.lapse_calls, known.strike_calls,
            known.ask_calls, known.share_calls, known.outlook_calls,
        ):
            yield calls_text.calls_bytes(calls())
        for path in sorted(EXAMPLES.glob("*.calls")):
            if path.stem != "fix":  # that one is in test_fix.py
                yield calls_text.to_bytes(path.read_text())
        report, wrong_open = words(12), words(1, 6, 1, 1, 10_000, 500, 100, 1, 1, 2_000, 5)
        good_open = words(1, 7, 1, 1, 10_000, 500, 100, 1, 600, 1, 2_000, 5)
        yield from [b"", b"\1", report + b"\0\0\0", report * 3]
        yield from [words(0), words(18), words(19), words(2**32 - 1)]
        yield from [wrong_open, words(1), words(1, 0), words(1, 0, 1), words(1, 0, 1, 0),
                    words(1, 0, 1, 0, 0) + report]
        yield words(1, 2**32 - 1, 1, 2)
        yield words(1, 16, *range(16), 1, 0, 0)
        strike = words(13, 7, 1, 1, 10_000, 500, 0, 0, 600, 1, 75, 40, 365, 0, 5)
        yield from [strike[: 4 * size] for size in range(1, 16)]
        yield from [strike + report, words(13, 2**32 - 1, 1, 2, 3, 4, 5, 6, 7), words(13, *[0] * 7) + report]
        yield words(13, 16, *range(16), 1, 0, 0, 0, 0, 0) + report
        for side in (0, 1, 2, 3, 2**32 - 1):
            yield good_open + words(2, 0, 1, side, 100, 500) + report
        sizes = {2: 5, 3: 4, 4: 2, 5: 3, 6: 1, 7: 4, 9: 7, 10: 3, 11: 3, 14: 4, 15: 10}
        for kind, size in sizes.items():
            for short in range(size):
                yield good_open + words(kind, *[1] * short)
            yield good_open + words(kind, *[1] * size) + report
        most = programs.REPLAY_BLOCK
        yield from [words(8) * (most - 1) + end for end in (b"\0\0\0", words(6))]
        yield from [words(8) * most + end for end in (b"", b"\0", words(8), words(0))]

    def make(self, rng):
        name, calls = months.any_calls(rng)
        data = calls_text.calls_bytes(calls)
        if rng.random() < 0.15:
            name, at = "damaged_words", rng.randrange(len(data) + 1)
            noise, kind = rng.randbytes(rng.randrange(9)), words(rng.choice([0, 18, 99]))
            rest = data[at:] if rng.random() < 0.5 else b""
            data = data[:at] + rng.choice([b"", noise, kind]) + rest
        return name, data

    def kept_in(self, answer):
        return [int(kept) for kept in re.findall(r"^cell kept (\d+)", answer, re.M)]

    def situations_in(self, data, answer):
        (calls, _), lines = programs.read_calls(data), answer.splitlines()
        found = [part.situations(calls, lines) for part in (strike_coverage, ask_coverage, outlook_coverage)]
        return [situation for part in found for situation in part]

    def parts(self, data):
        calls, stop = programs.read_calls(data)
        blocks = [calls_text.calls_bytes([call]) for call in calls]
        return b"", blocks + ([] if stop is None else [data[4 * stop :]])

    def as_text(self, data):
        return calls_text.to_text(data)


class Sheet(Program):
    name = "sheet"
    cases = 2_500
    refusals = [1, 2, 3, *range(8, 16)]
    must_show = {
        "the longest quantum": r"^kept [1-9]\d* of 86400000$",
        "800 pairs": r"(^pair \d+ \d+\n){800}",
        "a weight between": r"^weight 1[0-9]*[1-9][0-9]*$",
    }

    def special(self):
        head, data = known.many_records(1_600)
        yield from [b"", b"\0" * 31, head, head + data, head + data + b"\6"]
        yield head + data + records.write(Tick(1_600))
        yield head + data + b"\0" * 20
        yield head + data + data
        yield head + data[:-20] + b"\7" + b"\0" * 40
        yield head + data[:-20] + records.write(Tick(0)) + b"\0" * 20
        for path in sorted(EXAMPLES.glob("*.session")):
            yield session_text.to_bytes(path.read_text())
        for row in generate.PROGRAMMES:
            rng = case_rng(0, "row", str(row))
            head, data = generate.quoting(rng, row=book.Row(*row), count=10)
            yield head + data
        for head, data in known.sessions():
            yield head + data

    def make(self, rng):
        name, head, data = generate.any_session(rng)
        return name, head + data

    def parts(self, data):
        return data[:32], list(records.split(data[32:]))

    def as_text(self, data):
        return session_text.to_text(data)


class Account(Sheet):
    name = "account"
    cases = 1_500
    must_show = {
        **{f"time that is {name}": rf"^total {name} [1-9]" for name in accounts.STATES},
        "the longest quantum": r"^from 0 for 86400000 ",
        "1601 stretches": r"(^from \d+ for \d+ \S+\n){1601}",
    }

    def special(self):
        yield from super().special()
        head, data = known.many_stretches(1_600)
        yield from [head + data, head + data + records.write(Tick(1_601))]

    def kept_in(self, answer):
        return [int(kept) for kept in re.findall(r"^total kept (\d+)", answer, re.M)]


class Probe(Program):
    name = "probe"
    cases = 2_500
    refusals = [1, 2, 3, *range(8, 17), 18, 22]
    must_show = {
        "a day inside, with a row": r"^inside yes\nrow \d",
        "a day outside, with a row": r"^inside no\nrow \d",
        "prices that are refused, with a row": r"^refused 22\nrow \d",
    }
    must_meet = [
        "a row eased", "a row left", "a strike's row eased", "a strike's row left",
        *(f"an account by {rule} with time that is {state}" for rule in ("SP", "a strike") for state in accounts.STATES),
        "an account that just fits", "an account a word too long",
    ]

    def special(self):
        yield from [b"", b"\1", words(0), words(4), words(1), words(1, 0, 0), words(1, 0, 0, 0)]
        row = generate.PROGRAMMES[0]
        yield words(1, 0, 9, 7, *row, 8_452)
        yield words(1, 4_096, 9, 7, *row, 8_452)
        yield words(1, 4_097, 9, 7, *row, 8_452)
        yield words(1, 3, 9, 7, *row)
        for count in (0, 6, 8, 16, 17):
            yield words(1, 3, 9, count, *range(count), 8_452)
        table = [1, 1, 5, 5, 5, 5, 5] * 585
        for holiday in (0, 1, 2):
            yield words(2, holiday, 1, 1, 7, 7, *row, *table[:7])
        yield from [words(2), words(2, 0, 1, 1, 0)]
        yield from [words(2, 0, 1, 1, 0, 0), words(2, 0, 1, 1, 1, 0)]
        yield words(2, 1, 2, 2, 4_096, 0, *[2] * 4_096)
        yield words(2, 1, 1, 1, 1, 4_095, 0, *table)
        yield words(2, 1, 1, 1, 1, 4_096, 0, *table, 0)
        yield from [words(2, 0, 1, 1, 2**32 - 1, 1, 5), words(2, 0, 1, 1, 1, 2**32 - 1, 5)]
        for head, data in known.sessions():
            if len(head) == 32:
                yield words(1, 4, 9, 7) + head + data
        head, data = known.many_records(4)
        yield from [words(1, size, 9, 7) + head + data for size in (0, 3, 4, 5)]
        yield from [words(15), words(15, 0, 0), words(15, 4_097, 9, 7, *row, 0, 8_452), words(15, 9, 9, 17, *range(17), 0, 8_452)]
        for count in (0, 6, 7, 8, 16):
            yield from [words(15, 9, 9, count, *range(count), *given) for given in ([], [0], [0, 1], [1, 1, 1, 1], [1, 1, 1, 1, 1], [2, 1, 1, 1, 1])]
        for given in ([0, 8_452], [1, 1_000, 5, 30, 4], [1, 1_001, 5, 30, 4]):
            yield from [words(15, size, 9, 7, *row, *given) + records.write(Tick(5)) for size in (0, 2, 3, 4, 4_096)]
        for size in (0, 1, 19, 20):
            yield words(3) + records.write(Tick(5))[:size]
        yield from volatile_cases.wrong_rows()
        yield from volatile_cases.wrong_strikes()
        longest = words(3) + records.write(Tick(5)) + bytes(programs.PROBE_BYTES - 24)
        yield from [longest, longest + b"\0"]

    def make(self, rng):
        how = rng.random()
        if how < 0.1:
            return "tables", words(*generate.any_tables(rng))
        if how < 0.2:
            return "record", words(3) + generate.any_record(rng)
        if how < 0.3:
            return "eased", rng.choice([data for data, _ in volatile_cases.any_eased(rng)])
        name, head, data = generate.any_session(rng)
        if len(head) < 32 or rng.random() < 0.03:
            name, row, sp = "bad_row", generate.wrong_row_words(rng), 2_000
        else:
            *row, sp = run.HEAD.unpack(head)
        if how < 0.65:
            return name, self.account_case(rng, row, sp, data)
        return name, self.session_case(rng, row, sp, data)

    def situations_in(self, data, answer):
        """The states of a case 15, and whether the row of a case 13 was altered."""
        if data[:4] == words(15):
            yield from self.account_situations(programs.to_words(data), answer)
        if data[:4] != words(13) or answer == "bad case\n":
            return
        kind, _, *before = programs.to_words(data)[1:]
        altered = answer.split() != ["row", *map(str, before)]
        whose = "a strike's" if kind else "a"
        yield f"{whose} row {'eased' if altered else 'left'}"

    @staticmethod
    def account_situations(given, answer):
        found = re.match(r"account (\d+)((?: \d+){6})$", answer, re.M)
        if found:
            rule = "a strike" if given[4 + given[3]] else "SP"
            for name, time_in in zip(accounts.STATES, map(int, found[2].split())):
                if time_in:
                    yield f"an account by {rule} with time that is {name}"
            if given[1] == 3 * int(found[1]):
                yield "an account that just fits"
        if answer.startswith("refused 16 ") and given[1] % 3 == 2:
            yield "an account a word too long"

    @staticmethod
    def lent(rng, needed):
        """The size of a buffer that is too short, just right, or longer, and what fills it."""
        most = programs.PROBE_BUFFER
        near = [needed, needed, needed + 1, needed - 1, needed // 2, needed + 5]
        size = generate.clamp(rng.choice([*near, 0, most]), 0, most)
        return size, rng.choice([0, 7, 2**32 - 1, rng.randrange(2**32)])

    def session_case(self, rng, row, sp, data):
        answer = run.run(row, sp, data)
        needed = 0 if isinstance(answer, run.Stopped) else 2 * len(answer.pairs)
        return words(1, *self.lent(rng, needed), len(row), *row, sp & 0xFFFFFFFF) + data

    def account_case(self, rng, row, sp, data):
        """By SP, or by a strike, now and then with a number out of its range."""
        given = [0, sp & 0xFFFFFFFF]
        if rng.random() < 0.5:
            sp = generate.wrong_strike(rng) if rng.random() < 0.1 else generate.any_strike(rng)
            given = [1, *sp]
        answer = accounts.run(row, sp, data)
        needed = 0 if isinstance(answer, run.Stopped) else 3 * len(answer.stretches)
        return words(15, *self.lent(rng, needed), len(row), *row, *given) + data

    def parts(self, data):
        front, given = len(data), programs.to_words(data)
        if given[:1] == [1] and len(data) >= 16:
            front = 4 * (5 + given[3])
        if given[:1] == [15] and len(data) >= 16 and len(given) > 4 + given[3]:
            front = 4 * (4 + given[3] + (5 if given[4 + given[3]] else 2))
        return data[:front], list(records.split(data[front:]))

    def as_text(self, data):
        front, rest = self.parts(data)
        shown = [session_text.to_text(b"\0" * 32 + record).splitlines()[-1] for record in rest]
        return "\n".join(["words " + " ".join(map(str, programs.to_words(front))), *shown]) + "\n"


class CCall(Program):
    """The C call, many cases to a process. A case has two lengths, then both byte strings."""

    name = "ccall"
    cases = 5_000
    refusals = [1, 2, 3, *range(8, 16)]

    def __init__(self):
        self.runner = TARGET / "ccall"
        strict = ["-std=c11", "-O2", "-Wall", "-Wextra", "-Werror", f"-I{INCLUDE}"]
        subprocess.run(["cc", *strict, TESTS / "ccall.c", ARCHIVES / "libsession.a", "-o", self.runner], check=True)

    @staticmethod
    def case(head, data):
        return words(len(head), len(data)) + head + data

    @staticmethod
    def split(data):
        head_size, size = struct.unpack_from("<II", data)
        return data[8 : 8 + head_size], data[8 + head_size : 8 + head_size + size]

    def special(self):
        head, data = known.many_records(1_601)
        yield from [self.case(head[:size], data) for size in (0, 1, 31, 32)]
        yield self.case(head + b"\0", data)
        yield self.case(head, b"")
        yield from [self.case(head, data) for head, data in known.sessions()]

    def make(self, rng):
        name, head, data = generate.any_session(rng)
        return name, self.case(head, data)

    def expected(self, data):
        return f"{run.ccall(*self.split(data))}\n"

    def actual(self, data):
        return next(self.actual_many([data]))

    def actual_many(self, cases):
        answers = run_program(self.runner, b"".join(cases)).splitlines(keepends=True)
        for at in range(len(cases)):
            yield answers[at] if at < len(answers) else "(no answer)\n"

    def refusals_in(self, answer):
        return [int(answer) >> 32] if int(answer) >> 32 else []

    def kept_in(self, answer):
        return [] if int(answer) >> 32 else [int(answer)]

    def parts(self, data):
        head, rest = self.split(data)
        return head, list(records.split(rest))

    def as_text(self, data):
        return session_text.to_text(b"".join(self.split(data)))


def joined(program, front, parts):
    """The case that a front and the parts left of it make."""
    rest = b"".join(parts)
    return program.case(front, rest) if isinstance(program, CCall) else front + rest


PROGRAMS = [Replay, Sheet, Account, Probe, CCall]

# ---------------------------------------------------------------- one case, and a smaller one


def smaller(program, data):
    """Leaves out parts as long as the answers still differ, for some seconds at most."""
    until = time.monotonic() + 15
    try:
        front, parts = program.parts(data)
    except (struct.error, IndexError):
        return data
    size = max(1, len(parts) // 2)
    while time.monotonic() < until:
        for at in range(0, len(parts), size):
            fewer = parts[:at] + parts[at + size :]
            case = joined(program, front, fewer)
            if time.monotonic() > until:
                break
            if program.actual(case) != program.expected(case):
                parts = fewer
                break
        else:
            if size == 1:
                break
            size //= 2
    case = joined(program, front, parts)
    return case if program.actual(case) != program.expected(case) else data


def show(title, text, around=0):
    """Some lines of a text, those near the line `around` at least."""
    lines = text.splitlines()
    start = max(0, around - SHOWN_LINES // 2) if len(lines) > SHOWN_LINES else 0
    part = lines[start : start + SHOWN_LINES]
    where = f" (lines {start + 1} to {start + len(part)} of {len(lines)})" if part != lines else ""
    print("\n".join([f"--- {title}{where}", *part]))


def show_difference(program, data):
    expected, actual = program.expected(data), program.actual(data)
    both = zip(expected.splitlines(), actual.splitlines())
    differs = next((at for at, (one, other) in enumerate(both) if one != other), 0)
    show("the case", program.as_text(data))
    show("the recount answers", expected, differs)
    show(f"{program.name} answers", actual, differs)
    return expected == actual


def write_failure(program, data, label):
    """Makes the case smaller, keeps it in a file, shows both answers, and fails."""
    data = smaller(program, data)
    FAILED.mkdir(parents=True, exist_ok=True)
    path = FAILED / f"{label}.{program.name}"
    path.write_bytes(data)
    show_difference(program, data)
    raise AssertionError(f"{program.name} and the recount differ; this case again: python3 -m tests.differential {path.relative_to(ROOT)}")


# ---------------------------------------------------------------- many cases


class Tally:
    def __init__(self):
        self.cases = 0
        self.refused, self.generators, self.seen = Counter(), Counter(), Counter()
        self.reached = Counter()  # refusals and situations, by the random cases alone
        self.accepted = self.with_time = 0

    def count(self, program, name, answer, quotes, situations):
        self.cases += 1
        self.generators[name] += 1
        refused = set(program.refusals_in(answer))  # cases that met it
        self.refused.update(refused)
        self.seen.update(situations)
        if name != "special":
            self.reached.update(refused | situations)
        self.seen.update(
            shown for shown, pattern in program.must_show.items() if re.search(pattern, answer, re.M)
        )
        kept = program.kept_in(answer)
        if kept and name != "special":
            self.seen.update(quotes)
        self.accepted += len(kept)
        self.with_time += sum(1 for k in kept if k > 0)


def named_cases(program, seed, count):
    """The special cases, then random ones; each with its label and its generator's name."""
    for at, data in enumerate(program.special()):
        yield f"special-{at}", "special", data
    for at in range(count):
        name, data = program.make(case_rng(seed, program.name, at))
        yield f"seed-{seed}-{at}", name, data


def batches(cases, size):
    batch = []
    for case in cases:
        batch.append(case)
        if len(batch) == size:
            yield batch
            batch = []
    if batch:
        yield batch


def run_cases(program, seed, count):
    """Runs the cases; answers the tally, or fails where an answer differs."""
    tally = Tally()
    for batch in batches(named_cases(program, seed, count), 200 if program.name == "ccall" else 1):
        answers = program.actual_many([data for _, _, data in batch])
        for (label, name, data), actual in zip(batch, answers):
            with crossed.noted() as quotes, strike_coverage.noted() as situations:
                expected = program.expected(data)
            if actual != expected:
                write_failure(program, data, label)
            situations.update(program.situations_in(data, expected))
            tally.count(program, name, expected, quotes, situations)
    return tally


def never_met(program, tally, whole):
    """What the cases should have met and did not. In a tenth of them chance need not have brought all of it."""
    if whole and "far_behind" in tally.generators and not tally.generators["far_behind_then_best"]:
        yield "an order that was amended to a worse price and then became the best"
    reached = tally.reached if whole else tally.refused
    yield from (f"refusal {number}" for number in program.refusals if not reached[number])
    yield from (shown for shown in (*program.must_show, *crossed.MUST_SHOW) if not tally.seen[shown])
    met = tally.reached if whole else tally.seen
    yield from (situation for situation in program.must_meet if not met[situation])


def counts(tally):
    """How many cases met each refusal and each situation, and how many came from each generator."""
    return {**{f"refusal {number}": count for number, count in tally.refused.items()}, **tally.seen, **tally.generators}


# ---------------------------------------------------------------- one case again


def main(names):
    kinds = {f".{kind.name}": kind for kind in PROGRAMS}
    if len(names) != 1 or Path(names[0]).suffix not in kinds:
        sys.exit(__doc__)
    path = Path(names[0])
    same = show_difference(kinds[path.suffix](), path.read_bytes())
    print("--- the same" if same else "--- they differ")
    return 0 if same else 1


if __name__ == "__main__":
    sys.exit(main(sys.argv[1:]))
