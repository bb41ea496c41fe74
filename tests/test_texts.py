"""Texts turn into bytes and back, errors name their line, pictures are drawn."""

import itertools
import random
import re
import zlib
from decimal import Decimal
from xml.etree import ElementTree

import pytest
from hypothesis import given, settings
from hypothesis import strategies as st

from quoting import calls as package_calls
from quoting import inputs, picture, reading, texts
from quoting.reading import PLAIN, Options, TextError
from recount import fix, programs
from recount.book import Accepted, Book, Message, Open, Row, row_fits
from tests import calls_text as calls
from tests import known, message_lists, months, plain_programmes
from tests import session_text as session
from tests.paths import EXAMPLES, PROGRAMMES, ROOT
from tests.running import words as packed

pytestmark = pytest.mark.usefixtures("library")

SESSIONS, LISTS = (sorted(EXAMPLES.glob(pattern)) for pattern in ("*.session", "*.calls"))


def name_of(path):
    return path.stem


def test_examples_are_there():
    assert SESSIONS and LISTS


@pytest.mark.parametrize("path", [*SESSIONS, *LISTS], ids=lambda path: path.name)
def test_examples(path):
    """Each example turns into bytes, and its bytes into a text of the same bytes."""
    tool = session if path.suffix == ".session" else calls
    data = tool.to_bytes(path.read_text())
    assert tool.to_bytes(tool.to_text(data)) == data


def test_words():
    """What words a line becomes."""
    written = calls.to_bytes("commit 0:00:01 2 -3 4 ticket 5 6 -7 8 4294967298\nask 1 2 -1 4")
    due = f"words 15 1000 2 {2**32 - 3} 4 5 6 {2**32 - 7} 8 2 1 14 1 2 {2**32 - 1} 4"
    assert written == calls.to_bytes(due)
    for line in ("lapses none", "lapses 65535", ""):
        assert calls.to_bytes(f"open row 1 day 1 sp 1 {line}")[-4:] == b"\xff\xff\0\0", line
        strike = calls.to_bytes(f"strike row 1 day 1 a 2 difference 3 days 4 b 5 {line}")
        assert strike == calls.to_bytes("words 13 1 1 1 2 3 4 5 65535"), line


@pytest.mark.parametrize(("word", "tenths"), [("60%", 600), ("600 tenths", 600), ("72.5%", 725), ("0.1%", 1), ("79.9%", 799), ("80.0%", 800)])
def test_shares(word, tenths):
    row = f"1 1 10000 500 100 1 {word}"
    assert session.row_words(row.split())[6] == tenths
    opened = programs.read_calls(calls.to_bytes(f"open row {row} day 1 sp 1"))[0][0]
    assert opened.words[6] == tenths


def test_session_of_document_01():
    example = (EXAMPLES / "document01.session").read_text()
    assert programs.sheet(session.to_bytes(example)) == "kept 6000 of 10000\npair 0 6000\nverdict met\nweight 10000\n"


@pytest.mark.parametrize("path", LISTS, ids=name_of)
def test_answers(path):
    """What the comments of an example say of refusals is so, and fix.answers has all of its lines."""
    answers = programs.replay(calls.to_bytes(path.read_text())).splitlines()
    lines = [line for line in path.read_text().splitlines() if line.split("#")[0].strip()]
    assert len(lines) == len(answers)
    for line, answer in zip(lines, answers):
        said = re.match(r" *refused [0-9]+", line.partition("#")[2])
        assert said is None or said[0].strip() == answer, (line, answer)
    if path.stem == "fix":
        assert "".join(f"{answer}\n" for answer in answers) == path.with_suffix(".answers").read_text()


MESSAGE = "8=FIX.4.4|9=40|35=F|11=8|41=7|60=20261115-10:00:00.001|10=081|"


def test_message_texts():
    """A message in its several texts, and the one that its bytes turn into."""
    data = MESSAGE.replace("|", "\1").encode()
    start, body = "20261115-10:00:00.000", MESSAGE[15:-7]
    due = Message(start.encode(), data)
    escaped = MESSAGE.replace("|", r"\x01").replace("=", r"\x3D").replace("8", r"\x38")
    for line in (f"{start} {MESSAGE}", f"{start} frame {body}", f"{start}   {escaped}  # a comment"):
        written = calls.to_bytes(f"message {line}")
        assert programs.read_calls(written) == ([due], None), line
        assert calls.to_text(written) == f"message {start} frame {body}\n", line
    size = len(start) + len(data)
    assert written[:12] == packed(16, len(start), len(data)) and len(written) == 12 + size + -size % 4
    # Each other character, no bytes at all, and words of the text itself as bytes.
    for data, shown in [
        (b"", "-"), (b"-", r"\x2d"), (b"--", "--"), (b"frame", r"\x66rame"), (b"\x01\x01", "||"), (b"\\x41", r"\\x41"),
        (b"a|b\\c#d e\0\x7f\xff~", r"a\|b\\c\x23d\x20e\x00\x7f\xff~"),
        (b"8=FIX.4.4\x019=0\x0110=200\x01", "frame -"), (b"8=FIX.4.4\x019=00\x0110=248\x01", "8=FIX.4.4|9=00|10=248|"),
        (b"8=FIX.4.4\x019=5\x0135=D\x0110=183\x01", "frame 35=D|"),
    ]:
        line = texts.call_line(package_calls.Message(b"", data))
        assert line == f"message - {shown}", line
        assert programs.read_calls(calls.to_bytes(line))[0] == [Message(b"", data)], line


def test_message_bytes():
    """Any start and message, with any filling, among other calls."""
    rng = random.Random(2)
    signs = b"\1=|\\#- x0189" + bytes(range(256))
    filled = 0
    for _ in range(500):
        start, data = (bytes(rng.choices(signs, k=rng.randrange(9))) for _ in range(2))
        if rng.random() < 0.3:
            data = fix.framed(data)
        size = -(len(start) + len(data)) % 4
        filling = rng.choice([bytes(size), rng.randbytes(size)])
        block = packed(16, len(start), len(data)) + start + data + filling
        block = packed(12) + block + packed(12)
        shown = calls.to_text(block)
        assert calls.to_bytes(shown) == block, (block.hex(), shown)
        assert (f"message {texts.message_text(start)} " in shown) == (not any(filling)), shown
        filled += any(filling)
    assert 50 < filled < 450, filled


@pytest.mark.parametrize("path", SESSIONS, ids=name_of)
def test_pictures(path):
    """Each session gives a picture, and the one in docs/ is of the present example."""
    data = session.to_bytes(path.read_text())
    svg = picture.picture(path.stem, data)
    for drawn in (svg, picture.picture(path.stem, data, 0), picture.picture(path.stem, data, 1_000)):
        ElementTree.fromstring(drawn)
    if path.stem == "brent":
        assert svg == (ROOT / "docs" / "session.svg").read_text(), "docs/session.svg is old"


def test_picture_limit():
    """The count against the limit, and the verdict by it; none without a limit."""
    data = session.to_bytes((EXAMPLES / "document01.session").read_text())
    assert "lapses" not in picture.picture("one", data)
    for limit, said in ((0, "one: failed, weight 0<"), (1, "one: met, weight 10000<")):
        svg = picture.picture("one", data, limit)
        assert f"lapses 1, at most {limit}<" in svg and said in svg, limit


def test_picture_words():
    """The required share is drawn in percent, half ones too; a long name leaves room for the verdict."""
    source = (EXAMPLES / "document01.session").read_text()
    for share, said in (("60%", "required 60%<"), ("72.5%", "required 72.5%<"), ("1 tenths", "required 0.1%<")):
        svg = picture.picture("one", session.to_bytes(source.replace("1 60%\n", f"1 {share}\n")))
        assert said in svg, share
    title = re.search(r'font-size="19"[^>]*>([^<]*)<', picture.picture("n" * 500, session.to_bytes(source)))[1]
    assert title.endswith(": met, weight 10000") and len(title) < 70, title


def kept_rects(svg):
    """(height, width) of each shaded part of the plot."""
    found = re.findall(r'<rect x="([^"]*)" y="([^"]*)" width="([^"]*)" height="([^"]*)" fill="#cfe8cf"/>', svg)
    return [(float(height), float(width)) for _, y, width, height in found if picture.TOP <= float(y) < picture.BOTTOM]


def test_picture_gaps():
    """Gaps shorter than a pixel are drawn as their share, longer ones as they are."""
    lines = ["row 1 1 790_000 1 100 1 60%", "sp 2000", "add 0 1 buy 99 1", "add 0 2 sell 100 1"]
    for second in range(790):
        lines += [f"amend {1000 * second} 2 200 1", f"amend {1000 * second + 250} 2 100 1"]
    rects = kept_rects(picture.picture("gaps", session.to_bytes("\n".join(lines))))
    tall = picture.BOTTOM - picture.TOP
    assert len(rects) == 790 and {width for _, width in rects} == {1.0}, rects[:3]
    assert all(abs(height - 0.75 * tall) < 0.02 for height, _ in rects), rects[:3]
    long = "row 1 1 790_000 1 100 1 60%\nsp 2000\nadd 0 1 buy 99 1\nadd 0 2 sell 100 1\ncancel 100_000 1\nadd 200_000 3 buy 99 1"
    assert kept_rects(picture.picture("long", session.to_bytes(long))) == [(tall, 100.0), (tall, 590.0)]


PROGRAMME_ROWS = {  # how many, and the CRC-32 of the table that was compared with the source document
    "000-currency-options": (56, 1780367357), "001-stock-futures-on-holidays": (120, 2610181270), "002-premium-options": (72, 2236825975),
    "003-brent-gold-silver": (12, 4287738576), "004-mini-metals": (24, 3186845187)}


def test_every_programme_is_known():
    assert sorted(path.stem for path in PROGRAMMES.glob("*.toml")) == sorted(PROGRAMME_ROWS)


@pytest.mark.parametrize("name", PROGRAMME_ROWS)
def test_rows(name):
    """Every row of the programmes is one that a month opens with, and none has changed."""
    rows = list(plain_programmes.rows_of(name))
    for instrument, words in rows:
        assert row_fits(Row(*words)) and Book().call(Open(words, 1, 0)) == Accepted(), (instrument, words)
    text = "".join(f"{instrument} {' '.join(map(str, words))}\n" for instrument, words in rows)
    assert (len(rows), zlib.crc32(text.encode())) == PROGRAMME_ROWS[name], text


def some_bytes(*likely):
    """Any bytes, and bytes out of a few, so that kinds of records and calls are among them."""
    return st.binary(max_size=120) | st.lists(st.sampled_from(likely), max_size=120).map(bytes)


@settings(derandomize=True, database=None, deadline=None, max_examples=200)
@pytest.mark.parametrize("tool", [session, calls], ids=["session", "calls"])
@given(data=some_bytes(0, 0, 0, 1, 2, 3, 6, 13, 14, 15, 16, 255))
def test_any_bytes(tool, data):
    """Whatever the bytes, their text turns into them again."""
    assert tool.to_bytes(tool.to_text(data)) == data


ERRORS = [  # what reads, a text, the line and what is said
    (session, "row 1 1 10000 500 100 1\nsp 0", 1, "row takes expiry quantum L M a b p"),
    (session, "row 1 1 10000 500 100 1 60%\n\nadd 0 1 buy 1 1", 3, "row and sp come before"),
    (session, "# a\nrow 1 1 10000 500 100 1 60%\nsp 4_294_967_296", 3, "SP: 4_294_967_296"),
    (session, "row 1 1 0:00:10 500 100 1 60%\nsp 1\nadd 0 1 bid 1 1", 3, "side: 'bid'"),
    (session, "row 1 1 10000 500 100 1 60%\nsp 1\nadd 0 1 buy 1", 3, "add takes t id side"),
    (session, "row 1 1 10000 500 100 1 60%\nsp 1\nadd -1 1 buy 1 1", 3, "t: -1 is out of range"),
    (session, "row 1 1 10000 500 100 1 60%\nsp 1\ntick 1:60:00", 3, "t: '1:60:00' is not"),
    (session, "row 1 1 10000 500 100 1 60%\nsp 1\nbytes 0g", 3, "bytes takes pairs"),
    (session, "row 1 1 10000 500 100 1 60%\nsp 1\nsell 1", 3, "'sell' is not known"),
    (session, "row 1 1 10000 500 100 1 60%", None, "there is no sp"),
    (session, "# nothing", None, "there is no row"),
    (session, "row 1 1 10000 500 100 1 72.55%\nsp 1", 1, "p: '72.55%' is not a percentage"),
    (session, "row 1 1 10000 500 100 1% 600\nsp 1", 1, "b: '1%' is not a number"),
    (session, "row 1 1 10000 500 100 1 72.5\nsp 1", 1, "p: '72.5' is not a number"),
    (session, "row 1 1 10000 500 100 1 60\nsp 1", 1, "p: 60 has no unit: write 60% (600 tenths of a percent) or 60 tenths (6%)"),
    (session, "row 1 1 10000 500 100 1 725\nsp 1", 1, "p: 725 has no unit: write 725% (7250 tenths of a percent) or 725 tenths (72.5%)"),
    (calls, "open row 1 1 10000 500 100 1 60 day 1 sp 1", 1, "p: 60 has no unit"),
    (session, "row 1 1 10000 500 100 1 60%\rsp 1\r\nadd " + 5000 * "9" + " 1 buy 1 1", 3, "t: 9999999999999999..99999999 (5000 characters) is out"),
    (calls, "tick 1 # \u2028report 1\x0creport 1\x85report 1\nreport 1", 2, "report takes nothing"),
    (calls, "report\u2028", 1, "'report\\u2028' is not known"),
    (calls, "report\nopen 1 1 day 1 sp 1", 2, "open is written"),
    (calls, "open row 1 1 day 1 sp 1 lapses", 1, "open is written"),
    (calls, "open row 1 1 day 1 sp 1 lapses some", 1, "lapses: 'some' is not a number"),
    (calls, "strike row 1 1 day 1 sp 1", 1, "strike is written"),
    (calls, "strike row 1 1 day 1 a 1 difference 1 days 1 lapses 1", 1, "strike is written"),
    (calls, "strike row 1 1 day 1 a 1 difference -1 days 1 b 1", 1, "difference: -1 is out of range"),
    (calls, "ask 1 2 3", 1, "ask takes t id price volume"),
    (calls, "ask 1 2 3 -4", 1, "volume: -4 is out of range"),
    (calls, "commit 1 2 3 4", 1, "commit is written"),
    (calls, "commit 1 2 3 4 with 1 2 3 4 5", 1, "commit is written"),
    (calls, "commit 1 2 3 4 ticket 1 2 3 4 18446744073709551616", 1, "count: 18446744073709551616"),
    (calls, "message", 1, "message is written"),
    (calls, "report\nmessage 20261115-10:00:00.000", 2, "message is written"),
    (calls, "message - frame", 1, "message is written"),
    (calls, "message - 35=D| 11=1|", 1, "message is written"),
    (calls, "message - frame 35=D| 11=1|", 1, "message is written"),
    (calls, r"message - 58=\n|", 1, r"'\\n|': write | for byte 1"),
    (calls, r"message - 58=\xg0|", 1, r"'\\xg0': write | for byte 1"),
    (calls, "message - 58=\u00e9|", 1, "'\u00e9|': write | for byte 1"),
    (calls, "message \\ 58=1|", 1, r"'\\': write | for byte 1"),
    (calls, "report 1", 1, "report takes nothing"),
    (calls, "close 1", 1, "close takes active passive"),
    (calls, "close 1 18446744073709551616", 1, "passive: 18446744073709551616"),
    (calls, "look 1 x 1", 1, "expiry: 'x' is not a number"),
    (calls, "words 1 4294967296", 1, "a word: 4294967296"),
]


@pytest.mark.parametrize(("tool", "source", "line", "said"), ERRORS, ids=[said[:30] for *_, said in ERRORS])
def test_errors(tool, source, line, said):
    with pytest.raises(reading.TextError) as error:
        tool.to_bytes(source)
    assert (error.value.line, str(error.value)[: len(said)]) == (line, said)


def test_calls():
    """The package's block of a call is the tests' own, and its line reads back, for all lists that the tests make."""
    rng = random.Random(3)
    seen = set()
    for _ in range(60):
        for call in [*months.any_calls(rng)[1], *known.ask_calls(), *known.outlook_calls(), *message_lists.any_calls(rng)[1]]:
            block = calls.calls_bytes([call])
            found, stop = package_calls.read_list(block)
            assert stop == len(block) and package_calls.block(found[0]) == block, call
            assert calls.to_bytes(texts.block_line(block)) == block, call
            seen.add(type(call).__name__)
    assert len(seen) == 16, seen


def slow_bytes(text: str, options: Options) -> bytes:
    """A session's bytes, every line in the slow way."""
    reader = texts.SessionReader(options)
    reading.read_by_lines(text, reader.take)
    return reader.data()


def outcome(read, text: str, options: Options):
    try:
        return read(text, options)
    except TextError as error:
        return str(error), error.line


def test_usual_lines(note):
    """Lines in the usual form are read at once: random sessions, right and wrong, give the same bytes or the same error with its line."""
    rng, same, refused = random.Random(8), 0, 0
    words = ["add", "amend", "cancel", "deal", "tick", "row", "buy", "sell", "0", "7", "8446", "999999999", "4294967295", "4294967296", "-5", "1_0", "0:00:01", "x",
             "84.5", "٣", "²", "", "#", "\t", "bytes 00"]  # fmt: skip
    shapes = ["add {} {} buy {} {}", "add {} {} sell {} {}", "amend {} {} {} {}", "cancel {} {}", "deal {} {} {}", "tick {}"]
    for _ in range(3_000):
        lines = ["row 1 1 8:45:00 1000 150 3 60%", "sp 8452"]
        for _ in range(rng.randrange(1, 8)):
            line = rng.choice(shapes).format(*(rng.choice([rng.randrange(10_000), rng.randrange(1 << 32)]) for _ in range(4)))
            if rng.random() < 0.15:
                parts = line.split(" ")
                parts[rng.randrange(len(parts))] = rng.choice(words)
                line = " ".join(parts)
            lines.append(line)
        text, options = rng.choice(["\n", "\n", "\r\n"]).join(lines) + "\n", rng.choice([PLAIN, PLAIN, Options(start=1_000), Options(step=Decimal("0.5"))])
        due = outcome(slow_bytes, text, options)
        assert outcome(texts.session_bytes, text, options) == due, text
        same, refused = same + isinstance(due, bytes), refused + isinstance(due, tuple)
    assert same > 500 and refused > 300, (same, refused)
    note(f"texts: {same} sessions and {refused} refusals are the same both ways")


def test_usual_calls():
    """The same of a list of calls: each event's block is that of the call."""
    rng, plain = random.Random(9), 0
    words = ["0", "7", "8446", "999999999", "1000000000", "4294967295", "-5", "1_0", "0:00:01", "x", "84.5", "\u0663", "\u00b2", "buy", "sell"]
    for _ in range(5_000):
        name = rng.choice(list(texts.EVENT_COLUMNS))
        given = [rng.choice(words[:5] if rng.random() < 0.9 else words) for _ in texts.EVENT_COLUMNS[name].split()]
        if name == "add" and rng.random() < 0.9:
            given[2] = rng.choice(["buy", "sell"])
        found = texts.plain_block(name, given)
        assert found is None or found == package_calls.block(texts.call(name, given)), (name, given)
        plain += found is not None
    assert 500 < plain < 4_500, plain


def slow_calls(text, options):
    """Each line's call by itself, and the list cut into its calls afterwards, with the line on which each starts."""
    parts = []
    for at, name, words in reading.lines(text):
        with reading.at_line(at):
            parts.append((at, texts.block_of(name, words, options)))
    whole, starts = b"".join(block for _, block in parts), []
    for at, block in parts:
        starts += [at] * len(block)
    blocks, stop = package_calls.blocks(whole)
    ends = [0, *itertools.accumulate(map(len, blocks))]
    return whole, [(block, starts[first]) for block, first in zip(blocks, ends)], None if stop == len(whole) else stop // 4 + 1


def fast_calls(text, options):
    found = inputs.calls_of("list", text.encode(), options)
    return texts.calls_bytes(text, options), [(each.block, each.line) for each in found.blocks], found.stop


def test_usual_lists(note):
    """Whole lists of calls, right and wrong: the same bytes, calls with their lines and place of the end, or the same error with its line."""
    rng, same, refused, cut = random.Random(10), 0, 0, 0
    words = ["add", "tick", "buy", "0", "8446", "999999999", "4294967296", "-5", "1_0", "0:00:01", "x", "84.5", "\u0663", "", "#", "\t"]
    shapes = ["add {} {} buy {} {}", "amend {} {} {} {}", "cancel {} {}", "deal {} {} {}", "tick {}", "report", "charge 1 1 1 {} {}", "ask {} {} {} {}", "",
              "words 8", "words 2 {} {}", "words {}", "bytes 08 00", "bytes 00 00", "close {} {}", "# {}", "words 1 5 7 3 99 500"]  # fmt: skip
    for _ in range(3_000):
        lines = []
        for _ in range(rng.randrange(1, 9)):
            line = rng.choice(shapes[:5] if rng.random() < 0.85 else shapes).format(*(rng.choice([rng.randrange(9), rng.randrange(1 << 32)]) for _ in range(4)))
            parts = line.split(" ")
            if rng.random() < 0.08:
                parts[rng.randrange(len(parts))] = rng.choice(words)
            lines.append(" ".join(parts))
        text, options = rng.choice(["\n", "\n", "\r\n"]).join(lines) + "\n", rng.choice([PLAIN, PLAIN, Options(start=1_000), Options(step=Decimal("0.5"))])
        due = outcome(slow_calls, text, options)
        assert outcome(fast_calls, text, options) == due, text
        same, refused, cut = same + (len(due) == 3), refused + (len(due) == 2), cut + (len(due) == 3 and due[2] is not None)
    assert same > 500 and refused > 300 and cut > 50, (same, refused, cut)
    note(f"texts: {same} lists of calls, {cut} of them cut short, and {refused} refusals are the same both ways")
