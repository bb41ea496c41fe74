"""The bytes of a session or of a list of calls as text; a text is written again in its plain form.

With --old-months the share p is in percent, as it was before it was counted in tenths of a percent: it is multiplied by ten, in bytes
as in a text's bare numbers.

examples:
  quoting text month.bytes -o month.calls
  quoting text --old-months old.calls -o new.calls
"""

import argparse
from dataclasses import replace

from quoting import calls as c
from quoting import inputs, output, reading, texts
from quoting.commands.bytes import kind_of
from quoting.rows import HEAD


def add(parser: argparse.ArgumentParser) -> None:
    parser.add_argument("file", metavar="FILE", nargs="?", default="-", help="bytes or a text, or - for standard input")
    parser.add_argument("--as", dest="kind", choices=("session", "calls"), help="what it is, where that does not show")
    parser.add_argument("--old-months", action="store_true", help="p is in percent: multiply it by ten")
    inputs.add_session(parser)
    inputs.add_output(parser, json=False)


def bytes_kind(data: bytes) -> str:
    """A session has 32 bytes and 20 for each record, and begins with an expiry and a quantum."""
    fits = len(data) >= HEAD.size and (len(data) - HEAD.size) % 20 == 0
    return "session" if fits and c.word_at(data, 0) in (1, 2) and c.word_at(data, 4) in (0, 1, 2) else "calls"


def old_session(data: bytes) -> bytes:
    """The session's bytes with p multiplied by ten."""
    if len(data) < HEAD.size:
        return data
    *row, share, sp = HEAD.unpack(data[: HEAD.size])
    return HEAD.pack(*row, tenfold(share), sp) + data[HEAD.size :]


def tenfold(share: int) -> int:
    if 10 * share >= 2**32:
        raise reading.TextError(f"p: ten times {share} does not fit")
    return 10 * share


def old_calls(data: bytes) -> bytes:
    """The list's bytes with p of each open multiplied by ten."""
    found, stop = c.blocks(data)
    return b"".join(map(old_block, found)) + data[stop:]


def old_block(block: bytes) -> bytes:
    call = c.call_of(block)
    if not isinstance(call, c.Open) or len(call.words) < 7:
        return block
    words = list(call.words)
    words[6] = tenfold(words[6])
    return c.block(replace(call, words=words))


def run(args: argparse.Namespace) -> int:
    data, options = reading.read_bytes(args.file), inputs.options_of(args)
    is_bytes = args.format == "bytes" or args.format is None and reading.holds_bytes(data)
    kind = args.kind or (bytes_kind(data) if is_bytes else kind_of(reading.decoded(data, args.file)))
    if kind == "session":
        made = inputs.session_of(args.file, data, options, inputs.head_of(args), "bytes" if is_bytes else args.format).data
        written = texts.session_text(old_session(made) if is_bytes and args.old_months else made)
    else:
        inputs.check_no_head(args)
        made = data if is_bytes else b"".join(part.block for part in inputs.calls_parts(args.file, data, options))
        written = texts.calls_text(old_calls(made) if is_bytes and args.old_months else made)
    output.write(args.output, written)
    return 0
