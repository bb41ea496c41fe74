"""The live page: follows a feed as it grows and serves a page on this machine that shows the open quantum, the day and the month.

The feed is a list of calls (--calls; text or bytes, - is standard input), or a log of FIX messages (--fix) with a list of the opens and
closes that the log lacks (--open), as `quoting statement --fix` reads it: before each open a line `start YYYYMMDD-HH:MM:SS.sss SYMBOL`.
Both are read as they grow. What can't be read is shown on the page with its line, and the reading goes on. Stopped and started again, it
reads the feed from its beginning and shows the same figures.

A file that is truncated, written again or replaced may lose or repeat calls. Then the page says in its largest type since when its figures
are not reliable, and reads the file again from its start. They are reliable again if the file has all that was read before; else start the
command again, with a file that has the whole feed. A rotated file is followed if its first call goes on where the old file ended.

A quantum counts one symbol (55), that of its `start`, of --symbol or of its first message, and one account (1), that of --account or of its
first message; other messages are left out, and the page says so. The exchange's reports count (35=8), and the requests where the log has
none (--from). Orders that rest when a quantum starts are carried in. A report that comes late, with an earlier time (60) than others, runs
the quanta again. Where requests are read and the exchange has answered, the page says how much is left out, and does not answer.

With --replay a finished file is played at a multiple of its own pace. The recount reads the same calls in a process of its own, and the
page says on how many both agree; where they differ the reading stops and the page names the call.

The page is for this machine alone. With --listen it is served on another address, and the link has a token without which nothing is
answered. Ctrl-C ends it.

examples:
  quoting watch --calls today.calls
  quoting watch --calls examples/rest.calls --replay 600
  quoting watch --fix examples/programmes/brent.log --open examples/programmes/brent.month --no-follow --title "Brent, November 2026"
  tail -f today.calls | quoting watch --calls - --silence 10
"""

import argparse
import secrets
from importlib import import_module
from importlib.util import find_spec
from pathlib import Path
from typing import Any

from quoting import fix, inputs, native, output
from quoting.exchange import choice
from quoting.inputs import WrongUse
from quoting.native import Missing
from quoting.reading import STANDARD, Options
from quoting.watch import hosts
from quoting.watch.names import name_text

PORT = 8470
PACKAGES = {"starlette": "python3-starlette", "uvicorn": "python3-uvicorn", "websockets": "python3-websockets"}


def number_of(word: str) -> float:
    try:
        found = float(word)
    except ValueError:
        found = -1.0
    if not 0 <= found <= 1e6:
        raise argparse.ArgumentTypeError(f"{word!r} is not a number from 0 to 1000000")
    return found


def speed_of(word: str) -> float:
    found = number_of(word)
    if not found:
        raise argparse.ArgumentTypeError("a speed is above 0")
    return found


def add(parser: argparse.ArgumentParser) -> None:
    parser.add_argument("--calls", metavar="FILE", help="a list of calls, or - for standard input")
    parser.add_argument("--fix", metavar="LOG", help="a log of FIX messages; needs --open")
    parser.add_argument("--open", metavar="FILE", help="the list of opens, closes and other calls that go with the log")
    parser.add_argument(
        "--start", metavar="TIME", help="with --calls the quantum's start, H:MM:SS: times h:mm:ss are a wall clock's; "
        "with --fix the start, YYYYMMDD-HH:MM:SS.sss, of an open without a line of its own")
    choice.add_source(parser, "with --fix, ")
    parser.add_argument("--symbol", metavar="SYMBOL", help="with --fix, the symbol (55) of each quantum whose start names none")
    parser.add_argument("--account", metavar="ACCOUNT", help="with --fix, read the messages of this account (1)")
    parser.add_argument("--step", type=inputs.step_of, metavar="STEP", help="prices are decimals, in steps of STEP, as 0.01")
    parser.add_argument(
        "--follow", action=argparse.BooleanOptionalAction, help="go on as the feed grows (the default), or read it to its end")
    parser.add_argument("--replay", type=speed_of, metavar="SPEED", help="play a finished file at SPEED times its own pace")
    parser.add_argument(
        "--clock", choices=("feed", "wall"), help="what now is: the last event's time plus the time since it came, or the machine's "
        "clock; by default the machine's where the date of a quantum's start is known and the feed is followed, else the feed's")
    parser.add_argument(
        "--silence", type=number_of, default=60.0, metavar="SECONDS", help="how long a feed may be silent in an open quantum before "
        "the page calls it broken off (60; 0: as long as it likes)")
    parser.add_argument("--port", type=inputs.whole_in(0, 65_535), default=PORT, help=f"the port of the page ({PORT}; 0: any that is free)")
    parser.add_argument("--listen", metavar="ADDRESS", help="serve on this address of the machine too, with a token in the link")
    parser.add_argument("--title", help="what is watched, as the page names it (the file's name)")
    parser.set_defaults(parser=parser)


# ---------------------------------------------------------------- what is watched


def check(args: argparse.Namespace) -> None:
    """What goes together."""
    if (args.calls is None) == (args.fix is None):
        raise WrongUse("--calls FILE or --fix LOG is needed, and not both")
    if (args.fix is None) != (args.open is None):
        raise WrongUse("--fix LOG and --open FILE go together")
    if args.fix is None and (args.symbol, args.account) != (None, None):
        raise WrongUse("--symbol and --account go with --fix")
    if STANDARD in (args.fix, args.open):
        raise WrongUse("--fix and --open name files; standard input goes with --calls")
    if args.replay is not None and args.follow:
        raise WrongUse("--replay plays a finished file, and --follow waits for more")
    if args.replay is not None and args.clock is not None:
        raise WrongUse("--clock goes without --replay, in which the played time is now")
    if args.fix is not None and args.start is not None:
        try:
            fix.moment(args.start)
        except ValueError as error:
            raise WrongUse(f"--start: {error}") from None


def day_start(args: argparse.Namespace) -> int:
    """The time of day at which a quantum of a list of calls starts."""
    if args.fix is not None or args.start is None:
        return 0
    try:
        return inputs.start_of(args.start)
    except argparse.ArgumentTypeError as error:
        raise WrongUse(f"--start: {error}") from None


def watch_of(args: argparse.Namespace) -> Any:
    """The feed, its clock and the meter."""
    from quoting.watch import clocks, feeds, logged, loop, playing
    from quoting.watch.meter import Meter

    follow = args.replay is None and args.follow is not False
    start = day_start(args)
    clock: Any = clocks.FeedClock()
    if follow and args.clock is None or args.clock == "wall":
        clock = clocks.WallClock(start if args.clock == "wall" else 0)
    options = Options(start, args.step)
    feed: Any
    if args.fix is None:
        feed = feeds.CallsFeed(args.calls, options, follow)
    else:
        chosen = choice.LogOptions(args.source, args.step or choice.LogOptions.step, {}, args.symbol, args.account)
        feed = logged.LogFeed(args.fix, args.open, options, args.start, clock, follow, chosen)
    if args.replay is not None:
        feed = clock = playing.Playing(feed, args.replay)
    return loop.Watch(feed, clock, Meter(name_of(args), start, args.step), args.silence if follow else 0.0, args.replay)


def name_of(args: argparse.Namespace) -> str:
    named = args.calls or args.fix
    return name_text(args.title or ("standard input" if named == STANDARD else Path(named).stem))


def server() -> Any:
    missing = [name for name in PACKAGES if find_spec(name) is None]
    if missing:
        raise Missing(f"watch needs {', '.join(missing)}: apt-get install {' '.join(PACKAGES[name] for name in missing)}")
    return import_module("quoting.watch.server")


def run(args: argparse.Namespace) -> int:
    check(args)
    serving = server()
    native.library()  # missing, it is said before anything is served
    address = args.listen or hosts.HERE
    listening = serving.bound(address, args.port)
    access = hosts.Access(address, listening.getsockname()[1], secrets.token_urlsafe(16) if args.listen else None)
    named = args.calls or args.fix
    name = "standard input" if named == STANDARD else name_text(named)
    serving.run(watch_of(args), access, listening, lambda: output.write(None, f"watching {name}: {access.link}\n"))
    return 0
