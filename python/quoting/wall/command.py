"""The command `quoting desk watch`: a desk's contracts on a page, with alarms, a hook and figures for programs."""

import argparse
import re
import secrets
from importlib.util import find_spec
from typing import Any, Optional

from quoting import inputs, native, output
from quoting.commands.watch import PACKAGES, number_of
from quoting.inputs import WrongUse
from quoting.native import Missing
from quoting.watch import hosts

PORT = 8471
NEEDED = {**PACKAGES, "numpy": "python3-numpy", "prometheus_client": "python3-prometheus-client"}
WATCH = """Every contract of a desk on one page, the worst first, from the desk's logs as they grow: whether it is quoted, how long it may still be
away, and what it must still keep; below, the month so far, the fee so far and what was refused. A tile leads to the contract's own page.

The page shows alarms in its title, and after one click by sound and notification. --hook COMMAND gets each alarm as JSON on standard input,
without a shell; --hook URL by POST. For programs there are /metrics (Prometheus), /status.json and /healthz. Ctrl-C ends it."""
TIME = re.compile(r"([0-9]{1,5})(ms|s|m)?")
UNITS = {"ms": 1, "s": 1_000, None: 1_000, "m": 60_000}


def time_of(word: str) -> int:
    """Milliseconds of a time such as 5s.

    >>> time_of("5s"), time_of("500ms"), time_of("2m")
    (5000, 500, 120000)
    """
    found = TIME.fullmatch(word)
    if found is None:
        raise argparse.ArgumentTypeError(f"{word!r} is not a time such as 5s, 500ms or 1m")
    return int(found[1]) * UNITS[found[2]]


def add(parser: argparse.ArgumentParser) -> None:
    parser.add_argument("desk", metavar="DESK.toml", help="the desk")
    parser.add_argument("--alarm", type=time_of, default=5_000, metavar="TIME", help="how long a quote is lost before it is an alarm (5s)")
    parser.add_argument("--hook", metavar="COMMAND|URL", help="a program, or an http address, that gets each alarm as JSON")
    parser.add_argument("--clock", choices=("wall", "feed"), default="wall", help="what now is: the machine's clock, or the newest message's time and what has gone since it came")
    parser.add_argument("--silence", type=number_of, default=60.0, metavar="SECONDS", help="how long a contract's logs may be silent before its figures are not known (60; 0: as long as they like)")
    parser.add_argument("--port", type=inputs.whole_in(0, 65_535), default=PORT, help=f"the port of the page ({PORT}; 0: any that is free)")
    parser.add_argument("--listen", metavar="ADDRESS", help="serve on this address of the machine, with a token in the link")
    parser.set_defaults(parser=parser)


def server() -> Any:
    missing = [name for name in NEEDED if find_spec(name) is None]
    if missing:
        raise Missing(f"desk watch needs {', '.join(missing)}: apt-get install {' '.join(NEEDED[name] for name in missing)}")
    from quoting.wall import server as found

    return found


def hook_of(named: Optional[str]) -> Any:
    from quoting.wall.hooks import Hook

    try:
        return None if named is None else Hook(named)
    except ValueError as error:
        raise WrongUse(str(error)) from None


def run(args: argparse.Namespace) -> int:
    serving = server()
    from quoting.wall.alarms import Alarms
    from quoting.wall.state import Wall
    from quoting.watch.server import bound

    native.library()  # missing, it is said before anything is served
    wall, hook = Wall.load(args.desk, args.clock, args.silence), hook_of(args.hook)
    address = args.listen or hosts.HERE
    listening = bound(address, args.port)
    access = hosts.Access(address, listening.getsockname()[1], secrets.token_urlsafe(16) if args.listen else None)
    live = serving.Live(wall, Alarms(args.alarm), hook)
    serving.run(live, access, listening, lambda: output.write(None, f"watching {args.desk}: {access.link}\n"))
    return 0
