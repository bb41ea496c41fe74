"""A large desk, settled and measured: six instruments with two expiries, 21 days, so many messages a day, both directions.

    python3 bench/desk.py 190000          # 4,000,000 messages, some 800 MB in a temporary folder
    python3 bench/desk.py 5000 --keep big # a smaller one, which stays in the folder big

It prints the processor time and the most memory of `quoting desk settle --no-recount --no-statements`, after the size of the logs.
"""

import argparse
import os
import random
import resource
import subprocess
import sys
import tempfile
from datetime import date, datetime, timedelta, timezone
from pathlib import Path

ROOT = Path(__file__).resolve().parent.parent
NAMES = ("brent", "gold", "silver", "gold-mini", "silver-mini", "platinum-mini")
DAYS = [day for day in (date(2026, 11, 1) + timedelta(days=at) for at in range(30)) if day.weekday() < 5]
SYMBOLS = [f"{name}-{expiry}" for name in NAMES for expiry in (1, 2)]
LEVEL = 40_000


def framed(body: str) -> str:
    front = f"8=FIX.4.4\1" f"9={len(body)}\1{body}"
    return f"{front}10={sum(front.encode()) % 256:03}\1\n"


def day_log(day: date, messages: int, rng: random.Random, orders: dict[str, list[int]]) -> str:
    """Replaces of the symbols' quotes, each a request and a report, from 07:00 to 20:50 UTC."""
    start = datetime(day.year, day.month, day.day, 7, tzinfo=timezone.utc)
    out, span = [], 49_800_000
    for at in range(messages // 2):
        ms = span * 2 * at // messages
        symbol, side = SYMBOLS[at % len(SYMBOLS)], 1 + at // len(SYMBOLS) % 2
        time = f"{start + timedelta(milliseconds=ms):%Y%m%d-%H:%M:%S}.{ms % 1000:03}"
        away = rng.choice((12, 15, 18, 18, 30))
        price = (LEVEL - away if side == 1 else LEVEL + away) / 10
        key = f"{symbol}{side}"
        old, new, oid = orders[key][0], orders[key][0] + 1, orders[key][1]
        is_new = not old
        orders[key][0] = new
        own = f"1=A7\x0155={symbol}\x0154={side}\x0138=900\x0140=2\x0144={price}\x0159=0\1"
        orig = "" if is_new else f"41=C{old}{key}\1"
        out.append(f"{time[9:]} > " + framed(f"35={'D' if is_new else 'G'}\x0149=M\x0156=X\x0134={at}\x0152={time}\x0111=C{new}{key}\1{orig}{own}60={time}\1"))
        kind = "0" if is_new else "5"
        report = f"37={oid}\x0111=C{new}{key}\1{orig}17=E{day:%d}{at}\x01150={kind}\x0139={kind}\1{own}151=900\x0114=0\x016=0\x0160={time}\1"
        out.append(f"{time[9:]} < " + framed(f"35=8\x0149=X\x0156=M\x0134={at}\x0152={time}\1{report}"))
    return "".join(out)


def write(folder: Path, messages: int) -> None:
    """The desk's files."""
    rng, orders = random.Random(1), {f"{symbol}{side}": [0, 10**17 + at] for at, (symbol, side) in enumerate((s, n) for s in SYMBOLS for n in (1, 2))}
    (folder / "logs").mkdir(parents=True)
    for day in DAYS:
        (folder / "logs" / f"{day:%Y%m%d}.log").write_text(day_log(day, messages, rng, orders))
    row = '{{ expiry = {}, quanta = [1, 2], minimum = 500, a = "0.1%", b = "0.8", share = "60%" }}'
    tables = [f'[instruments.{name}]\nstep = "0.1"\nrows = [{row.format(1)}, {row.format(2)}]\n' for name in NAMES]
    quanta = '[quanta]\n1 = "10:00-18:45"\n2 = "19:00-23:50"\n'
    (folder / "programme.toml").write_text(f'name = "Bench"\ntimezone = "Europe/Moscow"\n\n{quanta}\n' + "\n".join(tables))
    contracts = [f'[[contract]]\ninstrument = "{name}"\nexpiry = {n}\nsymbol = "{name}-{n}"\naccounts = ["A7"]\n' for name in NAMES for n in (1, 2)]
    files = 'programme = "programme.toml"\nprices = "prices.csv"\ncharges = "charges.csv"\nlogs = ["logs/*.log"]\n'
    (folder / "desk.toml").write_text(f'maker = "Bench"\nmonth = "2026-11"\n{files}\n' + "\n".join(contracts))
    (folder / "prices.csv").write_text("date,symbol,price\n" + "".join(f"2026-10-30,{symbol},{LEVEL / 10}\n" for symbol in SYMBOLS))
    lines = [f"{day},{symbol},{quantum},100000,200000\n" for day in DAYS for symbol in SYMBOLS for quantum in (1, 2)]
    (folder / "charges.csv").write_text("date,symbol,quantum,active,passive\n" + "".join(lines))


def measure(folder: Path) -> int:
    size = sum(path.stat().st_size for path in (folder / "logs").iterdir())
    print(f"{size / 1e6:,.0f} MB of logs in {len(DAYS)} files")
    words = [str(ROOT / "quoting"), "desk", "settle", str(folder / "desk.toml"), "-o", str(folder / "out"), "--no-recount", "--no-statements"]
    status = subprocess.run(words, env={**os.environ, "PYTHON": sys.executable}, check=False).returncode
    used = resource.getrusage(resource.RUSAGE_CHILDREN)
    print(f"{used.ru_utime + used.ru_stime:.1f} s of processor time, {used.ru_maxrss / 1024:,.0f} MB at most")
    return status


def main() -> int:
    parser = argparse.ArgumentParser(description=__doc__, formatter_class=argparse.RawDescriptionHelpFormatter)
    parser.add_argument("messages", type=int, help="messages a day")
    parser.add_argument("--keep", metavar="FOLDER", help="write the desk here, and leave it there")
    args = parser.parse_args()
    if args.keep:
        write(Path(args.keep), args.messages)
        return measure(Path(args.keep))
    with tempfile.TemporaryDirectory() as folder:
        write(Path(folder) / "desk", args.messages)
        return measure(Path(folder) / "desk")


if __name__ == "__main__":
    sys.exit(main())
