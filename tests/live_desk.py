"""A small desk whose quantum is open now, and its log, written as a FIX engine would: for tests of the live wall and for its bench."""

import datetime as dt
import time

from quoting import fix

ROWS = 'rows = [{{ expiry = {expiry}, quanta = [1], minimum = {minimum}, a = "0.15%", b = "0.03", share = "{share}" }}]'


def zone_at_noon(now):
    """A zone in which it is about noon, so that no day begins or ends while a test runs."""
    hour = dt.datetime.fromtimestamp(now, dt.timezone.utc).hour
    ahead = 12 - hour
    return dt.timezone(dt.timedelta(hours=ahead)), f"Etc/GMT{'-' if ahead >= 0 else '+'}{abs(ahead)}"


class LiveDesk:
    """A desk of some contracts, each an instrument of its own, with one log for all."""

    def __init__(self, folder, symbols, share="60%", lapses=None, minimum=100, hours="06:00-18:30", now=None):
        self.folder, self.now = folder, now or time.time()
        self.zone, name = zone_at_noon(self.now)
        self.today = dt.datetime.fromtimestamp(self.now, self.zone).date()
        folder.mkdir(parents=True, exist_ok=True)
        (folder / "logs").mkdir(exist_ok=True)
        self.path, self.log = folder / "desk.toml", folder / "logs" / "day.log"
        self.number = 0
        instruments = {f"i{at}": symbol for at, symbol in enumerate(symbols)}
        limit = "" if lapses is None else f"lapses = {lapses}\n"
        tables = [f'[instruments.{each}]\nstep = "0.01"\n{limit}{ROWS.format(expiry=1, minimum=minimum, share=share)}\n' for each in instruments]
        (folder / "programme.toml").write_text(f'name = "Test"\ntimezone = "{name}"\n[quanta]\n1 = "{hours}"\n' + "".join(tables))
        contracts = "".join(f'[[contract]]\ninstrument = "{each}"\nexpiry = 1\nsymbol = "{symbol}"\n' for each, symbol in instruments.items())
        head = f'maker = "Client 07"\nmonth = "{self.today:%Y-%m}"\nprogramme = "programme.toml"\nprices = "prices.csv"\ncharges = "charges.csv"\nlogs = "logs/*.log"\ndays = [{self.today.day}]\n'
        self.path.write_text(head + contracts)
        before = self.today - dt.timedelta(days=1)
        (folder / "prices.csv").write_text("date,symbol,price\n" + "".join(f"{before},{symbol},84.52\n" for symbol in symbols))
        (folder / "charges.csv").write_text("date,symbol,quantum,active,passive\n")
        self.log.touch()

    def moment(self, text):
        """Seconds since 1970 of a time of today, H:MM:SS in the desk's zone."""
        hour, minute, second = map(float, text.split(":"))
        start = dt.datetime(self.today.year, self.today.month, self.today.day, tzinfo=self.zone)
        return start.timestamp() + 3600 * hour + 60 * minute + second

    def report(self, at=None, **tags):
        """A line of the log: an execution report at a moment."""
        self.number += 1
        when = dt.datetime.fromtimestamp(at or time.time(), dt.timezone.utc)
        text = f"{when:%Y%m%d-%H:%M:%S}.{when.microsecond // 1000:03}"
        fields = {"35": "8", "17": f"E{self.number}", **{key.lstrip("t"): value for key, value in tags.items()}, "60": text}
        message = fix.framed("".join(f"{tag}={value}\x01" for tag, value in fields.items()).encode())
        return f"{when:%H:%M:%S} < ".encode() + message + b"\n"

    def write(self, *lines):
        with open(self.log, "ab") as file:
            file.write(b"".join(lines))

    def new(self, symbol, oid, side, price, volume, at=None):
        self.write(self.report(at, t37=oid, t11=f"c{oid}", t150=0, t55=symbol, t54=side, t44=price, t151=volume))

    def cancel(self, symbol, oid, at=None):
        self.write(self.report(at, t37=oid, t11=f"x{oid}", t41=f"c{oid}", t150=4, t55=symbol, t54=1))

    def fill(self, symbol, oid, volume, at=None):
        self.write(self.report(at, t37=oid, t11=f"c{oid}", t150="F", t55=symbol, t54=1, t32=volume))

    def quote(self, symbol, first, at=None, wide="0.10", volume=100):
        """Both sides, with order ids from `first` on."""
        self.new(symbol, first, 1, "84.50", volume, at)
        self.new(symbol, first + 1, 2, format(84.5 + float(wide), ".2f"), volume, at)
