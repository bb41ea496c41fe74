"""Random desks for tests: their files, with logs of both directions in which orders are entered, requoted, filled, lost and carried over."""

import random
from datetime import date, datetime, timedelta, timezone
from decimal import Decimal

PROGRAMME = """name = "A programme"
timezone = "Europe/Moscow"

[quanta]
0 = "07:00-10:00"
1 = "10:00-18:45"
2 = "19:00-23:50"

[instruments.brent]
step = "0.01"
rows = [ { expiry = 1, quanta = [1, 2], minimum = 300, a = "0.15%", b = "0.03", share = "60%" },
  { expiry = 2, quanta = [1], minimum = 200, a = "0.2%", b = "0.04", share = "65%" } ]

[instruments.gold]
step = "0.1"
threshold = "1.5%"
rows = [ { expiry = 1, quanta = [1, 2], minimum = 500, a = "0.1%", b = "0.8", share = "60%" },
  { expiry = 2, quanta = [1, 2], minimum = 251, a = "0.125%", b = "0.9", share = "60%" } ]

[instruments.mini]
step = "10"
threshold = "0.9%"
lapses = 3
rows = [ { expiry = 1, quanta = [0, 1, 2], minimum = 100, a = "0.155%", b = "0", share = "72.5%" } ]
holiday_rows = [ { expiry = 1, quanta = [1], minimum = 150, a = "0.31%", b = "0", share = "70%" } ]

[instruments.usd]
step = "0.5"
rows = [ { expiry = 1, quanta = [1, 2], minimum = 100, share = "50%" } ]
board = ["40%", "45%"]

[instruments.usd.strikes]
CALL = { a = "7.5", b = "0.5" }
PUT = { a = "10", b = "0.5" }
"""
STEPS = {"BR": Decimal("0.01"), "GD": Decimal("0.1"), "MM": Decimal("10"), "US": Decimal("0.5")}
LEVELS = {"BR": 8450, "GD": 39500, "MM": 12500, "US": 2000}  # in steps
STRIKES = {"US-C": "CALL", "US-P": "PUT"}
CONTRACTS = [  # instrument, expiry, symbol, from, to, accounts
    ("brent", 1, "BR-1.27", 0, 3, ["A7"]), ("brent", 1, "BR-2.27", 3, 99, ["A7"]), ("brent", 2, "BR-2.27", 0, 3, ["A7"]), ("brent", 2, "BR-3.27", 3, 99, ["A7"]),
    ("gold", 1, "GD-12.26", 0, 99, ["A7", "C3"]), ("gold", 2, "GD-3.27", 0, 99, None), ("mini", 1, "MM-12.26", 0, 99, ["C3"]),
    ("usd", 1, "US-C", 0, 99, ["A7"]), ("usd", 1, "US-P", 1, 99, ["A7"]),
]
OWNERS = [(symbol, account) for symbol in sorted({each[2] for each in CONTRACTS}) for account in ("A7", "B2", "C3")]


def text_time(ms, with_ms=True):
    at = datetime.fromtimestamp(ms / 1000, timezone.utc)
    return f"{at:%Y%m%d-%H:%M:%S}" + (f".{ms % 1000:03}" if with_ms else "")


def framed(body):
    front = f"8=FIX.4.4\1" f"9={len(body)}\1{body}"
    return f"{front}10={sum(front.encode()) % 256:03}\1"


class Exchange:
    """Writes messages into files by day and connection."""

    def __init__(self, rng):
        self.rng, self.lines, self.exec, self.oid = rng, {}, 1000, 7 * 10**17
        self.counts = {}

    def count(self, what):
        self.counts[what] = self.counts.get(what, 0) + 1

    def write(self, ms, kind, tags, direction="<", day=None):
        body = "".join(f"{tag}={value}\1" for tag, value in [("35", kind), ("49", "X"), ("56", "M"), ("52", text_time(ms)), *tags])
        key = text_time(ms)[:8] if day is None else day
        side = "north" if dict(tags).get("55", "B")[0] in "BG" else "south"
        self.lines.setdefault((key, side), []).append((ms, f"{text_time(ms)[9:]} {direction} {framed(body)}\n"))

    def report(self, ms, execution, order, **more):
        self.exec += 1
        self.count(execution)
        tags = [("37", order["oid"]), ("11", more.pop("cl", order["cl"])), ("17", f"E{self.exec}"), ("150", execution), ("39", execution), ("1", order["account"])]
        tags += [("55", order["symbol"]), ("54", order["side"]), ("151", more.pop("left", order["left"]))]
        tags += [(key.lstrip("t"), value) for key, value in more.items()] + [("60", text_time(ms, order["symbol"][0] != "M"))]
        self.write(ms, "8", tags)
        if self.rng.random() < 0.03:  # the same report once more, by a resend
            self.count("resent")
            self.write(ms + 60_000, "8", [("43", "Y"), *tags], day=text_time(ms)[:8])


class Maker:
    """One account's orders in one symbol."""

    def __init__(self, exchange, symbol, account):
        self.exchange, self.symbol, self.account, self.rng = exchange, symbol, account, exchange.rng
        self.orders, self.next = [], 0
        self.level, self.step = LEVELS[symbol[:2]], STEPS[symbol[:2]]

    def price(self, side):
        away = max(1, self.level * self.rng.choice((3, 4, 7, 12)) // 10_000)
        return (self.level - away if side == 1 else self.level + away) * self.step

    def name(self):
        self.next += 1
        return f"{'abAB'[self.next % 4]}{self.next}"

    def act(self, ms):
        """Something happens: mostly a requote."""
        if self.symbol[0] == "M":
            ms -= ms % 1000
        roll = self.rng.random()
        if len(self.orders) < 2 or (roll < 0.3 and len(self.orders) < 9):
            self.new(ms)
        elif roll < 0.62:
            self.replace(ms)
        elif roll < 0.78:
            self.remove(ms, self.rng.choice("44C3"))
        elif roll < 0.95:
            self.fill(ms)
        else:
            self.reject(ms)

    def new(self, ms):
        sides = [order["side"] for order in self.orders]
        side = 1 if sides.count(1) <= sides.count(2) else 2
        self.exchange.oid += 1
        order = {"cl": self.name(), "oid": self.exchange.oid, "account": self.account, "symbol": self.symbol, "side": side, "left": self.rng.choice((120, 250, 300, 600))}
        price = self.price(side)
        request = [("11", order["cl"]), ("1", self.account), ("55", self.symbol), ("54", side), ("38", order["left"]), ("40", "2"), ("44", price), ("60", text_time(ms))]
        self.exchange.write(ms, "D", request, ">")
        self.exchange.report(ms, "A", order, t44=price)
        self.exchange.report(ms, "0", order, t44=price)
        self.orders.append(order)

    def replace(self, ms):
        order = self.rng.choice(self.orders)
        old, order["cl"], order["left"] = order["cl"], self.name(), self.rng.choice((120, 250, 300, 600))
        if self.rng.random() < 0.5:
            self.exchange.oid += 1
            order["oid"] = self.exchange.oid
        self.exchange.report(ms, "5", order, t41=old, t44=self.price(order["side"]))

    def remove(self, ms, execution):
        order = self.orders.pop(self.rng.randrange(len(self.orders)))
        asked = {"cl": self.name(), "t41": order["cl"]} if execution == "4" and self.rng.random() < 0.6 else {}
        self.exchange.report(ms, execution, order, left=0, **asked)

    def fill(self, ms):
        order = self.rng.choice(self.orders)
        dealt = min(order["left"], self.rng.choice((40, 120, 600)))
        order["left"] -= dealt
        self.exchange.report(ms, "F", order, t32=dealt)
        if not order["left"]:
            self.orders.remove(order)

    def reject(self, ms):
        order = self.rng.choice(self.orders)
        self.exchange.report(ms, "8", {**order, "cl": self.name()}, t41=order["cl"], t44=self.price(order["side"]))


def prices(rng, folder, days):
    """Settlement prices from 60 days before the month on; gold is calm first, and disturbed inside the month."""
    lines = ["date,symbol,price"]
    for symbol in sorted({each[2] for each in CONTRACTS} - set(STRIKES)):
        level, short = LEVELS[symbol[:2]], symbol == "MM-12.26"
        first = days[0] - timedelta(days=25 if short else 60)
        for at in range(100):
            day = first + timedelta(days=at)
            if day > days[-1]:
                break
            wild = day >= days[1] and symbol[0] in "GM"
            level += rng.randrange(-level // 25, level // 25) if wild else rng.randrange(-level // 400, level // 400 + 1)
            lines.append(f"{day},{symbol},{level * STEPS[symbol[:2]]}")
    (folder / "prices.csv").write_text("\n".join([lines[0], *rng.sample(lines[1:], len(lines) - 1)]) + "\n")


def strikes(rng, folder, days):
    """Two lines of each strike before the month, and one on some of its days."""
    lines = ["date,symbol,difference,days"]
    for symbol in STRIKES:
        for at, day in enumerate([days[0] - timedelta(days=9), days[0] - timedelta(days=2), *days[1:4]]):
            lines.append(f"{day},{symbol},{rng.choice((-1, 1)) * rng.choice((0, 1, 2, 6)) * STEPS['US']},{30 - at}")
    (folder / "strikes.csv").write_text("\n".join([lines[0], *rng.sample(lines[1:], len(lines) - 1)]) + "\n")


def charges(rng, folder, days, left_out):
    lines = ["date,symbol,quantum,active,passive"]
    for day in days:
        for symbol in sorted({each[2] for each in CONTRACTS}):
            for quantum in (0, 1, 2):
                if (day, symbol, quantum) not in left_out:
                    lines.append(f"{day},{symbol},{quantum},{rng.randrange(2_000_000)},{rng.randrange(2_000_000)}")
    (folder / "charges.csv").write_text("\n".join(lines) + "\n")


def desk_toml(days, holidays):
    out = ['maker = "M"', 'month = "2026-11"', 'programme = "programme.toml"', 'prices = "prices.csv"', 'charges = "charges.csv"', 'logs = ["logs/*.log"]', 'strikes = "strikes.csv"']
    out += [f"days = {[day.day for day in days]}", f"holidays = {[day.day for day in holidays]}"]
    for instrument, expiry, symbol, first, last, accounts in CONTRACTS:
        out += ["[[contract]]", f'instrument = "{instrument}"', f"expiry = {expiry}", f'symbol = "{symbol}"']
        out += [f"from = {days[first].day}"] if first else []
        out += [f"to = {days[last].day - 1}"] if last < len(days) else []
        out += [f"accounts = {accounts}".replace("'", '"')] if accounts else []
        out += [f'strike = "{STRIKES[symbol]}"'] if symbol in STRIKES else []
    return "\n".join(out) + "\n"


def write(folder, seed, events):
    """A desk of six days with so many things happening in each symbol and account on each day; how often each kind of report is there."""
    rng = random.Random(seed)
    days = [date(2026, 11, day) for day in (2, 3, 4, 5, 6, 9)]
    exchange = Exchange(rng)
    makers = [Maker(exchange, *owner) for owner in OWNERS]
    for day in days:
        start = round(datetime(day.year, day.month, day.day, 3, 40, tzinfo=timezone.utc).timestamp() * 1000)  # 06:40 in Moscow
        for maker in makers:
            times = sorted(start + rng.randrange(17 * 3_600_000 + 900_000) for _ in range(events))
            edges = [start + at * 60_000 for at in (20, 200, 725, 740, 1030) if rng.random() < 0.4]  # ends and starts of quanta
            for ms in sorted([*times, *edges]):
                maker.act(ms)
    (folder / "logs").mkdir(parents=True)
    for (day, side), lines in exchange.lines.items():
        bar = side == "south"
        text = "".join(line.replace("\1", "|") if bar else line for _, line in sorted(lines, key=lambda each: each[0]))
        (folder / "logs" / f"{day}-{side}.log").write_text(text)
    (folder / "programme.toml").write_text(PROGRAMME)
    (folder / "desk.toml").write_text(desk_toml(days, [days[2]]))
    prices(rng, folder, days)
    strikes(rng, folder, days)
    charges(rng, folder, days, {(days[1], "GD-12.26", 2)})
    return exchange.counts
