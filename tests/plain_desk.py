"""A desk settled the plain way, straight from its description, with the recount for the papers' part: shares no code with quoting.desk."""

import csv
import glob
import tomllib
from datetime import date, datetime, timedelta, timezone
from decimal import Decimal
from pathlib import Path
from zoneinfo import ZoneInfo

from recount import strikes, volatile
from recount.book import BUY, NO_LIMIT, SELL, Add, Amend, Book, Cancel, Close, Deal, Look, Open, Report, choose

CELLS = "date,instrument,symbol,expiry,quantum,table,eased,sp,kept,length,share,lapses,limit,verdict,weight,active,passive"


def rows_of(path):
    with open(path, newline="") as file:
        return list(csv.DictReader(file))


def time_of(text):
    """Milliseconds since 1970."""
    form = "%Y%m%d-%H:%M:%S.%f" if "." in text else "%Y%m%d-%H:%M:%S"
    at = datetime.strptime(text, form).replace(tzinfo=timezone.utc)
    return round(at.timestamp() * 1000)


def fields_of(line):
    """The tags of a message; the last value of each."""
    text = line[line.index("8=FIX") :]
    return dict(part.split("=", 1) for part in text.replace("|", "\1").strip("\1\r\n").split("\1"))


class Logs:
    """All reports of the logs in order of time, each ExecID of a symbol and account once."""

    def __init__(self, paths):
        self.reports, self.sent, seen = [], set(), set()
        for path in paths:
            for line in open(path, newline="\n"):
                m = fields_of(line)
                self.sent |= {time_of(m[tag]) // 1000 for tag in ("52", "60") if tag in m}
                if m["35"] != "8" or m["150"] not in "054C3F":
                    continue
                key = m["55"], m["1"], m["17"]
                if key not in seen:
                    seen.add(key)
                    self.reports.append(m)
        self.reports.sort(key=lambda m: time_of(m["60"]))

    def changes(self, symbol, accounts, step):
        """(time, call without its time) of one symbol's orders; ids count the orders."""
        made, orders = [], []
        for m in self.reports:
            if m["55"] != symbol or accounts is not None and m["1"] not in accounts:
                continue
            time, kind = time_of(m["60"]), m["150"]
            mine = [order for order in orders if order["account"] == m["1"]]
            if kind == "0":
                order = {"account": m["1"], "cl": m["11"], "oid": m["37"], "left": int(m["151"]), "id": len(made) + 1}
                orders.append(order)
                side = BUY if m["54"] == "1" else SELL
                made.append((time, Add, (order["id"], side, int(Decimal(m["44"]) / step), int(m["151"]))))
                continue
            named = [order for order in mine if order["cl"] == m.get("41")] if kind != "F" else []
            named = named or [order for order in mine if order["oid"] == m["37"]]
            if not named:
                continue
            order = named[-1]
            if kind == "5":
                order.update(cl=m["11"], oid=m["37"], left=int(m["151"]))
                made.append((time, Amend, (order["id"], int(Decimal(m["44"]) / step), int(m["151"]))))
            elif kind == "F":
                order["left"] -= int(m["32"])
                made.append((time, Deal, (order["id"], int(m["32"]))))
            else:
                order["left"] = 0
                made.append((time, Cancel, (order["id"],)))
            if not order["left"]:
                orders.remove(order)
        return made


def resting(changes, start):
    """The orders that rest before a time, as adds at 0, in the order in which they were entered."""
    orders = {}
    for time, kind, given in changes:
        if time >= start:
            break
        if kind is Add:
            orders[given[0]] = list(given)
        elif kind is Amend:
            orders[given[0]][2:] = given[1:]
        elif kind is Deal:
            orders[given[0]][3] -= given[1]
            if not orders[given[0]][3]:
                del orders[given[0]]
        else:
            del orders[given[0]]
    return [Add(0, *order) for order in orders.values()]


class PlainDesk:
    def __init__(self, path):
        self.folder = Path(path).parent
        self.desk = tomllib.loads(Path(path).read_text())
        self.programme = tomllib.loads((self.folder / self.desk["programme"]).read_text())
        self.prices = sorted(rows_of(self.folder / self.desk["prices"]), key=lambda row: row["date"])
        self.charges = {(row["date"], row["symbol"], int(row["quantum"])): row for row in rows_of(self.folder / self.desk["charges"])}
        names = [name for pattern in self.desk["logs"] for name in sorted(glob.glob(str(self.folder / pattern)))]
        self.logs = Logs(names)
        self.zone = ZoneInfo(self.programme["timezone"])
        self.year, self.month = map(int, self.desk["month"].split("-"))
        self.differences = sorted(rows_of(self.folder / self.desk["strikes"]), key=lambda row: row["date"]) if "strikes" in self.desk else []
        self.strike_cells = {}
        self.reasons = set()  # (date, symbol)
        self.cache = {}

    def days(self):
        if "days" in self.desk:
            return sorted(self.desk["days"])
        first = date(self.year, self.month, 1)
        every = [first + timedelta(days=at) for at in range(31)]
        return [each.day for each in every if each.month == self.month and each.weekday() < 5]

    def hours(self, day, quantum):
        ends = [datetime.combine(day, datetime.strptime(each, "%H:%M").time(), self.zone) for each in self.programme["quanta"][str(quantum)].split("-")]
        return [round(each.timestamp() * 1000) for each in ends]

    def table(self, instrument, key):
        words, step = [], Decimal(instrument["step"])
        for row in instrument.get(key, []):
            for quantum in row["quanta"]:
                start, end = self.hours(date(self.year, self.month, 2), quantum)
                a, b, p = Decimal(row.get("a", "0%")[:-1]) * 1000, Decimal(row.get("b", "0")) / step, Decimal(row["share"][:-1]) * 10
                words += [row["expiry"], quantum, end - start, row["minimum"], int(a), int(b), int(p)]
        return words

    def changes(self, contract, step):
        key = contract["symbol"], tuple(contract.get("accounts", ["every"]))
        if key not in self.cache:
            self.cache[key] = self.logs.changes(contract["symbol"], contract.get("accounts"), step)
        return self.cache[key]

    def settle(self):
        """cells.csv and months.csv."""
        cells, books = [], {}
        for day in self.days():
            for contract in self.desk["contract"]:
                if contract.get("from", 1) <= day <= contract.get("to", 31):
                    name = contract["instrument"] + (f".{contract['strike']}" if "strike" in contract else "")
                    book = books.setdefault(name, Book())
                    cells += self.settle_day(date(self.year, self.month, day), contract, book)
        cells.sort(key=lambda row: (row[0], row[1], row[3], row[4], row[2]))
        sent = {str(datetime.fromtimestamp(time, self.zone).date()) for time in self.logs.sent}
        self.reasons |= {(str(row[0]), self.desk["maker"]) for row in cells if str(row[0]) not in sent}
        lines = [CELLS, *(",".join(map(str, row)) for row in cells)]
        months = ["instrument,failed,fee"]
        for name in sorted(books):
            report = books[name].call(Report())
            months.append(f"{name},{max(report.failed)},{report.fee}")
        return "".join(line + "\n" for line in lines), "".join(line + "\n" for line in months)

    def settle_day(self, day, contract, book):
        instrument, symbol, expiry = self.programme["instruments"][contract["instrument"]], contract["symbol"], contract["expiry"]
        step, is_holiday = Decimal(instrument["step"]), day.day in self.desk.get("holidays", [])
        usual, holiday = self.table(instrument, "rows"), self.table(instrument, "holiday_rows")
        prices = [int(Decimal(row["price"]) / step) for row in self.prices if row["symbol"] == symbol and row["date"] < str(day)]
        for quantum in sorted(map(int, self.programme["quanta"])):
            words = choose(usual, holiday, is_holiday, expiry, quantum)
            if not words:
                continue
            table = "holiday" if choose([], holiday, is_holiday, expiry, quantum) else "usual"
            words, eased = self.eased(words, prices, instrument, day, symbol)
            spread = self.strike(day, contract, instrument, step) if "strike" in contract else prices[-1]
            row = self.settle_quantum(day, contract, book, quantum, table, words, eased, spread, instrument.get("lapses", NO_LIMIT), step)
            if "strike" in contract:
                self.strike_cells.setdefault((str(day), contract["instrument"], expiry, quantum), {})[contract["strike"]] = (row[8], row[9])
            yield row

    def strike(self, day, contract, instrument, step):
        """The strike's numbers, by the latest line before the day."""
        rule = instrument["strikes"][contract["strike"]]
        last = [row for row in self.differences if row["symbol"] == contract["symbol"] and row["date"] < str(day)][-1]
        return strikes.Strike(int(Decimal(rule["a"]) * 10), abs(int(Decimal(last["difference"]) / step)), int(last["days"]), int(Decimal(rule["b"]) / step))

    def boards(self):
        """boards.csv, after the cells are settled."""
        lines = ["date,instrument,expiry,quantum,strikes,verdict"]
        for key in sorted(self.strike_cells):
            found, instrument = self.strike_cells[key], self.programme["instruments"][key[1]]
            if set(found) == set(instrument["strikes"]):
                first, second = (int(share[:-1]) for share in instrument["board"])
                lines.append(",".join(map(str, [*key, len(found), strikes.board(first, second, list(found.values()))])))
            else:
                self.reasons.add((key[0], key[1]))
        return "".join(line + "\n" for line in lines)

    def eased(self, words, prices, instrument, day, symbol):
        if "threshold" not in instrument:
            return words, "no"
        try:
            inside = volatile.inside(prices, int(Decimal(instrument["threshold"][:-1]) * 10_000))
        except volatile.Refused22:
            self.reasons.add((str(day), symbol))
            return words, "no"
        if not inside:
            return words, "no"
        expiry, quantum, length, least, a, b, p = words
        return [expiry, quantum, length, -(-least // 2), min(2 * a, 100_000), min(2 * b, 1_000_000), p], "yes"

    def settle_quantum(self, day, contract, book, quantum, table, words, eased, sp, limit, step):
        start, end = self.hours(day, quantum)
        changes = self.changes(contract, step)
        charged = self.charges.get((str(day), contract["symbol"], quantum))
        if charged is None:
            self.reasons.add((str(day), contract["symbol"]))
        active, passive = (int(charged["active"]), int(charged["passive"])) if charged else (0, 0)
        inside = [kind(time - start, *given) for time, kind, given in changes if start <= time <= end]
        for call in [Open(words, day.day, sp, limit), *resting(changes, start), *inside, Close(active, passive)]:
            answer = book.call(call)
            assert type(answer).__name__ == "Accepted", (day, contract, quantum, call, answer)
        cell = book.call(Look(day.day, contract["expiry"], quantum))
        return [
            day, contract["instrument"], contract["symbol"], contract["expiry"], quantum, table, eased, sp if isinstance(sp, int) else "", cell.kept, cell.length, cell.share, cell.lapses,
            "" if limit == NO_LIMIT else limit, "met" if cell.met else "failed", cell.weight, active, passive]


