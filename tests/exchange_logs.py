"""Random logs of an exchange session: reports and requests on few ids, so that most of what can go wrong does, and damage to the bytes."""

import random

from quoting import fix

SYMBOLS, ACCOUNTS = ["BR", "GD-12.26", "XX", ""], ["A7", "B2", ""]
PRICES = ["84.35", "84.350", "84", "84.355", "-3.1", "-0", ".5", "5.", "1e3", "", "99999999999", "0.00000001", "84.3500000000"]
VOLUMES = ["5", "10", "0", "7.0", "7.5", "4294967295", "4294967296", "-1", "12345678901234567", "x"]
TIMES = ["", ".250", ".250999", ".250999123", ".25", ".2509", ".xyz"]
EXECUTIONS = "000005555DD444C3FFFFF12GH8A6EI7Z"


class Maker:
    """Writes messages with increasing times; some values are out of the ordinary."""

    def __init__(self, r: random.Random, ids: int = 6, oddness: float = 0.05) -> None:
        self.r, self.ids, self.oddness, self.second, self.execution = r, ids, oddness, 0, 0
        self.separator = r.choice([b"\x01", b"|"])
        self.kept: list[bytes] = []

    def odd(self) -> bool:
        return self.r.random() < self.oddness

    def time(self) -> str:
        self.second += self.r.choice([0, 0, 1, 40])
        second = self.second - (self.r.choice([0, 100, 5000]) if self.odd() else 0)
        clock = f"20261116-{7 + second // 3600 % 16:02}:{second // 60 % 60:02}:{second % 60:02}" if second >= 0 else "20261115-23:59:59"
        return self.r.choice(["20261131-10:00:00", "20261116-24:00:00", "junk"]) if self.odd() and self.odd() else clock + (self.r.choice(TIMES) if self.odd() else ".125")

    def id(self, kind: str) -> str:
        number = self.r.randrange(self.ids)
        return f"{kind}{number}" + ("-long-enough-for-a-mix-" * 2 if number == 0 else "x" * 13 if number == 1 else "")

    def whose(self) -> str:
        symbol = self.r.choice(SYMBOLS) if self.odd() else self.r.choice(SYMBOLS[:2])
        account = self.r.choice(ACCOUNTS) if self.odd() else ACCOUNTS[0]
        return (f"55={symbol}|" if symbol else "") + (f"1={account}|" if account else "")

    def terms(self, volume: int) -> str:
        price = self.r.choice(PRICES) if self.odd() else f"84.{self.r.randrange(100):02}"
        size = self.r.choice(VOLUMES) if self.odd() else str(self.r.randrange(1, 20))
        extra = f"40={self.r.choice(['1', '2', '4', '22'])}|" if self.odd() else ""
        force = f"59={self.r.choice(['0', '3', '4', '44'])}|" if self.odd() else ""
        side = self.r.choice(["5", "", "12"]) if self.odd() else self.r.choice("12")
        return f"54={side}|" * bool(side) + f"44={price}|" * bool(price) + f"{volume}={size}|{extra}{force}"

    def report(self) -> str:
        kind = self.r.choice(EXECUTIONS)
        self.execution += not self.odd()
        body = f"35=8|37={self.id('O')}|17=E{self.execution}|150={kind}|{self.whose()}60={self.time()}|"
        body += "" if self.odd() else f"11={self.id('C')}|"
        body += f"41={self.id('C')}|" if self.r.random() < 0.5 else ""
        if kind in "05D":
            body += self.terms(151)
        elif kind in "F12":
            body += f"32={self.r.choice(VOLUMES) if self.odd() else self.r.randrange(1, 12)}|"
        return body

    def request(self) -> str:
        kind = self.r.choice("DDFGG")
        body = f"35={kind}|11={self.id('C')}|{self.whose()}60={self.time()}|"
        body += f"41={self.id('C')}|" if kind != "D" and not self.odd() else ""
        return body + (self.terms(38) if kind != "F" else "")

    def sent(self) -> str:
        """When the message was sent: most often in an hour of its day."""
        hour, odd = f"202611{self.r.randrange(16, 19)}-{self.r.randrange(24):02}", ["20261131-07", "20261116-24", "20261116 07", "2026-11-16T07", "", "x" * 11]
        return f"52={self.r.choice(odd) if self.odd() else hour}:00:00.000|" * (1 + (self.odd() and self.odd()))

    def message(self, requests: float) -> bytes:
        if self.kept and self.odd():
            return self.r.choice(self.kept)
        body = self.request() if self.r.random() < requests else self.report()
        if self.odd():
            body = self.r.choice(["35=0|", "35=9|11=C1|", "35=ABCDE|", "35=AE|", body + "55=BR|", body + "11=zz|", body + "58=a=b 8=FIX.4.4|", body + "bad|", body + "|"])
        if self.r.random() < 0.7:
            body += self.sent()
        made = fix.framed(body.replace("|", "\x01").encode())
        if self.odd():
            made = made[:-1]
        if not (self.odd() and self.odd()):
            made = made.replace(b"\x01", self.separator)
        self.kept.append(made)
        return made

    def log(self, count: int, requests: float) -> bytes:
        parts = []
        for _ in range(count):
            before = self.r.choice([b"", b"", b"10:00 > ", b"\n", b"\r\n", b"\r", b"8=FIX.4", b"8=FIXT.1.1|"]) if self.odd() else b"07:00 < "
            parts.append(before + self.message(requests) + (b"" if self.odd() else b"\n"))
        return bytes(self.damaged(bytearray(b"".join(parts))))

    def damaged(self, data: bytearray) -> bytearray:
        for _ in range(self.r.choice([0, 0, 1, 4])):
            at = self.r.randrange(len(data))
            data[at : at + self.r.randrange(3)] = bytes([self.r.choice([0, 1, 48, 56, 57, 61, 124, self.r.randrange(256)])]) * self.r.randrange(3)
        return data[: self.r.randrange(len(data))] if self.odd() and data else data


def cut(r: random.Random, data: bytes) -> list[bytes]:
    """The bytes in pieces of random sizes."""
    places = sorted(r.randrange(len(data) + 1) for _ in range(r.choice([0, 1, 3, 20])))
    return [data[start:end] for start, end in zip([0, *places], [*places, len(data)])]
