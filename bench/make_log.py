#!/usr/bin/env python3
"""make_log.py COUNT OUT [--moving] [--echo] [--rough] [--seed N]: a log with execution reports, and what really happened.

Writes OUT.log, both directions of a session, and OUT.SYMBOL.events, records of 20 bytes of what the exchange did. COUNT messages or a few
more. Several symbols, decimal prices, alphanumeric ids, partial fills, replaces, rejects, cancels that nobody asked for, resends with
43=Y, heartbeats, times before each message.
--moving   the exchange gives an order a new OrderID (37) with each replace
--echo     fills carry the 41 of the last replace
--rough    also damaged messages, a message cut off at the end, orders whose new was before the log, prices off the step, ids again
"""
import argparse
import random
import struct

RECORD = struct.Struct("<4BIIiI")
LENGTH = 31_500_000
SYMBOLS = {"BR-1.27": 8452, "GOLD-12.26": 265_310, "Si-12.26": -120}
ALPHABET = "ABCDEFGHJKLMNPQRSTUVWXYZ0123456789"


class Maker:
    def __init__(self, given):
        self.given, self.r = given, random.Random(given.seed)
        self.log, self.count, self.t, self.sequence = open(given.out + ".log", "wb"), 0, 0, {"MAKER": 0, "EXCH": 0}
        self.live = {symbol: {} for symbol in SYMBOLS}
        self.happened = {symbol: [] for symbol in SYMBOLS}
        self.next_cl = self.next_order = self.next_exec = 0
        self.kept = []  # the last reports, for resends

    # ---- writing
    def time(self, t, millis=True):
        t += 36_000_000
        clock = "%02d:%02d:%02d" % (t // 3600000, t // 60000 % 60, t // 1000 % 60)
        return "20261102-" + clock + (".%03d" % (t % 1000) if millis else "")

    def message(self, sender, kind, body, resent=False):
        self.sequence[sender] += not resent
        other = "EXCH" if sender == "MAKER" else "MAKER"
        head = f"35={kind}|49={sender}|56={other}|34={self.sequence[sender]}|52={self.time(self.t)}|" + ("43=Y|" if resent else "")
        text = (head + body).encode().replace(b"|", b"\x01")
        front = b"8=FIX.4.4\x019=%d\x01" % len(text) + text
        whole = front + b"10=%03d\x01" % (sum(front) % 256)
        self.put(whole, sender)

    def put(self, whole, sender):
        if self.given.rough and self.r.random() < 0.002:
            place = self.r.randrange(len(whole))
            whole = whole[:place] + bytes([self.r.randrange(256)]) * self.r.randrange(3) + whole[place + 1 :]
        arrow = b">" if sender == "MAKER" else b"<"
        self.log.write(self.time(self.t).encode()[9:] + b" " + arrow + b" " + whole + b"\n")
        self.count += 1

    def report(self, kind, order, **also):
        self.next_exec += 1
        fields = {37: order["oid"], 11: order["cl"], 17: f"X{self.next_exec:09d}-{order['symbol'][:2]}", 150: kind, 39: "0", 1: order["account"],
                  55: order["symbol"], 54: order["side"], 38: order["whole"], 44: self.price(order), 151: order["left"], 14: 0, 6: 0, 60: self.time(self.t)}
        fields.update({int(tag[1:]): value for tag, value in also.items()})
        body = "".join(f"{tag}={value}|" for tag, value in fields.items() if value is not None)
        self.message("EXCH", "8", body)
        self.kept = self.kept[-30:] + [body]

    def price(self, order):
        steps = order["price"]
        if order["symbol"] == "GOLD-12.26":
            return f"{steps // 10}.{steps % 10}" if steps % 10 or self.r.random() < 0.5 else f"{steps // 10}"
        sign, steps = ("-", -steps) if steps < 0 else ("", steps)
        return f"{sign}{steps // 100}.{steps % 100:02d}"

    def event(self, order, kind, price=0, volume=0):
        self.happened[order["symbol"]].append(RECORD.pack(kind, 0, 0, 0, self.t, order["number"], price, volume))

    # ---- what a maker and an exchange do
    def cl(self):
        self.next_cl += 1
        return f"MM7{self.r.choice(ALPHABET)}{self.r.choice(ALPHABET)}-{self.next_cl:07d}"

    def oid(self):
        self.next_order += 1
        return f"{18900000000000000 + self.next_order * 37}"

    def terms(self, symbol):
        side = self.r.choice([1, 2])
        away = 3 + self.r.randrange(6)
        return side, SYMBOLS[symbol] + (away if side == 2 else -away), self.r.randrange(100, 1500)

    def new(self, symbol):
        side, price, volume = self.terms(symbol)
        order = {"symbol": symbol, "side": side, "price": price, "left": volume, "whole": volume, "cl": self.cl(), "oid": "NONE", "account": self.r.choice(["A1", "A2-MAKER"])}
        self.message("MAKER", "D", f"11={order['cl']}|1={order['account']}|55={symbol}|54={side}|38={volume}|40=2|44={self.price(order)}|60={self.time(self.t)}|")
        order["oid"] = self.oid()
        if self.r.random() < 0.02:
            self.report("8", order, _151=0, _58="not now")
            return
        if self.r.random() < 0.1:
            self.report("A", order)
        order["number"] = self.next_order
        self.report("0", order)
        self.live[symbol][order["number"]] = order
        self.event(order, side, price, volume)

    def replace(self, order):
        cl = self.cl()
        _, price, volume = self.terms(order["symbol"])
        price = SYMBOLS[order["symbol"]] + abs(price - SYMBOLS[order["symbol"]]) * (1 if order["side"] == 2 else -1)
        asked = {**order, "cl": cl, "price": price}
        self.message("MAKER", "G", f"11={cl}|41={order['cl']}|55={order['symbol']}|54={order['side']}|38={volume}|40=2|44={self.price(asked)}|60={self.time(self.t)}|")
        if self.r.random() < 0.03:
            self.message("EXCH", "9", f"37={order['oid']}|11={cl}|41={order['cl']}|39=0|434=2|102=1|58=too late|")
            return
        if self.r.random() < 0.1:
            self.report("E", asked, _41=order["cl"])
        before = order["cl"]
        order.update(cl=cl, price=price, left=volume, whole=volume, before=before)
        if self.given.moving:
            order["oid"] = self.oid()
        self.report("5", order, _41=before)
        self.event(order, 3, price, volume)

    def cancel(self, order):
        if self.r.random() < 0.2:  # nobody asked for it
            self.report(self.r.choice("4C3"), order, _151=0)
        else:
            cl = self.cl()
            self.message("MAKER", "F", f"11={cl}|41={order['cl']}|55={order['symbol']}|54={order['side']}|60={self.time(self.t)}|")
            if self.r.random() < 0.2:
                self.report("6", order, _11=cl, _41=order["cl"])
            self.report("4", order, _11=cl, _41=order["cl"], _151=0)
        self.event(order, 4)
        del self.live[order["symbol"]][order["number"]]

    def fill(self, order):
        dealt = self.r.randrange(1, order["left"] + 1) if self.r.random() < 0.7 else order["left"]
        order["left"] -= dealt
        also = {"_41": order["before"]} if self.given.echo and "before" in order else {}
        self.report("F", order, _32=dealt, _31=self.price(order), _39="1" if order["left"] else "2", **also)
        self.event(order, 5, 0, dealt)
        if not order["left"]:
            del self.live[order["symbol"]][order["number"]]

    def rough(self):
        order = {"symbol": "BR-1.27", "side": 1, "price": 8440, "left": 10, "whole": 10, "cl": self.cl(), "oid": self.oid(), "account": "A1"}
        kind = self.r.randrange(7)
        if kind == 0:
            self.report(self.r.choice("4F"), order, _32=5)  # an order that the log does not know
        elif kind == 1:
            self.report("5", order, _41=self.cl())
        elif kind == 2:
            self.report("0", order, _44="84.455")
        elif kind == 3:
            self.report("0", order, _60="20261102-09:59:59.999")
        elif kind == 4:
            self.report("0", order, _151=self.r.choice(["ten", "-1", "", None, "99999999999"]))
        elif kind == 5 and self.live["BR-1.27"]:
            other = self.r.choice(list(self.live["BR-1.27"].values()))
            self.report("F", other, _41=order["cl"], _32=0)
        elif self.live["BR-1.27"]:
            other = self.r.choice(list(self.live["BR-1.27"].values()))
            self.report("0", {**order, "cl": other["cl"]})  # a ClOrdID that a live order has
            self.report("5", order, _41=other["cl"])

    def turn(self):
        symbol = self.r.choice(list(SYMBOLS))
        live, chance = self.live[symbol], self.r.random()
        if chance < 0.005:
            self.message("EXCH", "0", "")
        elif chance < 0.008 and self.kept:
            for body in self.kept[-self.r.randrange(1, 30) :]:
                self.message("EXCH", "8", body, resent=True)
        elif self.given.rough and chance < 0.012:
            self.rough()
        elif len(live) < 8 or (chance < 0.1 and len(live) < 50):
            self.new(symbol)
        else:
            order = self.r.choice(list(live.values()))
            (self.cancel if chance < 0.15 else self.fill if chance < 0.25 else self.replace)(order)

    def run(self):
        self.message("MAKER", "A", "98=0|108=30|")
        while self.count < self.given.count:
            self.t = self.count * LENGTH // self.given.count
            self.turn()
        if self.given.rough:
            self.log.write(b"8=FIX.4.4\x019=200\x0135=8\x0134=1\x01 and here it ends")
        for symbol, records in self.happened.items():
            open(f"{self.given.out}.{symbol}.events", "wb").write(b"".join(records))


parser = argparse.ArgumentParser()
parser.add_argument("count", type=int)
parser.add_argument("out")
for flag in ("--moving", "--echo", "--rough"):
    parser.add_argument(flag, action="store_true")
parser.add_argument("--seed", type=int, default=1)
Maker(parser.parse_args()).run()
