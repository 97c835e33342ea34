#!/usr/bin/env python3
"""Writes the journals of this folder: make.py [FOLDER].

Each function below is one journal, told record by record. docs/LAYOUT.md has the bytes.
"""
import datetime
import pathlib
import sys

DAY_ZERO = datetime.date(2020, 1, 1)
SUBMIT, CANCEL, DAY_LIMITS, PROPOSAL, DEFAULT, CLOSE_OUT, CLOSE_OF_DAY = range(1, 8)
BUY, SELL = 0, 1
RESTING, OEYE, TEYE = 0, 1, 2


def day(text):
    """Days since 1 January 2020."""
    return (datetime.date.fromisoformat(text) - DAY_ZERO).days


def second(text):
    hours, minutes, seconds = map(int, text.split(":"))
    return (hours * 60 + minutes) * 60 + seconds


def kurus(liras):
    whole, _, part = liras.partition(".")
    return 100 * int(whole) + int(part.ljust(2, "0"))


class Journal:
    """A journal's bytes; members are named in the order of their numbers."""

    def __init__(self, first_year, start, members, holidays=(), limit=1000):
        self.first_year = first_year
        self.members = members
        self.submits = 0
        self.orders = {}
        self.bytes = bytearray(b"VJR")
        self._put((2, 1), (2, first_year), (2, day(start)), (1, len(members)), (1, len(holidays)))
        self._put(*((2, day(holiday)) for holiday in holidays))
        self._put(*((4, limit) for _ in members))

    def _put(self, *fields):
        for width, number in fields:
            self.bytes += number.to_bytes(width, "big")

    def _member(self, name):
        return self.members.index(name)

    def contract(self, name):
        """The number of a contract named as 2022, 2022 Q1 or 2022-03."""
        if "Q" in name:
            year, k = int(name[:4]), int(name[-1])
        elif "-" in name:
            year, k = int(name[:4]), 4 + int(name[-2:])
        else:
            year, k = int(name), 0
        return 17 * (year - self.first_year) + k

    def _submit(self, time, name, side, lots, contract, price, kind, refused):
        fields = [(1, SUBMIT), (4, second(time)), (1, self._member(name)), (1, self.contract(contract))]
        self._put(*fields, (1, side), (1, kind), (4, kurus(price)), (2, lots))
        if not refused:
            self.orders[name, contract, side] = self.submits
            self.submits += 1

    def buys(self, time, name, lots, contract, price, kind=RESTING, refused=False):
        """An order to buy. Its number is that of the accepted submits before it, so a refused one has none; afterwards
        it is called by its name, contract and side."""
        self._submit(time, name, BUY, lots, contract, price, kind, refused)

    def sells(self, time, name, lots, contract, price, kind=RESTING, refused=False):
        self._submit(time, name, SELL, lots, contract, price, kind, refused)

    def deal(self, time, buyer, seller, lots, contract, price):
        """The seller's order rests, the buyer's meets it in the same second."""
        self.sells(time, seller, lots, contract, price)
        self.buys(time, buyer, lots, contract, price, OEYE)

    def cancels(self, time, order):
        self._put((1, CANCEL), (4, second(time)), (1, self._member(order[0])), (4, self.orders[order]))

    def day_limits(self, contract, low, high):
        self._put((1, DAY_LIMITS), (1, self.contract(contract)), (4, kurus(low)), (4, kurus(high)))

    def proposal(self, *legs):
        """Legs are an order, its lots and its price, in the order of the orders' numbers."""
        self._put((1, PROPOSAL), (1, len(legs)))
        for order, lots, price in legs:
            self._put((4, self.orders[order]), (2, lots), (4, kurus(price)))

    def defaults(self, name):
        self._put((1, DEFAULT), (1, self._member(name)))

    def close_out(self, contract, ratio):
        self._put((1, CLOSE_OUT), (1, self.contract(contract)), (2, ratio))

    def close_of_day(self, time="17:00:00"):
        self._put((1, CLOSE_OF_DAY), (4, second(time)))


def quiet_day():
    j = Journal(2021, start="2021-01-04", members=["Ada", "Bora", "Cem"])
    j.sells("10:00:00", "Ada", 5, "2022", "260.00")
    j.buys("10:00:10", "Bora", 3, "2022", "261.00", OEYE)
    j.buys("10:00:05", "Bora", 3, "2022", "261.00", OEYE, refused=True)
    j.day_limits("2021 Q3", "250.00", "280.00")
    j.buys("11:30:00", "Cem", 10, "2021 Q3", "249.99", refused=True)
    j.buys("11:31:00", "Cem", 10, "2021 Q3", "262.00")
    j.sells("13:45:00", "Ada", 4, "2021 Q3", "262.50")
    j.sells("13:45:30", "Bora", 4, "2021 Q3", "261.50", TEYE)
    j.cancels("16:20:00", ("Ada", "2021 Q3", SELL))
    j.cancels("16:20:00", ("Ada", "2021 Q3", SELL))
    j.close_of_day()
    return j


def year_end():
    j = Journal(2020, start="2020-12-21", members=["Ada", "Bora"], holidays=["2020-12-31", "2021-01-01"])
    j.deal("10:00:00", "Ada", "Bora", 4, "2021", "300.00")
    j.deal("10:30:00", "Bora", "Ada", 1, "2021 Q1", "310.00")
    j.close_of_day()  # Monday 21 December
    j.close_of_day()
    j.close_of_day()
    j.buys("15:00:00", "Bora", 2, "2021", "299.00")  # Thursday 24 December
    j.close_of_day()  # the year closes: its rows go to its quarters, Bora's order goes
    j.cancels("10:00:00", ("Bora", "2021", BUY))  # Friday 25 December
    j.buys("10:00:00", "Bora", 2, "2021", "299.00", refused=True)
    j.close_of_day()
    j.close_of_day()  # Monday 28 December: the first quarter and January close
    j.deal("11:00:00", "Bora", "Ada", 3, "2021-02", "305.00")  # Tuesday 29 December
    j.close_of_day()
    j.close_of_day()  # Wednesday 30 December; the next business day is Monday 4 January
    j.buys("09:30:00", "Ada", 1, "2021-01", "305.00", refused=True)
    j.close_of_day()
    return j


def default():
    j = Journal(2024, start="2024-01-02", members=["Ada", "Bora", "Cem", "Deniz", "Ece", "Filiz"])
    j.deal("10:00:00", "Deniz", "Bora", 10, "2024-02", "275.00")  # Tuesday 2 January
    j.deal("10:15:00", "Ece", "Bora", 15, "2024-02", "277.00")
    j.deal("10:30:00", "Ada", "Filiz", 5, "2024-02", "276.00")
    j.deal("10:45:00", "Cem", "Ada", 20, "2024-02", "279.00")
    j.close_of_day()  # GGF of February: 277.30
    j.deal("10:00:00", "Bora", "Deniz", 10, "2024-02", "276.00")  # Wednesday 3 January
    j.deal("10:10:00", "Ada", "Deniz", 5, "2024-03", "270.00")
    j.deal("10:20:00", "Filiz", "Deniz", 5, "2024-03", "270.00")
    j.deal("10:30:00", "Ada", "Ece", 10, "2024-04", "268.00")
    j.buys("11:00:00", "Ece", 5, "2024 Q3", "290.00")
    j.close_of_day()
    j.defaults("Ece")  # Thursday 4 January
    j.defaults("Filiz")
    j.buys("09:05:00", "Ece", 1, "2024-02", "277.00", refused=True)
    j.sells("09:10:00", "Ada", 5, "2024 Q3", "290.00", TEYE, refused=True)
    j.close_out("2024-02", ratio=200)
    j.close_out("2024-02", ratio=200)
    j.close_out("2024-03", ratio=1000)
    j.buys("10:00:00", "Bora", 50, "2024-03", "270.00")
    j.sells("10:00:00", "Cem", 50, "2024-03", "271.01")
    j.close_of_day()  # GGF of March: 270.51
    j.close_out("2024-03", ratio=1000)  # Friday 5 January
    return j


def synthetic():
    j = Journal(2021, start="2021-01-04", members=["Ada", "Bora", "Cem", "Deniz"])
    j.buys("10:00:00", "Ada", 1, "2022 Q1", "310.00")
    j.sells("10:01:00", "Bora", 1, "2022-01", "310.00")
    j.sells("10:02:00", "Cem", 1, "2022-02", "305.00")
    j.sells("10:03:00", "Bora", 1, "2022-03", "300.00")
    quarter, january = ("Ada", "2022 Q1", BUY), ("Bora", "2022-01", SELL)
    february, march = ("Cem", "2022-02", SELL), ("Bora", "2022-03", SELL)
    j.proposal((quarter, 1, "310.00"), (january, 1, "310.00"), (february, 1, "310.00"), (march, 1, "309.00"))
    j.sells("10:05:00", "Deniz", 1, "2022-01", "309.00")
    j.proposal((quarter, 1, "310.00"), (january, 1, "310.00"), (february, 1, "310.00"), (march, 1, "310.00"))
    j.cancels("10:06:00", ("Deniz", "2022-01", SELL))
    j.proposal((quarter, 1, "310.00"), (january, 1, "310.00"), (february, 1, "310.00"), (march, 1, "310.00"))
    j.cancels("10:07:00", quarter)
    j.close_of_day()
    return j


def bad_record():
    j = Journal(2021, start="2021-01-04", members=["Ada", "Bora"])
    j.sells("10:00:00", "Ada", 1, "2022", "260.00")
    j.buys("10:00:10", "Bora", 1, "2022", "260.00")
    j.sells("10:00:20", "Ada", 256, "2022", "260.00", refused=True)  # one lot, its two bytes exchanged
    j.buys("10:00:30", "Bora", 1, "2022", "260.00")
    j.close_of_day()
    return j


def winter():
    members = ["Ada", "Bora", "Cem", "Deniz"]
    j = Journal(2022, start="2022-12-19", members=members, holidays=["2022-12-30", "2023-01-02"])
    j.deal("10:00:00", "Ada", "Bora", 10, "2023", "3200.00")  # Monday 19 December
    j.close_of_day()
    j.deal("10:00:00", "Cem", "Deniz", 5, "2023 Q1", "3400.00")
    j.close_of_day()
    j.close_of_day()
    j.close_of_day()
    j.close_of_day()  # Friday 23 December: the year closes
    j.close_of_day()
    j.buys("10:00:00", "Cem", 20, "2023 Q2", "3000.00")  # Tuesday 27 December
    j.sells("10:00:00", "Deniz", 20, "2023 Q2", "3001.00")
    j.close_of_day()  # GGF of the second quarter: 3000.50; the first quarter and January close
    j.defaults("Bora")  # Wednesday 28 December
    j.close_out("2023 Q2", ratio=500)
    j.close_of_day()
    return j


STORIES = [quiet_day, year_end, default, synthetic, bad_record, winter]


def main():
    folder = pathlib.Path(sys.argv[1] if len(sys.argv) > 1 else pathlib.Path(__file__).parent)
    for story in STORIES:
        (folder / f"{story.__name__}.vjr").write_bytes(story().bytes)


if __name__ == "__main__":
    main()
