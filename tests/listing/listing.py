#!/usr/bin/env python3
"""A listing of a journal, written from document 01 apart from the program: what must be printed, and the exit status."""
import datetime

SPAN_YEARS, DAY_ZERO = 6, datetime.date(2020, 1, 1)
LISTED, HEADER, RECORD = 0, 2, 3
KINDS = {1: "submit", 2: "cancel", 3: "day limits", 4: "proposal", 5: "default", 6: "close-out", 7: "close of day"}
PRICE = ("price", 4, (1, 1_000_000))
LOTS = ("lots", 2, (1, 100))
ORDER = ("order", 4, (0, 2**32 - 1))
TIME = ("time", 4, (0, 86_399))
CONTRACT = ("contract", 1, (0, 101))


class Fault(Exception):
    """The first field that is wrong, as it is said."""


class Reader:
    def __init__(self, data, at):
        self.data, self.at, self.words = data, at, ""

    def field(self, name, size, allowed):
        """The next number; a fault where the bytes end before it or it is out of its range."""
        if len(self.data) < self.at + size:
            raise Fault(f"; byte {len(self.data)}: {name} cut off")
        taken = self.data[self.at : self.at + size]
        least, most = allowed
        value, turned = int.from_bytes(taken, "big"), int.from_bytes(taken, "little")
        if not least <= value <= most:
            hint = f"; the other way round {turned}" if least <= turned <= most else ""
            raise Fault(f"; byte {self.at}: {name} {value} out of {least} to {most}{hint}")
        self.at += size
        return value

    def wrong_day(self, name, value, why):
        raise Fault(f"; byte {self.at - 2}: {name} {value} is {why}")

    def named(self, name, size, allowed, said=str):
        value = self.field(name, size, allowed)
        self.words += f" {name} {said(value)}"
        return value


def price(kurus):
    return f"{kurus // 100}.{kurus % 100:02}"


def contract_name(first_year, number):
    year, place = first_year + number // 17, number % 17
    name = f"{year}" if place == 0 else f"{year} Q{place}" if place < 5 else f"{year}-{place - 4:02}"
    return f"{number} ({name})"


def span(first_year):
    return ((datetime.date(first_year, 1, 1) - DAY_ZERO).days, (datetime.date(first_year + SPAN_YEARS, 1, 1) - DAY_ZERO).days - 1)


def header(reader):
    for letter in b"VJR":
        reader.words += chr(reader.field("letter", 1, (letter, letter)))
    reader.named("version", 2, (1, 1))
    first_year = reader.named("first year", 2, (2020, 2094))
    days = span(first_year)
    start = reader.field("start day", 2, days)
    if (DAY_ZERO + datetime.timedelta(start)).weekday() >= 5:
        reader.wrong_day("start day", start, "no business day")
    reader.words += f" start day {start}"
    members = reader.named("members", 1, (1, 32))
    least = days[0]
    for _ in range(reader.named("holidays", 1, (0, 120))):
        holiday = reader.field("holiday", 2, (least, days[1]))
        if holiday == start:
            reader.wrong_day("holiday", holiday, "the start day")
        reader.words += f" holiday {holiday}"
        least = holiday + 1
    for _ in range(members):
        reader.named("limit", 4, (0, 100_000))
    return first_year, members


def record(reader, first_year, members):
    kind = reader.field("kind", 1, (1, 7))
    reader.words += f" {KINDS[kind]}"

    def time():
        seconds = reader.field(*TIME)
        reader.words += f" {seconds // 3600:02}:{seconds // 60 % 60:02}:{seconds % 60:02}"

    def member():
        reader.named("member", 1, (0, members - 1))

    def contract():
        reader.named(*CONTRACT, said=lambda number: contract_name(first_year, number))

    def submit():
        time()
        member()
        contract()
        reader.words += " " + ("buy", "sell")[reader.field("side", 1, (0, 1))]
        reader.words += " " + ("resting", "OEYE", "TEYE")[reader.field("order kind", 1, (0, 2))]
        reader.named(*PRICE, said=price)
        reader.named(*LOTS)

    def cancel():
        time()
        member()
        reader.named(*ORDER)

    def day_limits():
        contract()
        low = reader.named("low", 4, (1, 1_000_000), said=price)
        reader.named("high", 4, (low, 1_000_000), said=price)

    def proposal():
        for _ in range(reader.named("legs", 1, (2, 12))):
            reader.named(*ORDER)
            reader.named(*LOTS)
            reader.named(*PRICE, said=price)

    def close_out():
        contract()
        reader.named("ratio", 2, (1, 1000))

    {1: submit, 2: cancel, 3: day_limits, 4: proposal, 5: member, 6: close_out, 7: time}[kind]()


def listing(data):
    """What is printed for these bytes, and the exit status."""
    reader = Reader(data, 0)
    try:
        first_year, members = header(reader)
    except Fault as fault:
        return f"{reader.words}{fault}\n".encode("latin-1"), HEADER
    printed, number = reader.words + "\n", 0
    while reader.at < len(data):
        number += 1
        reader.words = str(number)
        try:
            record(reader, first_year, members)
        except Fault as fault:
            return f"{printed}{reader.words}{fault}\n".encode("latin-1"), RECORD
        printed += reader.words + "\n"
    return printed.encode("latin-1"), LISTED
