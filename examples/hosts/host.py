#!/usr/bin/env python3
"""host.py JOURNAL MEMBER ...: applies a journal's records and prints members' positions by contract and by delivery month.

Lots are net, buys above 0; value is lots times price, in tenths of a kuruş for each delivery hour. The shared library is
target/hosts/libledger.so (examples/hosts/build.sh); lengths, places and answers are read from include/ledger.h.
"""
import ctypes
import pathlib
import re
import sys
import types

ROOT = pathlib.Path(__file__).resolve().parents[2]
CONSTANT = re.compile(r"\bLEDGER_(\w+)(?: =)? +(\d+)")
HEADER = (ROOT / "include/ledger.h").read_text(encoding="utf-8")
C = types.SimpleNamespace(**{name: int(n) for name, n in CONSTANT.findall(HEADER)})

LENGTHS = {
    C.KIND_SUBMIT: C.SUBMIT_BYTES,
    C.KIND_CANCEL: C.CANCEL_BYTES,
    C.KIND_DAY_LIMITS: C.DAY_LIMITS_BYTES,
    C.KIND_DEFAULT: C.DEFAULT_BYTES,
    C.KIND_CLOSE_OUT: C.CLOSE_OUT_BYTES,
    C.KIND_CLOSE_OF_DAY: C.CLOSE_OF_DAY_BYTES,
}


def record_at(journal, at):
    """The record there: its kind says how long it is, and the number of legs. A record that is cut or of an unknown kind
    gets what is left, and the library says what is wrong with it."""
    kind = journal[at]
    length = LENGTHS.get(kind, len(journal))
    if kind == C.KIND_PROPOSAL and at + 1 < len(journal):
        length = C.PROPOSAL_BYTES + C.LEG_BYTES * journal[at + 1]
    return journal[at : at + length]


class Refused(Exception):
    """A header or a record that is turned back: the number, and with 5 the member, with 6 the contract."""

    def __init__(self, number, detail=0):
        super().__init__(number)
        self.number = number
        self.detail = detail


class Ledger:
    """The six tables that the library is lent."""

    def __init__(self, header):
        self.library = ctypes.CDLL(str(ROOT / "target/hosts/libledger.so"))
        self.library.ledger_make.restype = self.library.ledger_apply.restype = ctypes.c_uint64
        self.head = (ctypes.c_uint64 * C.HEAD)()
        self.prices = (ctypes.c_uint64 * C.PRICES)()
        self.lots = (ctypes.c_int64 * C.ROWS)()
        self.value = (ctypes.c_int64 * C.ROWS)()
        self.book = (ctypes.c_uint64 * C.BOOK)()
        self.lines = (ctypes.c_int64 * C.LINES)()
        number = self.library.ledger_make(*self._lent(), *self._slice(header))
        if number != C.ACCEPTED:
            raise Refused(number)

    @staticmethod
    def _slice(data):
        """A pointer and a count, as each slice is handed over."""
        return data, ctypes.c_size_t(len(data))

    def _lent(self):
        for table in (self.head, self.prices, self.lots, self.value, self.book):
            yield from self._slice(table)

    def apply(self, record):
        """The number of deal lines, which stand in front of the line table."""
        detail = ctypes.c_uint64()
        number = self.library.ledger_apply(
            *self._lent(), *self._slice(self.lines), *self._slice(record), ctypes.byref(detail)
        )
        if number != C.ACCEPTED:
            raise Refused(number, detail.value)
        return detail.value

    def header_length(self):
        holidays, members = self.head[C.HOLIDAY_COUNT], self.head[C.MEMBERS]
        return C.HEADER_BYTES + holidays * C.HOLIDAY_BYTES + members * C.LIMIT_BYTES

    def name(self, contract):
        """A contract as 2022, 2022 Q1 or 2022-03."""
        year, k = divmod(contract, C.CONTRACTS_A_YEAR)
        year += self.head[C.FIRST_YEAR]
        if k == C.YEAR:
            return f"{year}"
        return f"{year} Q{k - C.FIRST_QUARTER + 1}" if k < C.JANUARY else f"{year}-{k - C.JANUARY + 1:02}"

    def print_position(self, member, contracts):
        """Lots and value of a member, summed over some contracts, printed under the name of the last."""
        rows = [contract * C.ROW_WIDTH + member for contract in contracts]
        lots, value = sum(self.lots[row] for row in rows), sum(self.value[row] for row in rows)
        if lots != 0 or value != 0:
            print(f"  {self.name(contracts[-1])}: lots {lots}, value {value}")

    def print_positions(self, member):
        print(f"member {member} by contract")
        for contract in range(C.CONTRACTS):
            self.print_position(member, [contract])
        print(f"member {member} by delivery month")
        for year in range(0, C.CONTRACTS, C.CONTRACTS_A_YEAR):
            for month in range(12):
                self.print_position(member, [year + C.YEAR, year + C.FIRST_QUARTER + month // 3, year + C.JANUARY + month])


def apply_records(ledger, journal):
    """Applies the records up to the end, or to the first that is none."""
    accepted = refused = 0
    at = ledger.header_length()
    while at < len(journal):
        record = record_at(journal, at)
        at += len(record)
        try:
            ledger.apply(record)
            accepted += 1
        except Refused as refusal:
            refused += 1
            which = {C.MEMBER_DEFAULTED: " member {}", C.CONTRACT_NOT_OPEN: " contract {}"}.get(refusal.number, "")
            print(f"record {accepted + refused} refused {refusal.number}{which.format(refusal.detail)}")
            if refusal.number == C.RECORD_UNSOUND:
                break
    print(f"{accepted} accepted, {refused} refused, day {ledger.head[C.DAY]}")


def main():
    if len(sys.argv) < 3:
        sys.exit("host.py JOURNAL MEMBER ...")
    journal = pathlib.Path(sys.argv[1]).read_bytes()
    try:
        ledger = Ledger(journal)
    except Refused as refusal:
        print(f"header refused {refusal.number}")
        return 1
    apply_records(ledger, journal)
    for member in map(int, sys.argv[2:]):
        if not 0 <= member < ledger.head[C.MEMBERS]:
            sys.exit("no such member")
        ledger.print_positions(member)
    return 0


if __name__ == "__main__":
    sys.exit(main())
