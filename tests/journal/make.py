#!/usr/bin/env python3
"""make.py RECORDS: a long journal on standard output, the same for the same number.

32 members buy and sell one month at prices close to each other, 100 records a second at most, so that most submits deal,
some rest and some are cancelled; a close of day comes when the day's seconds are used up.
"""
import random
import struct
import sys

MEMBERS, CONTRACTS, SECONDS = 32, (17, 18, 22, 23, 24), 86_399


def journal(records):
    choose = random.Random(records)
    out = bytearray(b'VJR' + struct.pack('>HHHBB', 1, 2021, 369, MEMBERS, 0) + struct.pack('>I', 100_000) * MEMBERS)
    time = 0
    for i in range(records):
        if choose.random() < 0.02:
            time += 1
        if time > SECONDS:
            out += struct.pack('>BI', 7, SECONDS)
            time = 0
            continue
        if choose.random() < 0.1:
            out += struct.pack('>BIBI', 2, time, choose.randrange(MEMBERS), choose.randrange(i + 1))
            continue
        kind = choose.choice([0, 0, 0, 1, 2])
        out += struct.pack('>BIBBBBIH', 1, time, choose.randrange(MEMBERS), choose.choice(CONTRACTS), choose.randrange(2),
                           kind, choose.randrange(25_990, 26_011), choose.randrange(1, 4))
    return bytes(out)


if __name__ == '__main__':
    sys.stdout.buffer.write(journal(int(sys.argv[1])))
