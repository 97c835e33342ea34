#!/usr/bin/env python3
"""journal.py DURSKAFN PLAIN JOURNAL: see journal.sh."""
import os
import subprocess
import sys

PROGRAM, PLAIN, JOURNAL = sys.argv[1:4]
ROUNDS, MOST = 7, 0.5


def seconds(command):
    """The processor time of a process that reads the journal."""
    with open(JOURNAL, 'rb') as journal:
        process = subprocess.Popen(command, stdin=journal, stdout=subprocess.DEVNULL)
        _, _, used = os.wait4(process.pid, 0)
        process.returncode = 0
    return used.ru_utime + used.ru_stime


def engine():
    """The processor time of the same records applied from memory, as the process itself takes it."""
    with open(JOURNAL, 'rb') as journal:
        return float(subprocess.run([PLAIN, 'applied'], stdin=journal, stdout=subprocess.PIPE, check=True).stdout)


rounds = [(seconds([PROGRAM, 'journal']), seconds([PLAIN, 'printed']), engine()) for _ in range(ROUNDS)]
program, plain, applied = (min(column) for column in zip(*rounds))
ratio = (program - applied) / (plain - applied)
print(f'journal program {program * 1000:.0f} ms, plain Rust {plain * 1000:.0f} ms, engine alone {applied * 1000:.0f} ms')
print(f'added to the engine: {(program - applied) * 1000:.0f} ms beside {(plain - applied) * 1000:.0f} ms, ratio {ratio:.2f}')
sys.exit(ratio > MOST)
