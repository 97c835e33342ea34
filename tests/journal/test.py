#!/usr/bin/env python3
"""test.py DURSKAFN MODEL: holds the journal program to stored output, to the model's and to its exit statuses.

Prints "ok" and the count of checks, or each check that fails.
"""
import glob
import os
import random
import resource
import subprocess
import sys
import tempfile

import make

PROGRAM, MODEL = [sys.argv[1], 'journal'], sys.argv[2]
READ, HEADER, RECORD, INPUT, OUTPUT = 0, 2, 3, 4, 5
# What the program needs: its buffers and tables lie on the stack. It holds no more for a longer journal.
STACK_KIB, MEMORY_KIB = 512, 4096
JOURNALS, JOURNAL_BYTES = 66, 100_111

checks, failures = 0, 0


def expect(what, got, wanted):
    global checks, failures
    checks += 1
    if got != wanted:
        failures += 1
        print(f'{what}: got {got!r:.300}, wanted {wanted!r:.300}')


def run(data, **options):
    done = subprocess.run(PROGRAM, input=data, stdout=subprocess.PIPE, stderr=subprocess.PIPE, **options)
    return done.stdout, done.returncode, done.stderr


def model(data):
    with tempfile.NamedTemporaryFile() as file:
        file.write(data)
        file.flush()
        return subprocess.run([MODEL, file.name], stdout=subprocess.PIPE, check=True).stdout


def status_of(printed):
    """The exit status that goes with an output."""
    lines = printed.split(b'\n')
    if lines[0] == b'R 0 2':
        return HEADER
    return RECORD if len(lines) > 2 and lines[-3].startswith(b'R ') and lines[-3].endswith(b' 3') else READ


def stored():
    """The stored journals and the stories, with how many there are and their bytes."""
    journals = {path: open(path, 'rb').read() for path in sorted(glob.glob('tests/journals/*.vjr') + glob.glob('examples/*.vjr'))}
    expect('the stored journals', (len(journals), sum(map(len, journals.values()))), (JOURNALS, JOURNAL_BYTES))
    return journals


def in_pieces(data, sizes):
    """The program's output when the bytes come through a pipe piece by piece."""
    program = subprocess.Popen(PROGRAM, stdin=subprocess.PIPE, stdout=subprocess.PIPE)
    at = 0
    for size in sizes:
        program.stdin.write(data[at:at + size])
        program.stdin.flush()
        at += size
        if at >= len(data):
            break
    printed, _ = program.communicate()
    return printed, program.returncode


def test_stored(journals):
    for path, data in journals.items():
        printed = open(path[:-len('vjr')] + 'out', 'rb').read()
        expect(path, run(data), (printed, status_of(printed), b''))


def test_pipes(journals):
    choose = random.Random(1)
    for path, data in journals.items():
        printed = open(path[:-len('vjr')] + 'out', 'rb').read()
        wanted = (printed, status_of(printed))
        sizes = [choose.choice([1, 2, 3, 14, 15, 16, 60]) for _ in data]
        expect(f'{path} in random pieces', in_pieces(data, sizes), wanted)
        if len(data) < 700:
            expect(f'{path} byte by byte', in_pieces(data, [1] * len(data)), wanted)


def test_cut(journals):
    for path, data in journals.items():
        if len(data) < 500:
            for end in range(len(data)):
                printed = model(data[:end])
                expect(f'{path} cut at {end}', run(data[:end]), (printed, status_of(printed), b''))


def test_long():
    """Records by the hundred thousand, on a stack and in memory that are smaller than the journal."""
    def limited():
        resource.setrlimit(resource.RLIMIT_STACK, (STACK_KIB * 1024, STACK_KIB * 1024))
        resource.setrlimit(resource.RLIMIT_AS, (MEMORY_KIB * 1024, MEMORY_KIB * 1024))

    data = make.journal(500_000)
    expect('a journal larger than the memory', len(data) > MEMORY_KIB * 1024, True)
    expect('a long journal', run(data, preexec_fn=limited), (model(data), READ, b''))


def test_errors(journals):
    data = make.journal(20_000)
    with tempfile.TemporaryFile() as journal:
        journal.write(data)

        def status(stdin, stdout):
            journal.seek(0)
            done = subprocess.run(PROGRAM, stdin=stdin, stdout=stdout, stderr=subprocess.PIPE)
            return done.returncode, done.stderr.split(b':')[0]

        folder = os.open('/', os.O_RDONLY)
        expect('a folder as input', status(folder, subprocess.DEVNULL), (INPUT, b'durskafn'))
        with open('/dev/full', 'wb') as full:
            expect('a full disk', status(journal, full), (OUTPUT, b'durskafn'))
    expect('no bytes', run(b''), (b'R 0 2\n', HEADER, b''))


journals = stored()
test_stored(journals)
test_pipes(journals)
test_cut(journals)
test_errors(journals)
test_long()
print(f'{failures} of {checks} failed' if failures else f'ok, {checks} checks')
sys.exit(failures != 0)
