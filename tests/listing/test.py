#!/usr/bin/env python3
"""test.py DURSKAFN: holds the listing program to listing.py, on stored journals, on each byte of some of them set to other
values, on journals cut at every byte and written the other way round; and to its exit statuses where it cannot read or write.

Prints "ok" and the count of checks, or the checks that fail.
"""
import os
import pathlib
import subprocess
import sys
import tempfile

from listing import listing

PROGRAM = [sys.argv[1], "listing"]
ROOT = pathlib.Path(__file__).resolve().parents[2]
INPUT, OUTPUT = 4, 5
JOURNALS, JOURNAL_BYTES, SOUND = 66, 100_111, 3
checks, failures = 0, 0


def expect(what, got, wanted):
    global checks, failures
    checks += 1
    if got != wanted:
        failures += 1
        print(f"{what}: got {got!r:.400}, wanted {wanted!r:.400}")


def listed(data):
    done = subprocess.run(PROGRAM, input=data, stdout=subprocess.PIPE, check=False)
    return done.stdout, done.returncode


def test_listed(what, data):
    expect(what, listed(data), listing(data))


def numbers(data):
    """The places and sizes of a journal's header and records, kind by kind."""
    fields = {1: (4, 1, 1, 1, 1, 4, 2), 2: (4, 1, 4), 3: (1, 4, 4), 5: (1,), 6: (1, 2), 7: (4,)}
    sizes = [2, 2, 2, 1, 1] + [2] * data[10] + [4] * data[9]
    at = 3
    for size in sizes:
        yield at, size
        at += size
    while at < len(data):
        kind = data[at]
        sizes = (1,) + ((1,) + (4, 2, 4) * data[at + 1] if kind == 4 else fields[kind])
        for size in sizes:
            yield at, size
            at += size


def turned(data):
    """Every number the other way round."""
    other = bytearray(data)
    for at, size in numbers(data):
        other[at : at + size] = data[at : at + size][::-1]
    return bytes(other)


def other_bytes(data):
    """The journal with one byte set to 0, 1, 255, its neighbours, or a bit apart."""
    for at, byte in enumerate(data):
        for value in {0, 1, 2, 255, (byte + 1) % 256, (byte - 1) % 256, byte ^ 128} - {byte}:
            yield f"byte {at} as {value}", data[:at] + bytes([value]) + data[at + 1 :]


def each_turned(data):
    """One number the other way round."""
    for at, size in numbers(data):
        if size > 1:
            yield f"the number at {at} turned", data[:at] + data[at : at + size][::-1] + data[at + size :]


def test_statuses(data):
    with tempfile.TemporaryFile() as journal:
        journal.write(data)

        def status(stdin, stdout):
            journal.seek(0)
            done = subprocess.run(PROGRAM, stdin=stdin, stdout=stdout, stderr=subprocess.PIPE, check=False)
            return done.returncode, done.stderr.split(b":")[0]

        expect("a folder as input", status(os.open("/", os.O_RDONLY), subprocess.DEVNULL), (INPUT, b"durskafn"))
        with open("/dev/full", "wb") as full:
            expect("a full disk", status(journal, full), (OUTPUT, b"durskafn"))


def main():
    stories = sorted((ROOT / "examples").glob("*.vjr"))
    journals = stories + sorted((ROOT / "tests/journals").glob("*.vjr"))
    expect("the stored journals", (len(journals), sum(len(path.read_bytes()) for path in journals)), (JOURNALS, JOURNAL_BYTES))
    for path in journals:
        test_listed(path.name, path.read_bytes())
    sound = [path.read_bytes() for path in stories if path.stem in ("synthetic", "default", "year_end")]
    expect("the sound stories", len(sound), SOUND)
    for data in sound:
        test_listed("all turned", turned(data))
        for end in range(len(data)):
            test_listed(f"cut at {end}", data[:end])
        for what, other in [*other_bytes(data), *each_turned(data)]:
            test_listed(what, other)
    story = ROOT / "examples/winter"
    expect("the listing of winter", listed(story.with_suffix(".vjr").read_bytes()), (story.with_suffix(".listing").read_bytes(), 0))
    long = sound[0] + bytes([7, 0, 0, 0, 0]) * 60_000
    test_listed("a long journal", long)
    test_statuses(long)
    print(f"{failures} of {checks} failed" if failures else f"ok, {checks} checks")
    return failures != 0


if __name__ == "__main__":
    sys.exit(main())
