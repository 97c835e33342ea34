#!/usr/bin/env python3
"""test.py PROGRAM MODEL: holds durskafn to what it says of words, files, open pipes, outputs that fail, limits and progress.

Prints "ok" and the count of checks, or each check that fails.
"""
import os
import pathlib
import pty
import re
import resource
import select
import subprocess
import sys
import tempfile
import time

ROOT = pathlib.Path(__file__).resolve().parents[2]
PROGRAM, MODEL = (str(pathlib.Path(word).resolve()) for word in sys.argv[1:3])
WORDS = ("journal", "listing")
ENDED, WRONG_CALL, HEADER, RECORD, INPUT, OUTPUT = 0, 1, 2, 3, 4, 5
STACK_KIB, LITTLE_STACK_KIB = 512, 192
STORIES = 6
# How long an answer may take, and how long a run lasts whose progress is told.
PATIENCE, LONG = 10, 2.3
LINE = re.compile(rb"durskafn: (\d+) bytes, (\d+) records(?:, (\d+)%)?\n")

checks, failures = 0, 0


def expect(what, got, wanted):
    global checks, failures
    checks += 1
    if got != wanted:
        failures += 1
        print(f"{what}: got {got!r:.300}, wanted {wanted!r:.300}")


def run(*arguments, data=b"", **options):
    """Standard output, standard error and the exit status."""
    options.setdefault("stdout", subprocess.PIPE)
    if "stdin" not in options:
        options["input"] = data
    done = subprocess.run([PROGRAM, *arguments], stderr=subprocess.PIPE, timeout=PATIENCE, check=False, **options)
    return done.stdout, done.stderr, done.returncode


def model(data):
    """What the journal program prints for these bytes."""
    with tempfile.NamedTemporaryFile() as file:
        file.write(data)
        file.flush()
        return subprocess.run([MODEL, file.name], stdout=subprocess.PIPE, check=True).stdout


def refused(count):
    """A journal of two members whose records are all refused, a line each."""
    header = bytes.fromhex("564a52 0001 07e5 0171 02 00 000003e8 000003e8")
    return header + bytes.fromhex("02 00008ca0 00 00000000") * count


def limited(which, size):
    return lambda: resource.setrlimit(which, (size, size))


def test_calls():
    wrong = [
        ((), b"word is missing"),
        (("ledger",), b"unknown word ledger"),
        (("",), b"unknown word"),
        (("--quick",), b"unknown option --quick"),
        (("--help", "journal"), b"surplus argument journal"),
        (("--version", "2"), b"surplus argument 2"),
    ]
    for word in WORDS:
        wrong += [
            ((word, "examples/winter.vjr", "more"), b"surplus argument more"),
            ((word, "-", "-"), b"surplus argument -"),
            ((word, "--quick"), b"unknown option --quick"),
            ((word, "-h"), b"unknown option -h"),
        ]
    for arguments, message in wrong:
        printed, said, status = run(*arguments)
        expect(f"call {arguments}", (printed, message in said, said.count(b"\n"), status), (b"", True, 1, WRONG_CALL))


def test_help():
    printed, said, status = run("--help")
    expect("--help", ([word.encode() in printed for word in WORDS], said, status), ([True, True], b"", ENDED))
    expect("--help says the stack", f"{STACK_KIB} KiB of stack".encode() in printed, True)
    for word in WORDS:
        printed, said, status = run(word, "--help")
        expect(f"{word} --help", (printed.startswith(b"durskafn " + word.encode()), said, status), (True, b"", ENDED))
    kit = subprocess.run(["rt", "version"], stdout=subprocess.PIPE, check=True).stdout.strip()
    printed, said, status = run("--version")
    expect("--version", (kit in printed, printed.count(b"\n"), said, status), (True, 1, b"", ENDED))
    with open("/dev/full", "wb") as full:
        _, said, status = run("--help", stdout=full)
        expect("--help on a full disk", (b"standard output" in said, status), (True, OUTPUT))


def stories():
    found = sorted((ROOT / "examples").glob("*.vjr"))
    expect("the stories", len(found), STORIES)
    return found


def test_files():
    for path in stories():
        data = path.read_bytes()
        for word in WORDS:
            wanted = run(word, data=data)
            expect(f"{word} {path.name}", run(word, str(path), data=b"other bytes"), wanted)
            expect(f"{word} - < {path.name}", run(word, "-", data=data), wanted)
        expect(f"{path.name} as stored", run("journal", str(path))[0], path.with_suffix(".out").read_bytes())
    for word in WORDS:
        printed, said, status = run(word, "examples/none.vjr")
        expect(f"{word}, no such file", (printed, b"examples/none.vjr: No such file" in said, status), (b"", True, INPUT))
        printed, said, status = run(word, "/")
        expect(f"{word}, a folder", (printed, b"/: Is a directory" in said, status), (b"", True, INPUT))
        closed = subprocess.run(f"'{PROGRAM}' {word} examples/winter.vjr <&-", shell=True, cwd=ROOT, stdout=subprocess.PIPE, check=False)
        expect(f"{word} of a file, input closed", closed.stdout, run(word, str(ROOT / "examples/winter.vjr"))[0])


def test_run_script():
    """programs/run.sh takes paths from where the caller stands, and says its usage without words."""
    def script(*arguments):
        done = subprocess.run(["../programs/run.sh", *arguments], cwd=ROOT / "examples", capture_output=True, check=False)
        return done.stdout, done.stderr, done.returncode

    expect("run.sh in examples", script("journal", "winter.vjr"), ((ROOT / "examples/winter.out").read_bytes(), b"", ENDED))
    printed, said, status = script()
    expect("run.sh without words", (printed, said.startswith(b"usage: "), status), (b"", True, WRONG_CALL))
    expect("run.sh with an unknown word", script("ledger")[2], WRONG_CALL)


def read_until(pipe, length):
    """What comes until so many bytes came, nothing more comes or patience ends."""
    out, ends = b"", time.monotonic() + PATIENCE
    while len(out) < length and select.select([pipe], [], [], max(0, ends - time.monotonic()))[0]:
        try:
            more = os.read(pipe, 65536)
        except OSError:  # a terminal that was closed
            break
        if not more:
            break
        out += more
    return out


def test_open_pipes():
    """What is booked or listed is out while the input stays open; the end comes when it is closed."""
    for path in stories():
        data = path.read_bytes()
        for word in WORDS:
            whole, _, status = run(word, data=data)
            # The line E waits for the end of the input, unless the journal is unsound before it.
            early = whole[: whole.rindex(b"E ")] if word == "journal" and status == ENDED else whole
            program = subprocess.Popen([PROGRAM, word], stdin=subprocess.PIPE, stdout=subprocess.PIPE)
            program.stdin.write(data)
            program.stdin.flush()
            expect(f"{word} {path.name}, input open", read_until(program.stdout.fileno(), len(early)), early)
            rest, _ = program.communicate(timeout=PATIENCE)
            expect(f"{word} {path.name}, then closed", (early + rest, program.returncode), (whole, status))


def test_cut():
    """A journal cut at every byte, through a file."""
    data = (ROOT / "examples/winter.vjr").read_bytes()
    with tempfile.NamedTemporaryFile() as file:
        for end in range(len(data)):
            os.truncate(file.name, 0)
            pathlib.Path(file.name).write_bytes(data[:end])
            printed, said, status = run("journal", file.name)
            wanted = model(data[:end])
            expect(f"winter cut at {end}", (printed, said), (wanted, b""))
            unsound = HEADER if wanted == b"R 0 2\n" else RECORD if b" 3\nE " in wanted else ENDED
            expect(f"the status of winter cut at {end}", status, unsound)


def test_outputs(long):
    for word in WORDS:
        with open("/dev/full", "wb") as full:
            _, said, status = run(word, long, stdout=full)
            expect(f"{word}, a full disk", (said, status), (b"durskafn: standard output: No space left on device\n", OUTPUT))
        end, pipe = os.pipe()
        os.close(end)
        _, said, status = run(word, long, stdout=pipe)
        os.close(pipe)
        expect(f"{word}, a closed pipe", (said, status), (b"durskafn: standard output: Broken pipe\n", OUTPUT))
        with tempfile.TemporaryFile() as out:
            _, said, status = run(word, long, stdout=out, preexec_fn=limited(resource.RLIMIT_FSIZE, 1000))
            expect(f"{word}, a file at its limit", (said, status), (b"durskafn: standard output: File too large\n", OUTPUT))
            expect(f"{word}, what the limit lets through", os.fstat(out.fileno()).st_size, 1000)
        closed = subprocess.run(f"'{PROGRAM}' {word} '{long}' >&-", shell=True, stderr=subprocess.PIPE, check=False)
        expect(f"{word}, closed output", (closed.stderr, closed.returncode),
               (b"durskafn: standard output: Bad file descriptor\n", OUTPUT))
        closed = subprocess.run(f"'{PROGRAM}' {word} <&-", shell=True, stderr=subprocess.PIPE, check=False)
        expect(f"{word}, closed input", (closed.stderr, closed.returncode),
               (b"durskafn: standard input: Bad file descriptor\n", INPUT))


def test_stack(long):
    for word in WORDS:
        printed, said, status = run(word, long, preexec_fn=limited(resource.RLIMIT_STACK, LITTLE_STACK_KIB * 1024))
        expect(f"{word}, little stack", (printed, f"{STACK_KIB} KiB of stack".encode() in said, status), (b"", True, WRONG_CALL))
        enough = run(word, long, preexec_fn=limited(resource.RLIMIT_STACK, STACK_KIB * 1024))
        expect(f"{word}, the stack that is said", enough, run(word, long))


def held_up(word, path, *options, stderr=subprocess.PIPE):
    """A run whose output nobody takes for a while: what it printed and said."""
    program = subprocess.Popen([PROGRAM, word, *options, path], stdout=subprocess.PIPE, stderr=stderr)
    time.sleep(LONG)
    return program.communicate(timeout=PATIENCE)


def test_progress(long):
    size = os.path.getsize(long)
    for word in WORDS:
        whole = run(word, long)[0]
        expect(f"{word}, a quick run says nothing", run(word, "--progress", long), (whole, b"", ENDED))
        expect(f"{word}, a long run without progress", held_up(word, long), (whole, b""))
        printed, said = held_up(word, long, "--progress")
        expect(f"{word}, output with progress", printed == whole, True)
        lines = [tuple(map(int, found)) for found in LINE.findall(said)]
        expect(f"{word}, lines of progress", (bool(lines), LINE.sub(b"", said)), (True, b""))
        wanted = [100 if read == size else read // (size // 100 + 1) for read, _, _ in lines]
        expect(f"{word}, its percents", [percent for _, _, percent in lines], wanted)
        expect(f"{word}, its figures", [0 < read <= size and 0 < records < read for read, records, _ in lines], [True] * len(lines))
        terminal, seen = pty.openpty()
        printed, _ = held_up(word, long, stderr=seen)
        os.close(seen)
        expect(f"{word}, at a terminal", (printed == whole, b" bytes, " in read_until(terminal, 1)), (True, True))
        os.close(terminal)


def test_progress_of_a_pipe():
    """No percent where the size is not known."""
    data = refused(1000)
    program = subprocess.Popen([PROGRAM, "journal", "--progress"], stdin=subprocess.PIPE, stdout=subprocess.PIPE, stderr=subprocess.PIPE)
    program.stdin.write(data)
    program.stdin.flush()
    time.sleep(LONG)
    printed, said = program.communicate(data[-10:], timeout=PATIENCE)
    expect("a pipe, output", printed == model(data + data[-10:]), True)
    expect("a pipe, progress", said, b"durskafn: %d bytes, 1001 records\n" % (len(data) + 10))


def main():
    test_calls()
    test_help()
    test_files()
    test_run_script()
    test_open_pipes()
    test_cut()
    with tempfile.NamedTemporaryFile() as file:
        file.write(refused(100_000))
        file.flush()
        test_outputs(file.name)
        test_stack(file.name)
        test_progress(file.name)
    test_progress_of_a_pipe()
    print(f"{failures} of {checks} failed" if failures else f"ok, {checks} checks")
    return failures != 0


if __name__ == "__main__":
    sys.exit(main())
