#!/usr/bin/env python3
"""Counts the older forms that docs/DESIGN-PASS.md speaks of, in src/ of all crates.

usage: tools/count_forms.py [--at COMMIT] [--places]

Without a commit the files as they stand are read. --places prints each place.
"""

import argparse
import re
import subprocess
from collections import defaultdict

TABLES = ("head", "prices", "lots", "value", "book", "lines")
KEYWORDS = set(
    "as bool break continue else ensures enum extern false fn for if impl in let loop match mod move mut pub ref "
    "requires return self struct true u8 u16 u32 u64 usize i64 use while".split()
)


def git(*words):
    return subprocess.run(["git", *words], capture_output=True, text=True, check=True).stdout


def texts(commit, pattern):
    """(path, text) of the files that match, of a commit or as they stand."""
    if commit:
        paths = git("ls-tree", "-r", "--name-only", commit).split()
    else:
        paths = git("ls-files").split()
    for path in paths:
        if re.fullmatch(pattern, path):
            yield path, git("show", f"{commit}:{path}") if commit else open(path).read()


def lines_that(files, pattern):
    found = []
    for path, text in files:
        for number, line in enumerate(text.split("\n"), 1):
            if re.search(pattern, line) and not line.lstrip().startswith("//"):
                found.append(f"{path}:{number}: {line.strip()}")
    return found


def functions(files):
    """(path, name, parameters, body) of each function that has a body."""
    for path, text in files:
        for match in re.finditer(r"\bfn (\w+)", text):
            opened = text.find("(", match.end())
            closed = matching(text, opened, "()")
            plain = re.compile(r"\)[^\n]*\{$", re.M).match(text, closed)
            body = plain or re.compile(r"^ *\{$", re.M).search(text, closed)
            start = body.end() - 1 if body else closed
            yield path, match.group(1), text[opened + 1 : closed], text[start : matching(text, start, "{}") + 1]


def matching(text, start, pair):
    depth = 0
    for i in range(start, len(text)):
        depth += (text[i] == pair[0]) - (text[i] == pair[1])
        if depth == 0:
            return i
    return len(text) - 1


def shape(body):
    """A body with each name and number made alike."""
    words = re.findall(r"\w+|[^\w\s]", re.sub(r"//.*", "", body))
    return " ".join(w if w in KEYWORDS else "N" if w[0].isdigit() else "x" if w[0].isalnum() else w for w in words)


def twins(all_functions):
    groups = defaultdict(list)
    for path, name, _, body in all_functions:
        if body.count("\n") >= 4:
            groups[shape(body)].append(f"{path}: {name}")
    return [" = ".join(group) for group in groups.values() if len(group) > 1]


def parallel(files):
    """Structs with two or more arrays of one length."""
    found = []
    for path, text in files:
        for match in re.finditer(r"struct (\w+) \{(.*?)\n\}", text, re.S):
            arrays = re.findall(r"\[\w+; (\w+)\]", match.group(2))
            if len(arrays) > len(set(arrays)):
                found.append(f"{path}: {match.group(1)}")
    return found


def repeated_facts(files):
    """Facts of `requires` that stand in three functions or more."""
    count = defaultdict(set)
    for path, text in files:
        for match in re.finditer(r"requires [a-z_0-9]* ?\{(.*?)\}\n", text, re.S):
            for fact in match.group(1).split("×"):
                fact = " ".join(fact.split()).strip("() ")
                count[fact].add(f"{path}:{match.start()}")
    return [f"{len(where)} {fact}" for fact, where in sorted(count.items(), key=lambda x: -len(x[1])) if len(where) > 2]


def counts(commit):
    files = list(texts(commit, r"crates/\w+/src/.*\.rt"))
    proofs = list(texts(commit, r"crates/\w+/proofs/.*Answers\.antt"))
    each = list(functions(files))
    yield "1a enums, each to be read", lines_that(files, r"^\s*(pub )?enum \w")
    yield "1b comparisons with a constant that stands for a case", lines_that(files, r"[!=]= (\w+::)*[A-Z][A-Z_]{2,}\b|^\s+[A-Z][A-Z_]+ =>")
    yield "1c flags and counts beside values", lines_that(files, r"^\s+(pub )?(is|has|wants)_\w+: bool,$|^\s+pub accepted: u64,$")
    yield "2 functions alike but for names and numbers", twins(each)
    yield "3 loops that count by hand", lines_that(files, r"^\s*('\w+: )?(while (?!let)|loop\b)")
    yield "4a casts", lines_that(files, r" as (u8|u16|u64|usize|i64|i32)\b")
    yield "4b fields copied one by one", lines_that(files, r"^\s+(\w+): (\w+\.)?\1,")
    yield "4c locals that only name a field", lines_that(files, r"^\s+let (\w+) = [\w.]+\.\1;")
    yield "4d reborrows written out", lines_that(files, r"&mut \*\w|&\*\w")
    takes = [
        f"{path}: {name}"
        for path, name, parameters, _ in each
        if sum(bool(re.search(rf"\b{t}: &", parameters)) for t in TABLES) >= 3
    ]
    yield "5a functions that take three of the six tables or more", takes
    yield "5b facts required by three functions or more", repeated_facts(files)
    yield "6 structs with arrays of one length", parallel(files)
    yield "7 loops and functions that take a closure", lines_that(files, r"impl Fn|: Fn(Mut|Once)?\(")
    yield "8 answers", lines_that(proofs, r" : goal\.")


def main():
    parser = argparse.ArgumentParser()
    parser.add_argument("--at", default="")
    parser.add_argument("--places", action="store_true")
    chosen = parser.parse_args()
    for what, places in counts(chosen.at):
        print(f"{len(places):5} {what}")
        if chosen.places:
            print("".join(f"      {place}\n" for place in places), end="")


if __name__ == "__main__":
    main()
