#!/usr/bin/env bash
# What the journal program adds to the engine's own time, beside a plain Rust program over the same C entry: a journal of
# 1,000,000 records, the least of several rounds in turn. Fails above half.
set -euo pipefail
cd "$(dirname "$0")/../.."
programs/build.sh
tests/library.sh host
rustc --edition 2021 -O -L target/staticlib -o target/plain_journal tests/speed/journal.rs
python3 tests/journal/make.py "${1:-1000000}" > target/long.vjr
cmp <(target/programs/durskafn journal < target/long.vjr) <(target/plain_journal printed < target/long.vjr)
python3 tests/speed/journal.py target/programs/durskafn target/plain_journal target/long.vjr
