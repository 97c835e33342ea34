#!/usr/bin/env bash
# The command: its words, files, pipes that stay open, outputs that fail, limits and progress; the model beside it.
set -euo pipefail
cd "$(dirname "$0")/../.."
programs/build.sh
tests/model/cargo.sh build --release --quiet --bin print_journal
exec python3 tests/command/test.py target/programs/durskafn target/model/release/print_journal
