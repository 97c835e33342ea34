#!/usr/bin/env bash
# The journal program on stored journals, on pipes, cut, long, and where it cannot read or write; the model beside it.
set -euo pipefail
cd "$(dirname "$0")/../.."
programs/build.sh
tests/model/cargo.sh build --release --quiet --bin print_journal
exec python3 tests/journal/test.py target/programs/durskafn target/model/release/print_journal
