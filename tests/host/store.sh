#!/usr/bin/env bash
# Writes anew what tests/host/replay.c is held to: the model's answers and tables for a few journals. Every place: all
# seven kinds accepted, 32 members, cascades of a year and of a quarter, number 16 (200023). Digests: all seven kinds
# with 2 members (200014), cascades of a year and of two quarters with 4 (200032), a full book (200057), a journal that
# ends with number 3 (200052), one whose header is number 2 (200055), and the stories of examples/.
set -euo pipefail
cd "$(dirname "$0")/../.."
tests/model/cargo.sh build --release --quiet --bin replay_tables
store() { target/model/release/replay_tables "$1" "$2" > "tests/host/stored/$(basename "$2" .vjr).$1"; }
store places tests/journals/200023.vjr
for journal in tests/journals/200{014,032,052,055,057}.vjr examples/*.vjr; do store digests "$journal"; done
