#!/usr/bin/env bash
# build.sh: target/programs/durskafn from the crate durskafn, which is proved for it, and programs/durskafn.sh, which runs it.
set -euo pipefail
if [ $# -gt 0 ]; then
  echo "usage: $0, without arguments" >&2
  exit 1
fi
cd "$(dirname "$0")/.."
# rt has no command that builds a program and does not run it.
tests/proved.sh durskafn rt run -- --version
mkdir -p target/programs
# A program that runs is not written over.
put() { cmp -s "$1" "$2" || { cp "$1" "$2.new" && mv "$2.new" "$2"; }; }
put crates/durskafn/out/durskafn target/programs/durskafn.bin
put programs/durskafn.sh target/programs/durskafn
