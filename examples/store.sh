#!/usr/bin/env bash
# Writes the stories' journals anew, and from the model what is printed for them: NAME.out and NAME.positions.
set -euo pipefail
cd "$(dirname "$0")/.."
python3 examples/make.py
tests/model/cargo.sh build --release --quiet --bin print_journal --bin print_positions
for journal in examples/*.vjr; do
  target/model/release/print_journal "$journal" > "${journal%.vjr}.out"
  members=$(sed -nE 's/^H [0-9]+ [0-9]+ ([0-9]+)$/\1/p' "${journal%.vjr}.out")
  target/model/release/print_positions "$journal" $(seq 0 $((members - 1))) > "${journal%.vjr}.positions"
done
