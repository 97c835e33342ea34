#!/usr/bin/env bash
# Builds the static library and the Rust program over it.
set -euo pipefail
cd "$(dirname "$0")/../.."
tests/library.sh host
rustc --edition 2021 -O -L target/staticlib -o target/damage tests/speed/damage.rs
