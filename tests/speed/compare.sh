#!/usr/bin/env bash
# Compares the damage test with plain Rust on tables made from a fixed seed; fails where they differ.
set -euo pipefail
cd "$(dirname "$0")/../.."
tests/speed/build.sh
target/damage compare "${1:-20000}"
