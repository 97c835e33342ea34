#!/usr/bin/env bash
# Times the damage test beside plain Rust.
set -euo pipefail
cd "$(dirname "$0")/../.."
tests/speed/build.sh
target/damage measure
