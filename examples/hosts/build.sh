#!/usr/bin/env bash
# Builds into target/hosts what the three hosts need: the shared library for Python, the C host and the Rust host.
set -euo pipefail
cd "$(dirname "$0")/../.."
tests/library.sh host
mkdir -p target/hosts
# The archive's code is position independent, so one command makes a shared library of it.
gcc -shared -o target/hosts/libledger.so -Wl,--whole-archive target/staticlib/libhost.a -Wl,--no-whole-archive -Wl,-z,defs,-z,text
gcc -std=c11 -Wall -Wextra -Werror -O2 -I include -o target/hosts/host_c examples/hosts/host.c target/staticlib/libhost.a
rustc --edition 2021 -O -D warnings -o target/hosts/host_rust examples/hosts/host.rs -L native=target/staticlib -l static=host
