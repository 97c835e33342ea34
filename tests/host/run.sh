#!/usr/bin/env bash
# run.sh TEST PROGRAM [WORD ...]: makes one of the C tests with the program that was built for it. The gate and misdeeds.sh
# both make them here, so a comparison that is dropped here is missed there.
set -euo pipefail
cd "$(dirname "$0")/../.."
journals=(tests/journals/*.vjr examples/*.vjr)
case $1 in
# What it prints is held to its stored output.
ranges) "$2" | diff - tests/host/ranges.out ;;
cases) "$2" tests/host/cases.txt | diff - tests/host/cases.out ;;
replay_printed) "$2" printed "${journals[@]}" ;;
replay_places) "$2" places tests/host/stored/*.places ;;
replay_digests) "$2" digests tests/host/stored/*.digests ;;
record_fields) "$2" "${journals[@]}" ;;
*) "${@:2}" ;;
esac
