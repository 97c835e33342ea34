#!/usr/bin/env bash
# The listing program beside a listing written apart from it.
set -euo pipefail
cd "$(dirname "$0")/../.."
programs/build.sh
exec python3 tests/listing/test.py target/programs/durskafn
