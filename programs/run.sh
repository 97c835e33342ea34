#!/usr/bin/env bash
# run.sh WORD [FILE]: builds durskafn where that is needed, and runs it where the caller stands.
set -euo pipefail
programs=$(cd "$(dirname "$0")" && pwd)
if [ $# -eq 0 ]; then
  echo "usage: $0 WORD [FILE], as in: $0 journal FILE; $0 --help names the words" >&2
  exit 1
fi
"$programs/build.sh" >&2
exec "$programs/../target/programs/durskafn" "$@"
