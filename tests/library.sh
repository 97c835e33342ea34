#!/usr/bin/env bash
# library.sh NAME: the proved library target/staticlib/libNAME.a, of the crate NAME_c, or of NAME where there is no such crate. It
# is built again only where a crate, a line of crates.txt or the kit has changed, which rt itself would prove again to know.
set -euo pipefail
cd "$(dirname "$0")/.."
crate=$1
if [ -d "crates/$1_c" ]; then crate=$1_c; fi
mkdir -p target/staticlib
library=target/staticlib/lib$1.a
sources() {
  rt version
  find crates crates.txt -name out -prune -o -type f \( -name '*.rt' -o -name '*.antt' -o -name crates.txt \) -print0 | sort -z | xargs -0 sha256sum
}
now=$(sources | sha256sum)
if [ ! -e "$library" ] || [ "$now" != "$(cat "$library.sum" 2> /dev/null)" ]; then
  tests/proved.sh "$crate" rt lib
  cp "crates/$crate/out/lib$crate.a" "$library"
  echo "$now" > "$library.sum"
fi
