#!/usr/bin/env bash
# proved.sh CRATE COMMAND..: runs a command of rt in the folder of a crate. Each crate that is proved for it, k of n, is named on
# standard error. All that rt says stands in target/CRATE.log, and is shown where it fails.
set -euo pipefail
cd "$(dirname "$0")/.."
crate=$1
shift
mkdir -p target
log=$PWD/target/$crate.log
# rt keeps what it finds of a crate in one place, so one command runs at a time.
exec 9> target/proved.lock
flock 9

# How many crates of crates.txt a crate is proved from, with itself.
crates_of() {
  awk -F: -v name="$1" '
    function visit(n,  names, i, count) {
      if (!(n in needs) || n in seen) return
      seen[n] = ++reached
      count = split(needs[n], names, " ")
      for (i = 1; i <= count; i++) visit(names[i])
    }
    { sub(/#.*/, "") }
    NF > 1 { split($1, words, " "); needs[words[1]] = $2 }
    END { visit(name); print reached }' crates.txt
}
# Of what rt says, the crates that it proved now.
proved() {
  awk -v crates="$(crates_of "$crate")" '
    /^crate [a-z0-9_]+: modules / { name = substr($2, 1, length($2) - 1) }
    /^logic=proved / { print ++k " of " crates " crates: " name " proved" > "/dev/stderr"; fflush("/dev/stderr") }'
}
(cd "crates/$crate" && "$@") 2>&1 | tee "$log" | proved || { cat "$log" >&2; exit 1; }
