#!/usr/bin/env bash
# Whether the tests can fail: each misdeed of misdeeds.c is done to the library in turn, and which tests see it is held to
# misdeeds.out; without a misdeed all have to pass. `misdeeds.sh print` prints what misdeeds.out has to hold.
set -uo pipefail
cd "$(dirname "$0")/../.."
tests/library.sh host || exit 1
entries=(make apply is_damaged read_header write_header read_record write_record front_record)
wraps=("${entries[@]/#/-Wl,--wrap=ledger_}")
for program in make ranges cases guarded replay any_bytes record_fields header_fields; do
  gcc -std=c11 -Wall -Wextra -Werror -O1 -fsanitize=address,undefined -I include "${wraps[@]}" \
    -o "target/${program}_misled" "tests/host/$program.c" tests/host/lent.c tests/host/fields.c tests/host/misdeeds.c target/staticlib/libhost.a || exit 1
done
# The comparisons with the model and with a plain damage test, misled too; that with the model once more without the library.
links=(-Clink-arg="$PWD/target/misdeeds.o" -Clink-arg="$PWD/target/staticlib/libhost.a" "${wraps[@]/#/-Clink-arg=}")
gcc -std=c11 -Wall -Wextra -Werror -O1 -I include -c -o target/misdeeds.o tests/host/misdeeds.c &&
  rustc --edition 2021 -O -L target/staticlib "${links[@]}" -o target/damage_misled tests/speed/damage.rs &&
  tests/model/cargo.sh rustc --release --quiet --features c_engine --bin compare -- "${links[@]}" &&
  cp target/model/release/compare target/compare_misled &&
  tests/model/cargo.sh build --release --quiet --bin compare &&
  cp target/model/release/compare target/compare_alone || exit 1

tests=(make ranges cases guarded replay_printed replay_places replay_digests any_bytes record_fields header_fields compare damage)
passes() {
  case $1 in
  replay_*) tests/host/run.sh "$1" target/replay_misled ;;
  any_bytes) tests/host/run.sh "$1" target/any_bytes_misled 12000 ;;
  compare) target/compare_misled 1 4000 ;;
  damage) target/damage_misled compare 2000 ;;
  *) tests/host/run.sh "$1" "target/$1_misled" ;;
  esac > /dev/null 2>&1
}
seen_by() {
  for test in "${tests[@]}"; do passes "$test" || echo -n " $test"; done
}
told() {
  export MISDEED=
  echo "nothing: seen by$(seen_by)"
  target/compare_alone 1 4000 > /dev/null 2>&1 || echo "is not called: seen by compare"
  while read -r MISDEED; do echo "$MISDEED: seen by$(seen_by)"; done < <(grep -oE 'does\("[^"]+"\)' tests/host/misdeeds.c | cut -d'"' -f2)
}
if [ "${1:-}" = print ]; then told; else told | diff tests/host/misdeeds.out -; fi
