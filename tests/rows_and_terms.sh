#!/usr/bin/env bash
# Rows are not terms: in a copy of the crates one contract more has rows, prices and orders but no period by its number,
# and the copy is proved whole. Outside the gate, since it proves every crate again. Call: tests/rows_and_terms.sh [FOLDER]
set -euo pipefail
cd "$(dirname "$0")/.."
copy=${1:-$(mktemp -d)}
mkdir -p "$copy"
rm -rf "$copy/crates"
tar -c --exclude=out crates crates.txt | tar -x -C "$copy"
cd "$copy"

# In a file a text that stands there once becomes another.
edit() {
  python3 - "$@" << 'PYTHON'
import sys
path, old, new = sys.argv[1:]
text = open(path).read()
if text.count(old) != 1:
    sys.exit(f'{path}: {text.count(old)} times {old!r}')
open(path, 'w').write(text.replace(old, new))
PYTHON
}

edit crates/rules/specs/Ranges.antt 'contract_count = 102' 'contract_count = 103'
edit crates/rules/src/ranges.rt 'CONTRACT_COUNT: u64 = 102;' 'CONTRACT_COUNT: u64 = 103;'
# Examples of the rule itself: contract 102 is no longer out of range (3); a submit, limits and a close-out of it are read and
# written, and since it has no term it is not open (6).
edit crates/rule_examples/specs/Numbers.antt '(monday, buy 0 102 26000 1, no 3)' '(monday, buy 0 102 26000 1, no_of 6 102)'
sed -i 's/0 ∷ 101 ∷ \[\], 102 ∷ \[\]/0 ∷ 102 ∷ [], 103 ∷ []/' crates/range_examples/specs/Records.antt crates/range_examples/specs/Damage.antt
# One contract more has five prices and 32 rows.
sed -i -e 's/510/515/g' -e 's/3264/3296/g' crates/range_examples/specs/Fresh.antt crates/range_examples/specs/Lengths.antt
sed -i -e 's/509/514/' -e 's/3263/3295/' crates/range_examples/specs/Lengths.antt
sed -i -e '5s/^ 3$/kind 1 86399 0 102 0 0 1000000 1 0 0 0 wrote 15 again/' \
  -e '21s/^ 3$/kind 3 102 1 1000000 0 0 0 wrote 10 again/' \
  -e '41s/^ 3$/kind 6 102 1000 0 0 0 wrote 4 again/' crates/codec_cases/stdout
rt all check
