#!/usr/bin/env bash
# port_crate.sh CRATE: turns the crate's older proof files (answers.py), lays them out and checks it.
set -u
cd "$(dirname "$0")/.."
crate=$1
names=$(mktemp -d)
(cd "crates/$crate" && rt check --generated "$names/out" --old-names > "$names/log" 2>&1)
[ -f "$names/out/names.json" ] || { tail -20 "$names/log"; exit 1; }
python3 tools/answers.py "$crate" "$names/out/names.json"
rm -rf "$names"
cd "crates/$crate" && rt fmt > /dev/null 2>&1
rt check 2>&1 | grep -v '^statements\|^logic /\|^rt: note\|: proved$\|^checked \|^library \|^rt: '
