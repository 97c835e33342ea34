#!/usr/bin/env bash
# The three hosts of examples/hosts on every story: each prints what is stored, for all members. And each turns back a
# journal whose header is number 2, with status 1.
set -euo pipefail
cd "$(dirname "$0")/.."
examples/hosts/build.sh
hosts=("target/hosts/host_c" "target/hosts/host_rust" "python3 examples/hosts/host.py")
stories=0
for stored in examples/*.positions; do
  members=$(grep -c 'by contract$' "$stored")
  for host in "${hosts[@]}"; do
    if ! $host "${stored%.positions}.vjr" $(seq 0 $((members - 1))) | diff "$stored" -; then
      echo "$host differs from $stored"
      exit 1
    fi
  done
  stories=$((stories + 1))
done
for host in "${hosts[@]}"; do
  status=0
  said=$($host tests/journals/200055.vjr 0) || status=$?
  if [ "$said" != 'header refused 2' ] || [ "$status" -ne 1 ]; then
    echo "$host: '$said' with status $status for a header that is number 2"
    exit 1
  fi
done
if [ "$stories" -ne 6 ]; then
  echo "$stories stories, and there are 6"
  exit 1
fi
echo "${#hosts[@]} hosts, $stories stories"
