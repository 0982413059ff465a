#!/usr/bin/env bash
# Compares books with the separate program of crates/crosscheck on very many random cards: fuzz/cards.sh [FIRST_SEED [SEEDS]]
# Where they differ, `target/bin/crosscheck SEED 1` compares on that one map again.
set -euo pipefail
cd "$(dirname "$0")/.."
first=${1:-1000000}
seeds=${2:-100000}
(cd crates/crosscheck && rt run -- 1 0) >&2
mkdir -p target/bin
cp crates/crosscheck/out/crosscheck target/bin/crosscheck

log=$(mktemp)
trap 'rm -f "$log"' EXIT
# in batches of 100 maps, so that all processors have work; a batch's lines are written at once
seq "$first" 100 $((first + seeds - 1)) |
    xargs -P "$(nproc)" -I SEED bash -c 'lines=$(target/bin/crosscheck SEED 100) && echo "$lines"' > "$log"
if grep 'they differ' "$log"; then exit 1; fi
echo "$(grep -c '^links' "$log") times 100 maps, each under five tariffs: no difference"
