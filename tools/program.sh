#!/usr/bin/env bash
# Builds a program where it is missing or older than its source, and prints where it is: tools/program.sh NAME
set -euo pipefail
top=$(cd "$(dirname "$0")/.." && pwd)
program=$top/target/bin/$1
sources=("$top"/crates/*/{src,specs,proofs} "$top/crates.txt")
if [ ! -x "$program" ] || [ -n "$(find "${sources[@]}" -newer "$program" -type f -print -quit)" ]; then
    (cd "$top/crates/$1" && rt run < /dev/null) >&2
    mkdir -p "$top/target/bin"
    cp "$top/crates/$1/out/$1" "$program"
fi
echo "$program"
