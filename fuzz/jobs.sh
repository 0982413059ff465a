#!/usr/bin/env bash
# Compares the call for C and the harvest program with a listing written from docs/ alone, on random jobs: fuzz/jobs.sh [JOBS [SEED]]
set -euo pipefail
cd "$(dirname "$0")/.."
(cd crates/job_c && rt lib) >&2
(cd crates/harvest && rt run < /dev/null) >&2
mkdir -p target
kit=$(dirname "$(rt doc)")
c++ -std=c++17 -O2 -Wall -Wextra -Iinclude fuzz/jobs.cpp crates/job_c/out/libjob_c.a "$kit"/c/lib*_c.a -o target/fuzz-jobs
exec target/fuzz-jobs crates/harvest/out/harvest "${1:-10000}" "${2:-1}"
