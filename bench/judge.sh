#!/usr/bin/env bash
# Times the proved judge on sheets of several lengths, the longest too, against a plain scan of the same records.
set -euo pipefail
cd "$(dirname "$0")/.."
(cd crates/bench_calls && rt lib) >&2
mkdir -p target
kit=$(dirname "$(rt doc)")
c++ -std=c++17 -O3 -Wall -Wextra bench/judge.cpp crates/bench_calls/out/libbench_calls.a "$kit"/c/lib*_c.a -o target/bench-judge
exec target/bench-judge
