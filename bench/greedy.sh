#!/usr/bin/env bash
# Times the proved greedy search against a plain one in C++ on the same cards, and compares what they find.
set -euo pipefail
cd "$(dirname "$0")/.."
(cd crates/bench_calls && rt lib) >&2
mkdir -p target
kit=$(dirname "$(rt doc)")
c++ -std=c++17 -O3 -Wall -Wextra bench/greedy.cpp crates/bench_calls/out/libbench_calls.a "$kit"/c/lib*_c.a -o target/bench-greedy
exec target/bench-greedy
