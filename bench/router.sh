#!/usr/bin/env bash
# Times the proved router beside LEMON's solvers on the same cards, and compares what they find. LEMON is Debian's liblemon-dev.
# With two numbers: so many cards to a case, and so many rounds.
set -euo pipefail
cd "$(dirname "$0")/.."
(cd crates/bench_calls && rt lib) >&2
mkdir -p target
kit=$(dirname "$(rt doc)")
c++ -std=c++17 -O3 -Wall -Wextra bench/router.cpp crates/bench_calls/out/libbench_calls.a "$kit"/c/lib*_c.a -o target/bench-router
exec target/bench-router "$@"
