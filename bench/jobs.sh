#!/usr/bin/env bash
# Times listings of jobs, and tells where their time goes: marks, routes, the judge of a sheet.
set -euo pipefail
cd "$(dirname "$0")/.."
(cd crates/job_c && rt lib) >&2
mkdir -p target
kit=$(dirname "$(rt doc)")
c++ -std=c++17 -O3 -Wall -Wextra -Iinclude bench/jobs.cpp crates/job_c/out/libjob_c.a "$kit"/c/lib*_c.a -o target/bench-jobs
exec target/bench-jobs
