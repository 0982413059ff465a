#!/usr/bin/env bash
# Builds the C handler over the proved listing call and runs it on a job: examples/handler.sh examples/first.job
set -euo pipefail
job=$(realpath "$1")
cd "$(dirname "$0")/.."
(cd crates/job_c && rt lib) >&2
mkdir -p target/staticlib
cp crates/job_c/out/libjob_c.a target/staticlib/libjob.a
kit=$(dirname "$(rt doc)")
cc -std=c99 -Wall -Wextra -O2 -Iinclude examples/handler.c target/staticlib/libjob.a "$kit"/c/lib*_c.a -o target/handler
exec target/handler < "$job"
