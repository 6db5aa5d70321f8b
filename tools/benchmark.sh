#!/usr/bin/env bash
# Prints docs/PERFORMANCE.md: the time of every call as ratios to a plain scan, a validated scan and the unproved twin,
# measured in one run of under 3 minutes.  bash tools/benchmark.sh > docs/PERFORMANCE.md
# The library is built first, unless PLOTVUGA_LIB_DIR names the directory of another libplotvuga.a.
set -eu
cd "$(dirname "$0")/.."
export CARGO_NET_OFFLINE=true CARGO_TERM_COLOR=never
if [ -z "${PLOTVUGA_LIB_DIR:-}" ]; then
    bash tools/setup.sh >&2
    bash tools/library.sh plotvuga >&2
    export PLOTVUGA_LIB_DIR=$PWD/target/staticlib
fi
cd rust
exec cargo run --release -q -p bench_calls -- "$@"
