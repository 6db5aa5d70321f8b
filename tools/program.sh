#!/usr/bin/env bash
# Proves the bench program, builds it and runs it on no input: target/bin/bench is what came of it. What the prover says
# stands in target/log/program.
set -eu
cd "$(dirname "$0")/.."
mkdir -p target/bin target/log
log=$PWD/target/log/program
if ! (cd crates/bench && rt run) >"$log" 2>&1 </dev/null; then
    grep -vE '^(checked|statements|library|logic) ' "$log" | cut -c1-400 >&2
    exit 1
fi
cp crates/bench/out/bench target/bin/bench
