#!/usr/bin/env bash
# Proves a static library and builds it: bash tools/library.sh plotvuga leaves target/staticlib/libplotvuga.a, where the
# Rust crates look for it. What the prover says stands in target/log/library-NAME.
set -eu
cd "$(dirname "$0")/.."
name=${1:-plotvuga}
mkdir -p target/staticlib target/log
log=$PWD/target/log/library-$name
if ! (cd "crates/$name" && rt lib) >"$log" 2>&1; then
    grep -vE '^(checked|statements|library|logic) ' "$log" | cut -c1-400 >&2
    exit 1
fi
cp "crates/$name/out/lib$name.a" "target/staticlib/lib$name.a"
