#!/usr/bin/env bash
# Types the paper's listing: examples/listing.txt through tools/cards into the bench program, whose lines are compared
# with examples/listing.expected. BENCH names another program in place of target/bin/bench.
set -u
cd "$(dirname "$0")/.."
bench=${BENCH:-target/bin/bench}
[ -x "$bench" ] || { echo "no $bench: bash tools/program.sh builds it"; echo "0 passed, 1 failed"; exit 1; }
if tools/cards <examples/listing.txt | "$bench" | diff -u examples/listing.expected -; then
    echo "1 passed, 0 failed"
else
    echo "0 passed, 1 failed"
    exit 1
fi
