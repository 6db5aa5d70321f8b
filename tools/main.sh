#!/usr/bin/env bash
# Runs the bench program on the paper's listing, written as readable lines, and installs what that needs. The program is
# proved and built first, and again whenever its sources have changed.
set -u
cd "$(dirname "$0")/.."
echo "What it needs:"
bash tools/setup.sh | sed 's/^/  /'
[ "${PIPESTATUS[0]}" -eq 0 ] || exit 1
echo "The bench program, with every crate below it: some 6 minutes on two cores the first time, seconds after that."
if ! bash tools/program.sh; then
    echo "The bench program is not proved, so it is not run; target/log/program has all that the prover said." >&2
    exit 1
fi
echo "The paper's listing as readable lines, which tools/cards turns into command records:"
sed 's/^./  &/' examples/listing.txt
echo
echo "What the program answers: command number, refusal, distances worked out, cards found, and the cards:"
set -o pipefail
tools/cards <examples/listing.txt | target/bin/bench
