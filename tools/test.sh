#!/usr/bin/env bash
# Passes every test of the repository, and installs what it needs: the rules of the house, the layout, every proof,
# every must-fail edit, with what was refused for a misfit and not for a fact, and what they cost, every program's
# output, and the comparisons with the independent model, part by part and whole, from C and from Rust.
# Its last line is 'N passed, M failed', summed over all of it; it exits non-zero if anything failed.
set -u
cd "$(dirname "$0")/.."
passed=0 failed=0

say() { printf '\n== %s\n' "$*"; }

# Adds a step's own 'N passed, M failed' line, the last in its log, to the sum. A step without one, or that ended badly
# without a failure of its own, is a failure.
add() { # STATUS LOG
    local line n m
    line=$(grep -E '^[0-9]+ passed, [0-9]+ failed$' "$2" | tail -n 1)
    n=${line%% *} m=${line#*, } m=${m%% *}
    [ -n "$line" ] || { n=0 m=1; echo "no count: $2"; }
    [ "$1" -eq 0 ] || [ "$m" -gt 0 ] || m=1
    passed=$((passed + n)) failed=$((failed + m))
}

# One step that only passes or fails.
step() { # NAME COMMAND..
    local name=$1
    shift
    if "$@"; then passed=$((passed + 1)); else failed=$((failed + 1)); echo "FAILED: $name"; fi
}

# Proves the kit's own crates, and notes the processor's time that it took, the user's and the system's.
yardstick() {
    local TIMEFORMAT='%U %S'
    { time step "rt selftest" rt selftest 2>&1; } 2>>"$logs/yardstick"
}

finish() {
    echo
    echo "$passed passed, $failed failed"
    [ "$failed" -eq 0 ] || exit 1
    exit 0
}

logs=$(mktemp -d)
trap 'rm -rf "$logs"' EXIT

say "what it needs"
bash tools/setup.sh || { failed=1; finish; }

say "the rules of the house"
bash tools/house.sh 2>&1 | tee "$logs/house"
add "${PIPESTATUS[0]}" "$logs/house"

say "the files that a reader has to believe"
bash tools/believed.sh 2>&1 | tee "$logs/believed"
add "${PIPESTATUS[0]}" "$logs/believed"

say "the kit is whole, and how fast the machine is"
yardstick

say "layout, proofs, must-fail edits, programs"
bash tools/seconds.sh watch "$logs/checks" &
watcher=$!
rt ci 2>&1 | tee "$logs/ci"
add "${PIPESTATUS[0]}" "$logs/ci"
kill "$watcher"
# An edit that no longer fits the text is told as bad, and one may be refused only because a proof file names what it
# took away, or by a limit of the prover. Both pass in rt: here they do not.
good_edits() {
    grep -q '^rt: ok' "$logs/ci" && ! grep -E '^rt: ok.*, [0-9]+ bad' "$logs/ci" &&
        ! grep -E '^rt: must-fail .*refused, as it must be \(only ' "$logs/ci"
}
step "every must-fail edit is refused for a fact" good_edits

say "what the proofs and the must-fail edits cost"
yardstick
bash tools/seconds.sh tell "$logs/checks" "$logs/yardstick" 2>&1 | tee "$logs/seconds"
add "${PIPESTATUS[0]}" "$logs/seconds"

say "the proved code against the independent model"
bash tools/compare.sh 2>&1 | tee "$logs/compare"
add "${PIPESTATUS[0]}" "$logs/compare"

finish
