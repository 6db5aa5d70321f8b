#!/usr/bin/env bash
# Compares the proved code with the independent model in rust/: the model's own tests, then the library's parts through
# their C functions, then the library whole from C and from Rust, then the bench program, each over a fixed, seeded set.
# Before that the Rust code's documentation and lints, for which no library has to be there, and in between what a
# stranger does with the library, outside the repository, and the tool for the bench as it is run.
# Longer runs with a seed of one's own: rust/README.md. What crates.txt does not list yet is told and left out.
set -u
cd "$(dirname "$0")/.."
passed=0 failed=0
export CARGO_NET_OFFLINE=true CARGO_TERM_COLOR=never
export PLOTVUGA_LIB_DIR=$PWD/target/staticlib

log=$(mktemp)
trap 'rm -f "$log"' EXIT

# Sums the counts that a run printed, in cargo's words or in ours; a run without any, or a bad end, is a failure.
count() { # STATUS
    local n m
    n=$(sed -nE 's/^test result: .* ([0-9]+) passed; .*/\1/p; s/^([0-9]+) passed, [0-9]+ failed$/\1/p' "$log" |
        paste -sd+ | bc)
    m=$(sed -nE 's/^test result: .* ([0-9]+) failed; .*/\1/p; s/^[0-9]+ passed, ([0-9]+) failed$/\1/p' "$log" |
        paste -sd+ | bc)
    [ "${n:-0}" -gt 0 ] || [ "${m:-0}" -gt 0 ] || m=1
    [ "$1" -eq 0 ] || [ "${m:-0}" -gt 0 ] || m=1
    passed=$((passed + ${n:-0})) failed=$((failed + ${m:-0}))
}

run() { # COMMAND..
    echo "+ $*"
    "$@" 2>&1 | tee "$log"
    count "${PIPESTATUS[0]}"
}

# Whether a crate is there to be compared, and its library or program built.
built() { # CRATE COMMAND..
    grep -qE "^$1( staticlib)?:" crates.txt || { echo "$1 is not listed in crates.txt: not compared"; return 1; }
    shift
    "$@" >"$log" 2>&1 || { cat "$log"; failed=$((failed + 1)); return 1; }
}

in_rust() { (cd rust && "$@"); }

# A command that only passes or fails, as one step. It is to need no library: an empty directory is named for it.
bare() { # COMMAND..
    local none
    none=$(mktemp -d)
    echo "+ $*"
    if in_rust env PLOTVUGA_LIB_DIR="$none" "$@"; then
        passed=$((passed + 1))
    else
        failed=$((failed + 1))
        echo "FAILED: $*"
    fi
    rmdir "$none"
}

bare env RUSTDOCFLAGS=-Dwarnings cargo doc -q --workspace --no-deps
if cargo clippy --version >"$log" 2>&1; then
    bare cargo clippy -q --workspace --all-targets -- -D warnings
else
    echo "this Rust has no clippy: the lints are not tried"
fi
run in_rust cargo test --release -q
run in_rust cargo test --release -q -p probe --features stub
if built probe bash tools/library.sh probe; then
    run in_rust cargo run --release -q -p probe --bin compare
fi
if built plotvuga bash tools/library.sh plotvuga; then
    run bash tools/c_example.sh
    run bash tools/outside.sh
    run bash tools/stack.sh
    run in_rust cargo test --release -q -p plotvuga
    run in_rust cargo test --release -q -p rack
    run in_rust cargo test --release -q -p histories
    run in_rust cargo run --release -q -p histories
fi
if built bench bash tools/program.sh; then
    run in_rust cargo run --release -q -p program -- "$PWD/target/bin/bench"
    run bash tools/text_front.sh
fi
echo "$passed passed, $failed failed"
[ "$failed" -eq 0 ]
