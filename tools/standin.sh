#!/usr/bin/env bash
# Builds a stand-in for the proved library from its unproved twin: target/standin/libplotvuga.a, with the same C
# functions. It serves to work on what stands above the library while that is not built, and to show that the tests go
# red on a wrong one: bash tools/standin.sh [SLIP], where SLIP is a feature of rust/standin, and then what is to be
# tried with PLOTVUGA_LIB_DIR=$PWD/target/standin.
set -eu
cd "$(dirname "$0")/.."
out=$PWD/target/standin
mkdir -p "$out"
export CARGO_NET_OFFLINE=true CARGO_PROFILE_RELEASE_LTO=fat CARGO_PROFILE_RELEASE_PANIC=abort
(cd rust && cargo build --release -q --target-dir "$out/build" -p standin ${1:+--features "$1"})
# One object in which only the library's functions can be seen, so that it can stand beside another Rust program's own
# runtime.
ld -r --gc-sections -e plotvuga_check -u plotvuga_clear -u plotvuga_insert -u plotvuga_delete -u plotvuga_search \
    -u plotvuga_nearest -u plotvuga_cards -u plotvuga_card -o "$out/plotvuga.o" "$out/build/release/libstandin.a"
objcopy --wildcard --keep-global-symbol='plotvuga_*' -R .llvmbc -R .llvmcmd -R .eh_frame -R .rela.eh_frame \
    "$out/plotvuga.o"
rm -f "$out/libplotvuga.a"
ar rc "$out/libplotvuga.a" "$out/plotvuga.o"
echo "$out/libplotvuga.a"
