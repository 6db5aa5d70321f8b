#!/usr/bin/env bash
# Measures the stack that each call needs at its worst, and holds it to PLOTVUGA_STACK of include/plotvuga.h. The
# library is libplotvuga.a of target/staticlib, or of the directory that PLOTVUGA_LIB_DIR names. Needs a C compiler.
set -u
cd "$(dirname "$0")/.."
lib=${PLOTVUGA_LIB_DIR:-$PWD/target/staticlib}/libplotvuga.a
mkdir -p target/c_example
[ -f "$lib" ] || { echo "no $lib: bash tools/library.sh plotvuga builds it"; echo "0 passed, 1 failed"; exit 1; }
if gcc -std=c11 -O1 -Wall -Wextra -Werror -pthread -Iinclude -o target/c_example/stack tools/stack.c "$lib" &&
    target/c_example/stack; then
    echo "1 passed, 0 failed"
else
    echo "0 passed, 1 failed"
    exit 1
fi
