#!/usr/bin/env bash
# Compiles the C example against include/plotvuga.h and the library, runs it and compares what it prints. The library is
# libplotvuga.a of target/staticlib, or of the directory that PLOTVUGA_LIB_DIR names. Needs a C compiler.
set -u
cd "$(dirname "$0")/.."
passed=0 failed=0
lib=${PLOTVUGA_LIB_DIR:-$PWD/target/staticlib}/libplotvuga.a
out=target/c_example
mkdir -p "$out"
rm -f "$out/listing" "$out/listing.out" # so that nothing of an earlier run is compared

step() { # NAME COMMAND..
    local name=$1
    shift
    if "$@"; then passed=$((passed + 1)); else failed=$((failed + 1)); echo "FAILED: $name"; fi
}

finish() {
    echo "$passed passed, $failed failed"
    [ "$failed" -eq 0 ] || exit 1
    exit 0
}

[ -f "$lib" ] || { echo "no $lib: bash tools/library.sh plotvuga builds it"; failed=1; finish; }
# The header alone, twice, in every C that it is meant for.
for std in c99 c11 c17; do
    step "header in $std" sh -c "printf '#include \"plotvuga.h\"\n#include \"plotvuga.h\"\n' |
        gcc -x c -std=$std -Wall -Wextra -Wpedantic -Wstrict-prototypes -Werror -Iinclude -fsyntax-only -"
done
# .. and in C++, whose programs it serves as well.
if command -v g++ >/dev/null; then
    step "header in C++" sh -c "printf '#include \"plotvuga.h\"\n#include \"plotvuga.h\"\n' |
        g++ -x c++ -std=c++11 -Wall -Wextra -Wpedantic -Werror -Iinclude -fsyntax-only -"
else
    echo "no g++ here: the header is not tried in C++"
fi
step "compile" gcc -std=c99 -O1 -g -Wall -Wextra -Wpedantic -Wstrict-prototypes -Werror -Iinclude -o "$out/listing" \
    examples/c/listing.c "$lib"
step "run" sh -c "'$out/listing' >'$out/listing.out'"
step "lines" diff -u examples/c/listing.expected "$out/listing.out"
# The example begins with the paper's listing.
step "listing" sh -c "head -n 11 '$out/listing.out' | cmp - examples/listing.expected"
finish
