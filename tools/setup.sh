#!/usr/bin/env bash
# Sees to what the repository needs: Rattle's kit (`rt`) and a Rust of 1.89 or newer, which must be there, and a C
# compiler, bc and perl, which are installed as Debian's packages where they are missing.
set -u
if ! command -v rt >/dev/null; then
    echo "rt, of Rattle's kit, is not on the PATH: nothing can be proved or built without it" >&2
    exit 1
fi
if ! command -v cargo >/dev/null; then
    echo "cargo is not on the PATH: the comparisons need a Rust of 1.89 or newer, and Debian's is older" >&2
    exit 1
fi
missing=''
command -v bc >/dev/null || missing="$missing bc"
command -v perl >/dev/null || missing="$missing perl"
command -v gcc >/dev/null || missing="$missing gcc libc6-dev"
if [ -n "$missing" ]; then
    # shellcheck disable=SC2086
    { apt-get update -q && apt-get install -q -y $missing; } || exit 1
fi
rt version
cargo --version
