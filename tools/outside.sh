#!/usr/bin/env bash
# Uses the library as a stranger would, from a folder outside the repository: it is installed there, and a first program
# is built by the very lines that README.md gives, in C static, shared and by pkg-config, and in Rust; and the installed
# tool for the bench is used. The library is libplotvuga.a of target/staticlib, or of the directory that
# PLOTVUGA_LIB_DIR names. Needs a C compiler and Rust.
set -u -o pipefail
cd "$(dirname "$0")/.."
repository=$PWD
passed=0 failed=0
export PLOTVUGA_LIB_DIR=${PLOTVUGA_LIB_DIR:-$PWD/target/staticlib} CARGO_NET_OFFLINE=true CARGO_TERM_COLOR=never
lib=$PLOTVUGA_LIB_DIR/libplotvuga.a
[ -f "$lib" ] || {
    echo "no $lib: bash tools/library.sh plotvuga builds it"
    echo "0 passed, 1 failed"
    exit 1
}
work=$(mktemp -d)
trap 'rm -rf "$work"' EXIT
export PREFIX=$work/installed

step() { # NAME COMMAND..
    local name=$1
    shift
    if "$@" >"$work/log" 2>&1; then
        passed=$((passed + 1))
    else
        failed=$((failed + 1))
        cat "$work/log"
        echo "FAILED: $name"
    fi
}

# The lines of README.md's own that begin so, without the comment behind them.
readme() { sed -nE "s/^ {4}($1.*)\$/\1/p" "$repository/README.md" | sed 's/ *  # .*//'; }

# Runs what was built and compares what it prints.
prints() { "$@" | diff -u "$repository/examples/first.expected" -; }

step "install" bash tools/install.sh "$PREFIX" "$lib"
step "the calls of the header can be seen, and nothing else" diff \
    <(grep -oE '^uint32_t plotvuga_[a-z]+' include/plotvuga.h | cut -d' ' -f2 | sort) \
    <(nm -D --defined-only "$PREFIX/lib/libplotvuga.so" | awk '{ print $3 }' | sort)
step "for a package" env DESTDIR="$work/package" bash tools/install.sh /opt/plotvuga "$lib"
step "the package's prefix" grep -qx 'prefix=/opt/plotvuga' "$work/package/opt/plotvuga/lib/pkgconfig/plotvuga.pc"

mkdir "$work/c"
cp examples/c/first.c "$work/c/program.c"
shared=$(sed -nE 's/^#define PLOTVUGA_VERSION_MAJOR ([0-9]+)$/libplotvuga.so.\1/p' include/plotvuga.h)
needs() { readelf -d program | grep -F "NEEDED" | grep -qF "[$shared]"; }
# Builds by one of the lines, sees how the library was linked, and runs what came of it.
built() { # LINE
    cd "$work/c" || return 1
    rm -f program
    bash -c "$1" || return 1
    case $1 in
    *pkg-config*) needs && LD_LIBRARY_PATH=$PREFIX/lib prints ./program ;;
    *-lplotvuga*) needs && prints ./program ;;
    *) ! needs && prints ./program ;;
    esac
}
export PKG_CONFIG_PATH=$PREFIX/lib/pkgconfig
lines=0
while IFS= read -r line; do
    lines=$((lines + 1))
    case $line in
    *pkg-config*) command -v pkg-config >/dev/null || { echo "no pkg-config here, so not tried: $line"; continue; } ;;
    esac
    step "$line" built "$line"
done < <(readme 'cc ')
cd "$repository" || exit 1
step "README.md's three lines for C" [ "$lines" -eq 3 ]

# The same package twice: without the library it must say what to do, and with it it must run.
mkdir -p "$work/rust/src" "$work/none"
cp examples/rust/first.rs "$work/rust/src/main.rs"
ln -s "$repository" "$work/plotvuga"
printf '[package]\nname = "first"\nversion = "0.1.0"\nedition = "2021"\n\n[dependencies]\n' >"$work/rust/Cargo.toml"
readme 'plotvuga = ' >>"$work/rust/Cargo.toml"
outside() { (cd "$work/rust" && CARGO_TARGET_DIR=$work/rust/target "$@"); }
says() { ! outside env PLOTVUGA_LIB_DIR="$work/none" cargo build -q 2>"$work/said" && grep "$1" "$work/said"; }
step "without the library" says "bash tools/library.sh plotvuga"
step "in Rust" prints outside cargo run -q
step "in Rust, with what was installed" prints outside env PLOTVUGA_LIB_DIR="$PREFIX/lib" cargo run -q

# The tool that was installed, in a folder of its own.
bench() (
    mkdir "$work/bench" && cd "$work/bench" || return 1
    PATH=$PREFIX/bin:$PATH
    rack new failed.table --records 64 && rack failed.table insert <"$repository/examples/night.txt" || return 1
    rack failed.table search radius 5 readings 319 |
        diff -u <(printf '2 cards within 5; 7 of 12 stored cards compared\n  card 18, 1 away\n  card 11, 2 away\n') -
)
step "the tool for the bench" bench
echo "$passed passed, $failed failed"
[ "$failed" -eq 0 ]
