#!/usr/bin/env bash
# Installs the library for C and the tool for the bench: bash tools/install.sh PREFIX puts the header, the static and
# the shared library, a file for pkg-config and the program rack under PREFIX, or under $DESTDIR/PREFIX where a package
# is made of it. The library is proved and built first, unless a second argument names a libplotvuga.a that was.
set -eu
usage='usage: bash tools/install.sh PREFIX [LIBRARY]
  PREFIX   where include/, lib/ and bin/ are, such as /usr/local; DESTDIR is put before it where that is set
  LIBRARY  a libplotvuga.a to install; without it, it is proved and built'
case ${1:-} in
-h | --help) echo "$usage"; exit 0 ;;
'' | -*) echo "$usage" >&2; exit 2 ;;
esac
[ $# -le 2 ] || { echo "$usage" >&2; exit 2; }
whole() { case $1 in '' | /*) printf %s "$1" ;; *) printf %s "$PWD/$1" ;; esac; }
prefix=$(whole "${1%/}")
to=$(whole "${DESTDIR:-}")$prefix
static=$(whole "${2:-}")
cd "$(dirname "$0")/.."

part() { sed -nE "s/^#define PLOTVUGA_VERSION_$1 ([0-9]+)\$/\1/p" include/plotvuga.h; }
major=$(part MAJOR)
version=$major.$(part MINOR).$(part PATCH)
# Programs that were linked with a library of one major version run with every later one of it.
soname=libplotvuga.so.$major
shared=libplotvuga.so.$version

if [ -z "$static" ]; then
    echo "proving and building the library: some 6 minutes on two cores the first time, seconds after that"
    bash tools/library.sh plotvuga
    static=$PWD/target/staticlib/libplotvuga.a
fi
[ -f "$static" ] || { echo "no $static" >&2; exit 1; }

work=$(mktemp -d)
trap 'rm -rf "$work"' EXIT
# Only the calls can be seen from outside, and all that they need must be found now.
echo '{ global: plotvuga_*; local: *; };' >"$work/exported"
gcc -shared -o "$work/$shared" -Wl,-soname,"$soname" -Wl,--version-script="$work/exported" -Wl,-z,defs \
    -Wl,--whole-archive "$static" -Wl,--no-whole-archive
rack=''
if command -v cargo >/dev/null; then
    (cd rust && CARGO_NET_OFFLINE=true PLOTVUGA_LIB_DIR=$(dirname "$static") cargo build --release -q -p rack)
    rack=$PWD/target/rust/release/rack
fi
cat >"$work/plotvuga.pc" <<END
prefix=$prefix
includedir=\${prefix}/include
libdir=\${prefix}/lib

Name: plotvuga
Description: A similarity index for failed relay cards, over one table of bytes that the caller lends
Version: $version
Cflags: -I\${includedir}
Libs: -L\${libdir} -lplotvuga
END

install -d "$to/include" "$to/lib/pkgconfig"
install -m 644 include/plotvuga.h "$to/include/plotvuga.h"
install -m 644 "$static" "$to/lib/libplotvuga.a"
install -m 755 "$work/$shared" "$to/lib/$shared"
ln -sfn "$shared" "$to/lib/$soname"
ln -sfn "$soname" "$to/lib/libplotvuga.so"
install -m 644 "$work/plotvuga.pc" "$to/lib/pkgconfig/plotvuga.pc"
if [ -n "$rack" ]; then
    install -d "$to/bin"
    install -m 755 "$rack" "$to/bin/rack"
    rack=$to/bin/rack
else
    rack='no rack, the tool for the bench, since cargo is not on the PATH'
fi

cat <<END
installed Plotvuga $version:
  $to/include/plotvuga.h
  $to/lib/libplotvuga.a
  $to/lib/$shared, with $soname and libplotvuga.so leading to it
  $to/lib/pkgconfig/plotvuga.pc
  $rack
a program in C, static:
  cc program.c -I$prefix/include $prefix/lib/libplotvuga.a -o program
or shared:
  cc program.c -I$prefix/include -L$prefix/lib -lplotvuga -Wl,-rpath,$prefix/lib -o program
or by pkg-config, which finds it if PKG_CONFIG_PATH holds $prefix/lib/pkgconfig:
  cc program.c \$(pkg-config --cflags --libs plotvuga) -o program
from Rust:
  PLOTVUGA_LIB_DIR=$prefix/lib cargo build, with rust/plotvuga of this repository as a dependency
END
