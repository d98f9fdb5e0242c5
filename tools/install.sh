#!/bin/sh
# Installs Johvimaru for programs in C, and the command:
#
#   tools/install.sh PREFIX
#
#   PREFIX/lib/libjohvimaru.a           the proved library, with what include/johvimaru.c adds
#   PREFIX/lib/pkgconfig/johvimaru.pc   for `pkg-config --cflags --libs johvimaru`
#   PREFIX/include/johvimaru.h          the header
#   PREFIX/bin/johvimaru                the command
#   PREFIX/share/man/man1/johvimaru.1   its manual page
#
# Where DESTDIR is set all of it goes below that folder, to be moved to PREFIX later. It needs cargo, a C
# compiler (CC, else cc) and ar. The library is the one that the command is linked with:
# rust/johvimaru/build.rs says which that is.
set -eu

say() { printf 'install: %s\n' "$*"; }

case "$#:${1:-}" in
1:/*) prefix=$1 ;;
1:?*) prefix=$PWD/$1 ;;
*) say "usage: tools/install.sh PREFIX" >&2; exit 2 ;;
esac
to=${DESTDIR:-}$prefix
cd "$(dirname "$(readlink -f "$0")")/.."
work=$(mktemp -d)
trap 'rm -rf "$work"' EXIT

put() { # MODE FILE NAME
    install -D -m "$1" "$2" "$to/$3"
    say "$to/$3"
}

# The command, and what cargo says of the build: the folder of the library that was linked, and the program.
cargo build --release --offline --locked --manifest-path rust/Cargo.toml -p johvimaru-cli \
    --bin johvimaru --message-format=json-render-diagnostics >"$work/messages"
library=$(sed -n 's/.*"linked_libs":\["static=recorder"\],"linked_paths":\["native=\([^"]*\)"\].*/\1/p' "$work/messages")
program=$(sed -n 's/.*"executable":"\([^"]*\)".*/\1/p' "$work/messages")

mkdir "$work/objects"
(cd "$work/objects" && ar x "$library/librecorder.a")
"${CC:-cc}" -std=c11 -O2 -fPIC -Iinclude -c include/johvimaru.c -o "$work/objects/johvimaru.o"
ar rcs "$work/libjohvimaru.a" "$work/objects"/*.o

version=$(sed -n 's/^#define JOHVIMARU_VERSION //p' include/johvimaru.h)
escaped=$(printf '%s\n' "$prefix" | sed 's/[&|\]/\\&/g')
sed -e "s|@PREFIX@|$escaped|" -e "s|@VERSION@|$version|" tools/johvimaru.pc.in >"$work/johvimaru.pc"

"$program" help --man >"$work/johvimaru.1"

put 644 "$work/libjohvimaru.a" lib/libjohvimaru.a
put 644 "$work/johvimaru.pc" lib/pkgconfig/johvimaru.pc
put 644 include/johvimaru.h include/johvimaru.h
put 755 "$program" bin/johvimaru
put 644 "$work/johvimaru.1" share/man/man1/johvimaru.1
