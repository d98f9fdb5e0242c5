#!/bin/sh
# Has rt prove and build the static libraries, for any x86-64, and puts them into target/staticlib, where
# tests/build.rs and rust/johvimaru/build.rs look for them:
#
#   tools/static-libraries.sh           recorder and harness
#   tools/static-libraries.sh NAME..    those that are named
set -eu
cd "$(dirname "$(readlink -f "$0")")/.."
built=target/staticlib

[ $# -ne 0 ] || set -- recorder harness
mkdir -p "$built"
for name; do
    (cd "crates/$name" && rt lib --cpu x86-64)
    cp "crates/$name/out/lib$name.a" "$built"
done
