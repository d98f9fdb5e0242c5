#!/bin/sh
# Keeps the proved static library in the repository, so that a build needs no proof.
#
#   tools/keep-archive.sh           has rt build it, and puts it into lib/x86_64 with its text; for whoever
#                                   changes a source of it
#   tools/keep-archive.sh --check   compares the one that rt has just built with the kept one: they must be
#                                   the same where rt is of the version that the kept text names
#
# tools/archive.rs says what the text has. It needs rt and rustc.
set -eu
cd "$(dirname "$(readlink -f "$0")")/.."
kept=lib/x86_64
built=target/staticlib

say() { printf 'keep-archive: %s\n' "$*"; }

case "$*" in
'' | --check) ;;
*) say "usage: tools/keep-archive.sh [--check]" >&2; exit 2 ;;
esac

work=$(mktemp -d)
trap 'rm -rf "$work"' EXIT
version=$(rt version)
rustc --edition 2021 -D warnings -o "$work/describe" tools/describe_archive.rs
# The hash of the sources at hand. Any file stands for the archive.
sources() { "$work/describe" crates.txt "$version" | grep '^sources '; }

if [ $# -eq 0 ]; then
    before=$(sources)
    tools/static-libraries.sh recorder
    if [ "$(sources)" != "$before" ]; then
        say "the sources were changed while rt built the library: nothing is kept, run it again" >&2
        exit 1
    fi
fi
"$work/describe" "$built/librecorder.a" "$version" >"$work/librecorder.txt"

if [ $# -eq 0 ]; then
    mkdir -p "$kept"
    cp "$built/librecorder.a" "$work/librecorder.txt" "$kept"
    say "$kept has the library that $version built"
    exit
fi

of=$(sed -n 's/^toolchain //p' "$kept/librecorder.txt")
if [ "$of" != "$version" ]; then
    say "rt is $version and the kept archive is of $of: not compared; the tests use the one just built"
    exit
fi
for file in "$built/librecorder.a" "$work/librecorder.txt"; do
    if ! cmp "$file" "$kept/${file##*/}"; then
        say "$kept is not what rt builds from the sources at hand: run tools/keep-archive.sh" >&2
        exit 1
    fi
done
say "$kept is what rt builds from the sources at hand, byte for byte"
