#!/bin/sh
# Follows the README as a reader does: keeps its programs, runs its commands in their order, and compares what they print with what it shows.
# Then holds the commands of make to what `make help` lists.
#
# usage: readme.sh   after `make lib play`
#
# A block of C is program.c and a block of Rust failover/src/main.rs. A block of sh is run, and a block of text is what the one before printed.
set -eu
here=$(cd "$(dirname "$0")" && pwd)
readme=$here/../README.md
work=$(mktemp -d)
at=
trap '[ -z "$at" ] || echo "FAILED: README, block $at"; rm -rf "$work"' EXIT
# The reader starts make and cargo by hand, and has no network.
unset MAKELEVEL MAKEFLAGS MFLAGS ZAMGYORUD_LIB || true
export CARGO_NET_OFFLINE=true

sh "$here/blocks.sh" "$readme" "$work/blocks"
# A folder like the repository's, so that what the commands make stays out of the repository.
mkdir "$work/clone"
cd "$work/clone"
for part in Makefile VERSION crates crates.txt examples include rust target; do
    ln -s "$here/../$part" .
done
outputs=0
for block in "$work/blocks"/*; do
    at=$(basename "$block")
    case $at in
    *.c)
        cp "$block" program.c
        ${CC:-cc} -std=c99 -pedantic -O2 -Wall -Wextra -Werror -I"$here/../include" -fsyntax-only program.c
        ;;
    *.rust) cp "$block" "$work/clone/failover/src/main.rs" ;;
    *.sh) . "$block" > "$work/printed" ;;
    *.text)
        diff -u "$block" "$work/printed"
        outputs=$((outputs + 1))
        ;;
    *) echo "a block of a language that this test doesn't know" && exit 1 ;;
    esac
done
at=
# make play, the C program, the takeover example, the Rust program.
[ "$outputs" -ge 4 ] || { echo "FAILED: README shows $outputs outputs"; exit 1; }

cd "$here/.."
make help > "$work/help"
make | diff -u "$work/help" - || { echo 'FAILED: plain make does not print the help'; exit 1; }
awk '{ print $2 }' "$work/help" | sort > "$work/listed"
sed -n 's/^\.PHONY: //p' Makefile | tr ' ' '\n' | sort | diff -u - "$work/listed" || { echo 'FAILED: make help lists other commands than there are'; exit 1; }
unknown=$(grep -oE '(^    |`)make [a-z][a-z-]*' "$readme" | sed 's/.*make //' | sort -u | comm -23 - "$work/listed")
[ -z "$unknown" ] || { echo "FAILED: README names commands that make doesn't know: $unknown"; exit 1; }
echo "README: $outputs outputs as told"
