#!/bin/sh
# Builds the takeover program with all warnings as errors and tries it on images that `compare` makes by the model's bytes. Then the program
# that writes images for the README.
#
# usage: takeover.sh LIB   LIB is the folder that has libzamgyorud.a and, here or in ../include, zamgyorud.h
# Further libraries to link may be given in LDLIBS, another compiler in CC.
set -eu
here=$(cd "$(dirname "$0")" && pwd)
lib=$(cd "$1" && pwd)
work=$(mktemp -d)
trap 'rm -rf "$work"' EXIT

# The header beside the library, or in the repository's include folder.
for program in takeover image; do
    ${CC:-cc} -std=c99 -pedantic -O2 -Wall -Wextra -Werror -I"$lib" -I"$here/../include" \
        "$here/../examples/$program.c" "$lib/libzamgyorud.a" ${LDLIBS:-} -o "$work/$program"
done
(cd "$here/../rust" && cargo build --release --offline --quiet -p compare)
for scenario in pair lost empty unsound; do
    "$here/../rust/target/release/compare" image $scenario "$work/$scenario"
done

# Runs a program and holds what it prints and its exit code against what is expected.
failed=0
program=takeover
expect() {
    name=$1 code=$2 lines=$3
    shift 3
    got_code=0
    got=$("$work/$program" "$@" 2>&1) || got_code=$?
    if [ "$got" != "$lines" ] || [ "$got_code" != "$code" ]; then
        printf 'FAILED: %s\n  wanted (%s) %s\n  got (%s) %s\n' "$name" "$code" "$lines" "$got_code" "$got"
        failed=1
    fi
}

expect 'a pair' 0 'vip-7: client 1 holds it; unit 2 would not announce it
vip-8: unit 2 holds it itself and goes on announcing it
vip-9: nobody holds it; unit 2 would take it over and announce it
vip-10: nobody holds it; unit 2 would take it over and announce it' 2 "$work/pair" vip-7 vip-8 vip-9 vip-10
expect 'a lost unit' 0 'vip-7: unit 2 holds it itself and goes on announcing it' 2 "$work/lost" vip-7
expect 'no locks' 0 'vip-7: nobody holds it; unit 1 would take it over and announce it' 1 "$work/empty" vip-7
expect 'an unsound image' 1 'vip-7: refused, the file is no image of sound tables' 1 "$work/unsound" vip-7
most=$(sed -n 's/^#define ZAMGYORUD_NAME_BYTES //p' "$here/../include/zamgyorud.h")
long=$(printf "%0$((most + 1))d" 0)
expect 'a long name' 1 "$long: refused, an address has 1 to $most bytes
vip-7: client 1 holds it; unit 2 would not announce it" 2 "$work/pair" "$long" vip-7
expect 'an empty name' 1 ": refused, an address has 1 to $most bytes" 2 "$work/pair" ''
: > "$work/nothing"
expect 'an empty file' 1 'vip-7: refused, the file is no image of sound tables' 1 "$work/nothing" vip-7
head -c 200000 /dev/zero > "$work/long"
expect 'a long file' 1 'vip-7: refused, the file is no image of sound tables' 1 "$work/long" vip-7
expect 'no file' 3 "takeover: $work/missing: No such file or directory" 1 "$work/missing" vip-7
expect 'a folder' 3 "takeover: $work: Is a directory" 1 "$work" vip-7
usage='usage: takeover UNIT IMAGE ADDRESS...
  UNIT     this unit'"'"'s client number, 1 to 255
  IMAGE    a file with an image of the lock manager'"'"'s tables
  ADDRESS  a name to ask for; there may be several'
expect 'no arguments' 2 "$usage"
expect 'no address' 2 "$usage" 1 "$work/pair"
for unit in 0 256 -1 one 1x '' 99999999999999999999; do
    expect "unit '$unit'" 2 "$usage" "$unit" "$work/pair" vip-7
done

program=image
expect 'no files' 2 'usage: image BEFORE AFTER'
expect 'no folder' 3 "$work/missing/before: No such file or directory" "$work/missing/before" "$work/after"
expect 'a full disk' 3 '/dev/full: No space left on device' "$work/before" /dev/full
expect 'two images' 0 '' "$work/before" "$work/after"
program=takeover
expect 'before unit 1 is lost' 0 'vip-7: client 1 holds it; unit 2 would not announce it' 2 "$work/before" vip-7
expect 'after unit 1 is lost' 0 'vip-7: unit 2 holds it itself and goes on announcing it' 2 "$work/after" vip-7
[ $failed = 0 ] && echo 'takeover: all as expected'
exit $failed
