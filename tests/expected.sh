#!/bin/sh
# The stored outputs of lockplay's scripts are what the independent model prints for them.
#
# usage: expected.sh check COMPARE   fails where one isn't, or where the gate's script lacks a kind of line
#        expected.sh write COMPARE   writes them all again
# COMPARE is the comparison program; it needs no library for this.
set -eu
how=$1
compare=$2
cd "$(dirname "$0")/.."
count=0
right=0
failed=0

# One script and its stored output.
one() {
    count=$((count + 1))
    if [ "$how" = write ]; then
        "$compare" expect "$1" >"$2"
    fi
    if "$compare" expect "$1" | diff "$2" -; then
        right=$((right + 1))
    else
        echo "FAILED: $2 isn't what the model prints for $1 (< is stored, > is the model's); make expect writes it again"
        failed=1
    fi
}

one crates/lockplay/stdin crates/lockplay/stdout
for script in examples/bench/*.txt; do
    one "$script" "${script%.txt}.expected"
done
for expected in examples/bench/*.expected; do
    if [ ! -e "${expected%.expected}.txt" ]; then
        echo "FAILED: $expected has no script"
        failed=1
    fi
done
"$compare" forms crates/lockplay/stdin || failed=1
echo "expected: $right of $count outputs are the model's"
exit $failed
