#!/bin/sh
# Plays each bench sequence of document 01 by lockplay, a process for each, and compares what it prints with what is stored beside it.
#
# usage: bench.sh LOCKPLAY
set -eu
lockplay=$1
cd "$(dirname "$0")/../examples/bench"
count=0
right=0
failed=0

# The folder's README says which sequences there are. A script that it doesn't name, or that isn't there, fails.
named=$(sed -n 's/^| \[\([a-z0-9-]*\)\.txt\].*/\1/p' README.md | sort)
there=$(for script in *.txt; do echo "${script%.txt}"; done | sort)
if [ "$named" != "$there" ]; then
    printf 'FAILED: README.md names\n%s\nand these are there\n%s\n' "$named" "$there"
    failed=1
fi

for name in $there; do
    count=$((count + 1))
    if "$lockplay" <"$name.txt" | diff "$name.expected" -; then
        right=$((right + 1))
    else
        echo "FAILED: $name.txt (< is expected, > is printed)"
        failed=1
    fi
done
echo "bench: $right of $count sequences as expected"
exit $failed
