#!/bin/sh
# The header alone: it compiles as C99, C11 and C++ without a warning, and so do the functions that the manual shows; an answer that is taken for
# something else doesn't compile; and no constant's name is the beginning of another's.
#
# usage: header.sh   Other compilers may be given in CC and CXX.
set -eu
here=$(cd "$(dirname "$0")" && pwd)
header=$here/../include/zamgyorud.h
work=$(mktemp -d)
trap 'rm -rf "$work"' EXIT
failed=0
fail() {
    echo "FAILED: $1"
    failed=1
}

# Compiles a function that has the line given. The header is included twice.
compiles() { # LINE COMPILER STANDARD LANGUAGE
    printf '#include <zamgyorud.h>\n#include <zamgyorud.h>\nint made(void);\nint made(void) {\n    %s\n    return 0;\n}\n' "$1" |
        "$2" -std="$3" -x "$4" -Wall -Wextra -Wpedantic -Wconversion -Wsign-conversion -Wshadow -Werror -fsyntax-only -I"$(dirname "$header")" -
}

# In each language: all that the header has, then each misuse.
tried() { # COMPILER STANDARD LANGUAGE
    compiles '' "$@" || fail "the header in $2"
    for line in \
        'return (int)zamgyorud_refusal(zamgyorud_poll(NULL, 0, NULL, 0, 1));' \
        'return (int)zamgyorud_mark(zamgyorud_poll(NULL, 0, NULL, 0, 1));' \
        'return (int)zamgyorud_purged_blocked(zamgyorud_purge(NULL, 0, NULL, 0, 1));' \
        'return (int)zamgyorud_purged_unread(zamgyorud_purge(NULL, 0, NULL, 0, 1));' \
        'return (int)zamgyorud_holder_client(zamgyorud_holder(NULL, 0, NULL, 0));' \
        'uint32_t sound = zamgyorud_sound(NULL, 0, NULL, 0); return (int)sound;'; do
        compiles "$line" "$@" || fail "in $2: $line"
    done
    for line in \
        'return (int)zamgyorud_refusal(zamgyorud_holder(NULL, 0, NULL, 0));' \
        'return (int)zamgyorud_result(zamgyorud_sound(NULL, 0, NULL, 0));' \
        'return (int)zamgyorud_holder_client(zamgyorud_poll(NULL, 0, NULL, 0, 1));' \
        'return (int)zamgyorud_holder_refusal(257);' \
        'return (int)zamgyorud_lock(1);' \
        'return (int)zamgyorud_mark(zamgyorud_holder(NULL, 0, NULL, 0));' \
        'return (int)zamgyorud_purged_blocked(1);' \
        'return (int)zamgyorud_purged_unread(zamgyorud_holder(NULL, 0, NULL, 0));' \
        'uint64_t answer = zamgyorud_poll(NULL, 0, NULL, 0, 1); return (int)answer;' \
        'uint32_t client = zamgyorud_holder(NULL, 0, NULL, 0); return (int)client;' \
        'if (zamgyorud_purge(NULL, 0, NULL, 0, 1)) return 1;'; do
        ! compiles "$line" "$@" 2>"$work/said" || fail "it compiles in $2: $line"
    done
}
tried "${CC:-cc}" c99 c
tried "${CC:-cc}" c11 c
tried "${CXX:-c++}" c++11 c++
tried "${CXX:-c++}" c++17 c++

# The functions that the manual shows. One of them calls two functions of the program's own.
sh "$here/blocks.sh" "$here/../docs/MANUAL.md" "$work/blocks"
{
    printf '#include <zamgyorud.h>\n'
    printf 'void ended(uint32_t client, uint32_t lock, uint32_t completion);\nvoid in_the_way(uint32_t client, uint32_t lock, uint32_t mark);\n'
    cat "$work/blocks"/*.c
} > "$work/manual.c"
"${CC:-cc}" -std=c99 -pedantic -Wall -Wextra -Wno-unused-function -Werror -fsyntax-only -I"$(dirname "$header")" "$work/manual.c" ||
    fail 'what the manual shows'

# The parts of the version begin as the version does, and mean it.
sed -n 's/^#define \(ZAMGYORUD_[A-Z_]*\).*/\1/p' "$header" | grep -v '^ZAMGYORUD_VERSION_' | sort > "$work/names"
while read -r name; do
    longer=$(grep "^$name." "$work/names" || true)
    [ -z "$longer" ] || fail "$name is the beginning of $longer"
done < "$work/names"
uniq -d "$work/names" | grep . && fail 'a name is there twice'
[ $failed = 0 ] && echo "header: C99, C11 and C++, $(grep -c . "$work/names") constants"
exit $failed
