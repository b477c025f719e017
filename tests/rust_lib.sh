#!/bin/sh
# The folder in which the Rust wrapper finds the library: ZAMGYORUD_LIB as a whole path, and as a path from where cargo is run.
# It needs no proved library: each folder has a stub whose zamgyorud_sound answers the folder's own number.
set -eu
here=$(cd "$(dirname "$0")" && pwd)
work=$(cd "$(mktemp -d)" && pwd -P)
trap 'rm -rf "$work"' EXIT

mkdir -p "$work/crate/src" "$work/empty"
cat > "$work/crate/Cargo.toml" <<END
[package]
name = "which"
edition = "2024"
[dependencies]
zamgyorud = { path = "$here/../rust/zamgyorud" }
[workspace]
END
cat > "$work/crate/src/main.rs" <<'END'
fn main() {
    println!("library {}", zamgyorud::raw::sound(&[], &[]));
}
END
for number in 1 2; do
    lib=$work/$number/lib
    mkdir -p "$lib"
    echo "unsigned zamgyorud_sound(void) { return $number; }" > "$lib/stub.c"
    ${CC:-cc} -c "$lib/stub.c" -o "$lib/stub.o"
    ar rc "$lib/libzamgyorud.a" "$lib/stub.o"
done

# Builds and runs the program from a folder with a value of ZAMGYORUD_LIB. What is printed must hold the text.
failed=0
expect() {
    folder=$1 value=$2 text=$3
    got=$(cd "$folder" && ZAMGYORUD_LIB=$value cargo run --offline --quiet --manifest-path "$work/crate/Cargo.toml" 2>&1) || true
    case $got in
    *"$text"*) ;;
    *)
        printf 'FAILED: ZAMGYORUD_LIB=%s in %s\n  wanted %s\n  got %s\n' "$value" "$folder" "$text" "$got"
        failed=1
        ;;
    esac
}

expect "$work" "$work/1/lib" 'library 1'
expect "$work/1" lib 'library 1'
# The same value from another folder is another library, although cargo has built the program already.
expect "$work/2" lib 'library 2'
expect "$work/1" ../2/lib 'library 2'
expect "$work/1" ./lib/ 'library 1'
expect "$work/empty" lib "$work/empty/lib/libzamgyorud.a isn't there"
expect "$work/2/lib" . 'library 2'
# make runs cargo in rust/, but the user runs make in the repository's folder.
got=$(cd "$here/.." && ZAMGYORUD_LIB=some/lib make -s --eval 'show: ; @echo "$$ZAMGYORUD_LIB"' show)
[ "$got" = "$(cd "$here/.." && pwd)/some/lib" ] || { echo "FAILED: make hands on ZAMGYORUD_LIB as $got"; failed=1; }
[ $failed = 0 ] && echo 'ZAMGYORUD_LIB: each folder as told'
exit $failed
