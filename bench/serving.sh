#!/bin/sh
# Builds the programs `serving` and `opening` over the crates of a tree, as plain Rust and without a proof: bench/serving.sh TREE FOLDER. What
# FOLDER has of an earlier build is kept.
set -eu
here=$(cd "$(dirname "$0")" && pwd)
tree=$1 to=$2
mkdir -p "$to"

# The crates that a store stands on, the lowest first, and those for which something simpler stands.
low="units truetime counts disk simdisk record spelling frames gatelog message protocol locks facts versions safetime rows ledger memory
participant coordinator recovery book shard inspector growing board"
simpler="progress output settings tickets"
high="session letters client workers node store"

externs() {
    for library in "$1"/lib*.rlib; do
        name=$(basename "$library" .rlib)
        printf ' --extern %s=%s' "${name#lib}" "$library"
    done
}

# A library of some file, over those that are there: library CRATE FILE.
library() {
    # shellcheck disable=SC2046
    rustc --edition 2021 -O -A warnings --crate-type rlib --crate-name "$1" "$2" $(externs "$to") -L "$to" -o "$to/lib$1.rlib"
}

[ -f "$to/libshim.rlib" ] || rustc --edition 2021 -O --crate-type rlib --crate-name shim "$here/shim.rs" -o "$to/libshim.rlib"
for crate in $low $simpler $high; do
    [ ! -f "$to/lib$crate.rlib" ] || continue
    if [ -f "$here/standins/$crate.rs" ]; then
        library "$crate" "$here/standins/$crate.rs"
        continue
    fi
    rm -rf "${to:?}/$crate"
    python3 "$here/plain.py" "$tree/crates/$crate/src" "$to/$crate"
    [ "$crate" != store ] || python3 "$here/without_folders.py" "$to/store"
    library "$crate" "$to/$crate/lib.rs"
done
for program in serving opening; do
    # shellcheck disable=SC2046
    rustc --edition 2021 -C opt-level=3 -A warnings --crate-name "$program" "$here/$program.rs" $(externs "$to") -L "$to" -o "$to/$program"
done
