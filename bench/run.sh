#!/bin/sh
# Times the store as it stands here, as it stood at each revision that is named, and a plain engine of the same design, side by
# side: bench/run.sh [REVISION..] [-- SCENE..]. The scenes `inspect`, `boards` and `drives` are programs of their own, and are named
# alone. It needs rustc and python3, proves nothing, and leaves all that it makes in a new folder, which it names.
set -eu
here=$(cd "$(dirname "$0")" && pwd)
top=$(dirname "$here")
made=$(mktemp -d "${TMPDIR:-/tmp}/bench.XXXXXX")

# The crates that the core of a shard stands on, the lowest first. Earlier revisions have `waiting` and `ceiling`.
crates="units truetime counts waiting disk simdisk record spelling frames gatelog message protocol locks facts versions renewal safetime rows
ledger memory participant coordinator ceiling recovery book shard inspector growing board"

externs() {
    for library in "$1"/lib*.rlib; do
        name=$(basename "$library" .rlib)
        printf ' --extern %s=%s' "${name#lib}" "$library"
    done
}

# A program, put into a folder: link PROGRAM FOLDER [FLAG..].
link() {
    program=$1 folder=$2
    shift 2
    rustc --edition 2021 -C opt-level=3 -C lto=fat -C codegen-units=1 --crate-name "$program" "$here/$program.rs" "$@" \
        -o "$folder/$program"
}

# A library of some file, over those that are there: library CRATE FILE FOLDER.
library() {
    # shellcheck disable=SC2046
    rustc --edition 2021 -O -A warnings --crate-type rlib --crate-name "$1" "$2" $(externs "$3") -L "$3" -o "$3/lib$1.rlib"
}

# The threads of a drive over the crates of a tree. In the place of settings as text, of ids that are drawn, and of what is shown while it
# runs stands what is in `standins`; of two crates only the files that a drive over disks needs are taken.
build_drives() {
    tree=$1 to=$2
    for crate in progress output settings tickets; do
        library "$crate" "$here/standins/$crate.rs" "$to"
    done
    for crate in session letters client workers desk node fleet inspection drive; do
        # Earlier revisions have no client of its own; desks and openings were crates, and are modules of `node`.
        [ -d "$tree/crates/$crate" ] || continue
        python3 "$here/plain.py" "$tree/crates/$crate/src" "$to/$crate"
        case $crate in
        inspection) echo 'use shim::prelude::*; mod judged; pub use judged::judge;' >"$to/$crate/lib.rs" ;;
        drive)
            rm -f "$to/drive/shards.rs"
            # Earlier revisions drive by the machine's clock; this one is told the clock.
            driver='pub use engine::drive;'
            grep -q 'pub fn drive<' "$to/drive/engine.rs" || driver=$(cat "$here/standins/drive.rs")
            { echo "use shim::prelude::*; $driver" && (cd "$to/drive" && ls | sed -n 's/^\(.*\)\.rs$/mod \1;/p' | grep -v lib); } >"$to/lib.rs"
            mv "$to/lib.rs" "$to/drive/lib.rs"
            ;;
        esac
        library "$crate" "$to/$crate/lib.rs" "$to"
    done
    desks=$tree/crates/desk/src/desk.rt
    if [ ! -f "$desks" ]; then
        desks=$tree/crates/node/src/desk.rt
        echo 'pub use node::Desk;' >"$to/desk.rs"
        library desk "$to/desk.rs" "$to"
    fi
    # shellcheck disable=SC2046
    link drives "$to" $(externs "$to") -L "$to" -A warnings
    # shellcheck disable=SC2046
    link holding "$to" $(externs "$to") -L "$to" -A warnings
    # Earlier revisions have no horizon.
    grep -q 'fn keep_for' "$desks" || return 0
    # shellcheck disable=SC2046
    link forgetting "$to" $(externs "$to") -L "$to" -A warnings
    # Nor are their logs turned over.
    grep -q 'fn renew' "$desks" || return 0
    # shellcheck disable=SC2046
    link renewing "$to" $(externs "$to") -L "$to" -A warnings
}

# The programs over the crates of a tree.
build() {
    tree=$1 to=$2
    mkdir -p "$to"
    rustc --edition 2021 -O --crate-type rlib --crate-name shim "$here/shim.rs" -o "$to/libshim.rlib"
    for crate in $crates; do
        [ -d "$tree/crates/$crate" ] || continue
        python3 "$here/plain.py" "$tree/crates/$crate/src" "$to/$crate"
        library "$crate" "$to/$crate/lib.rs" "$to"
    done
    [ ! "$driven" ] || build_drives "$tree" "$to"
    for program in store inspect viewing; do
        # Earlier revisions lack what some need.
        case $program in
        inspect) [ -d "$tree/crates/inspector" ] || continue ;;
        viewing) [ -f "$tree/crates/board/src/publisher.rt" ] || continue ;;
        esac
        if grep -q 'fn horizon' "$tree/crates/board/src/publisher.rt" 2>/dev/null; then horizons='--cfg horizons'; else horizons=; fi
        ! grep -q 'places: &Places' "$tree/crates/board/src/making.rt" 2>/dev/null || horizons="$horizons --cfg places"
        # shellcheck disable=SC2046,SC2086
        link "$program" "$to" $(externs "$to") -L "$to" $horizons
    done
}

revisions=
while [ $# -gt 0 ] && [ "$1" != -- ]; do
    revisions="$revisions $1"
    shift
done
[ $# -eq 0 ] || shift

# Scenes of the store, and so of the engine, are named, or all.
case "$*" in
inspect | boards | drives | 'inspect boards' | 'boards inspect') timed= ;;
*) timed=yes ;;
esac
case " $* " in
*' drives '*) driven=yes ;;
*) driven= ;;
esac

build "$top" "$made/here"
for revision in $revisions; do
    mkdir -p "$made/$revision/tree"
    git -C "$top" archive "$revision" crates | tar -x -C "$made/$revision/tree"
    build "$made/$revision/tree" "$made/$revision"
done
[ ! "$timed" ] || link engine "$made"
echo "$made"
for place in here $revisions; do
    echo "== $place"
    [ ! "$timed" ] || "$made/$place/store" "$@"
    case " $* " in
    '  ' | *' inspect '*) [ ! -x "$made/$place/inspect" ] || "$made/$place/inspect" ;;
    esac
    case " $* " in
    '  ' | *' boards '*) [ ! -x "$made/$place/viewing" ] || "$made/$place/viewing" ;;
    esac
    if [ "$driven" ]; then
        "$made/$place/drives" memory,files 1,2,4 1,4,16,64 1000 100000
        "$made/$place/drives" slow 1,2 1,4,16 100 100000
        "$made/$place/holding"
        [ ! -x "$made/$place/forgetting" ] || "$made/$place/forgetting"
        [ ! -x "$made/$place/renewing" ] || "$made/$place/renewing"
    fi
done
if [ "$timed" ]; then
    echo "== engine"
    "$made/engine" "$@"
fi
