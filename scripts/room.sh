#!/bin/sh
# Lays some crates, and all that they stand on, into a folder as a repository of its own: without their wrong bodies and without what was made of
# them before. There the gate proves these crates and no others, and what it keeps of them serves the whole repository too.
#     scripts/room.sh FOLDER CRATE...
set -eu
cd "$(dirname "$(dirname "$(readlink -f "$0")")")"
room=$1
shift
for name; do
    scripts/crates_below.sh "$name"
done | awk '!seen[$0]++' >"$room/names"

mkdir -p "$room/crates" "$room/.git"
cp HANDLES "$room"
while IFS= read -r name; do
    tar -cf - --exclude="crates/$name/out" --exclude="crates/$name/must-fail" "crates/$name" | tar -xf - -C "$room"
    grep -E "^$name( [^:]*)?:" crates.txt >>"$room/crates.txt"
done <"$room/names"
rm "$room/names"
