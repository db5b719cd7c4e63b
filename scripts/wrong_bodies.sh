#!/bin/sh
# Tries wrong bodies of wrong-bodies/CRATE/*.edit: the prover must refuse each of them.
#     scripts/wrong_bodies.sh                     all of them, in 15 to 20 minutes on four processors
#     scripts/wrong_bodies.sh CRATE...            those of some crates: when a crate's contracts change
#     scripts/wrong_bodies.sh CRATE/NAME...       these
#     scripts/wrong_bodies.sh --changed [COMMIT]  those of the crates whose contracts are others than at a commit (scripts/changed_contracts.sh)
# They stand in the place of the gate's, in a room of these crates and of those below, so that the gate's own command tries them there. Libraries
# that the gate proved on this machine are not proved again, where the kit keeps that. As many checks go at a time as there are processors, or JOBS.
set -eu
root=$(dirname "$(dirname "$(readlink -f "$0")")")
cd "$root"
at_gate=
if [ "${1:-}" = --changed ]; then
    at_gate=yes
    shift
    changed=$(scripts/changed_contracts.sh "$@")
    set -- $changed
    if [ $# -eq 0 ]; then
        echo "wrong bodies: none to try"
        exit 0
    fi
    echo "wrong bodies: of $*"
elif [ $# -eq 0 ]; then
    set -- $(cd wrong-bodies && ls)
fi

room=$(mktemp -d)
trap 'rm -rf "$room" "$room.edits"' EXIT
for name; do
    found=$(ls "wrong-bodies/$name.edit" 2>/dev/null || ls "wrong-bodies/$name"/*.edit 2>/dev/null || true)
    if [ -z "$found" ]; then
        echo "wrong bodies: there are none of '$name'" >&2
        exit 2
    fi
    echo "$found"
done >"$room.edits"
crates=$(sed 's|wrong-bodies/\([^/]*\)/.*|\1|' "$room.edits" | sort -u)
scripts/room.sh "$room" $crates
while IFS= read -r edit; do
    to=$room/crates/$(basename "$(dirname "$edit")")/must-fail
    mkdir -p "$to"
    cp "$edit" "$to"
done <"$room.edits"

RT_JOBS=${JOBS:-$(nproc)}
export RT_JOBS
if rt help 2>&1 | grep -q '^  rt ci NAME'; then
    (cd "$room" && rt ci) >"$room/said" 2>&1 || true
else
    # Such a kit begins with what this clone's own checks kept of libraries, by the sums of their sources.
    for kept in crates/*/out/rlib; do
        [ -d "$kept" ] && [ -d "$room/${kept%/out/rlib}" ] || continue
        mkdir -p "$room/${kept%/rlib}"
        cp -al "$kept" "$room/${kept%/rlib}" 2>/dev/null || cp -a "$kept" "$room/${kept%/rlib}"
    done
    (cd "$room" && rt must-fail $crates) >"$room/said" 2>&1 || true
fi

# Says of each that it was refused, and why, or that it was not. An edit that can't be applied, compiled or read tells nothing of a contract; it has
# to be mended. It fails a call of this script, but not the gate, as with the gate's own edits.
grep '^rt: must-fail \|error\|NOT PROVED\|BAD EDIT\|rt: stopped' "$room/said" | sort -u || true
wanted=$(wc -l <"$room.edits")
refused=$(grep -c '^rt: must-fail .*: refused, as it must be' "$room/said" || true)
bad=$(grep -c '^rt: must-fail .*: BAD EDIT' "$room/said" || true)
echo "wrong bodies: $refused refused, $bad bad edits, $((wanted - refused - bad)) not refused"
[ -z "$at_gate" ] || refused=$((refused + bad))
[ "$refused" -eq "$wanted" ]
