#!/bin/sh
# Proves and builds the program and the crates that it stands on, and shows a line for each crate. There are two ways:
#
# - Side by side: the gate's own command proves the crates in a room without their wrong bodies, one crate a processor. It keeps what it proved
#   on this machine. So a build that was broken off goes on where it was, and `./test` has less to prove.
# - In turn: each crate on all processors, or on JOBS, the lowest first. A check begins with what the last one here left of each function, which
#   is the faster way after an edit. `./test` takes none of it.
#
# It goes in turn where checks left their work in all of these crates, or where the kit keeps nothing for the gate; else side by side.
# BUILD=side or BUILD=turn decides it. What the proving of a crate says stands in its out/build.log.
set -eu
root=$(dirname "$(dirname "$(readlink -f "$0")")")
cd "$root"
top=shards
program=crates/$top/out/$top
room=$(mktemp -d)
gate=
first_crate=
trap 'rm -rf "$room" "$room.lines" "$room.began"' EXIT
trap 'kill $gate $first_crate 2>/dev/null; exit 130' HUP INT TERM

began=$(date +%s)
ended=0
kept=0
failed=
: >"$room.began"
set -- $(scripts/crates_below.sh "$top")
total=$#

# A crate has ended well, in this way.
tell() {
    ended=$((ended + 1))
    echo "$2 $1; $((total - ended)) left, $((($(date +%s) - began) / 60)) minutes gone"
    # It is checked, and compiled by two compilers, one after another, and each of these loads all that it reaches.
    [ $((total - ended)) != 1 ] || echo "build: the program itself is left, which takes one processor some 3 minutes"
}

tell_failed() {
    echo "build: $1 was not proved; what was said stands in crates/$1/out/build.log" >&2
    failed=yes
}

# Whether the kit's gate keeps what it proved.
can_keep() {
    rt help 2>&1 | grep -q '^  rt ci NAME'
}

# Whether each of these crates has work of an earlier check.
has_work() {
    for name; do
        [ "$name" = "$top" ] || [ -d "crates/$name/out/incremental" ] || return 1
    done
}

# Takes what the gate says. What it says of a crate comes at once, with the crate's name first.
read_lines() {
    log=/dev/null
    notes=
    while IFS= read -r line; do
        case $line in
        '== '*)
            name=${line#== }
            name=${name%%:*}
            mkdir -p "crates/$name/out"
            log=crates/$name/out/build.log
            : >"$log"
            ;;
        'rt: '*' is kept: '*)
            name=${line#rt: }
            kept=$((kept + 1))
            tell "${name%% is kept: *}" kept
            ;;
        'rt: '*': its tests are '*) ;;
        'rt: '*' proved')
            name=${line#rt: }
            tell "${name% proved}" proved
            ;;
        'rt: '*' NOT PROVED: its library '*) ;;
        'rt: '*' NOT PROVED')
            name=${line#rt: }
            tell_failed "${name% NOT PROVED}"
            ;;
        'rt: note: '*kept*) notes="$notes${line#rt: note: }
" ;;
        *) printf '%s\n' "$line" >>"$log" ;;
        esac
    done
}

side_by_side() {
    scripts/room.sh "$room" "$top"
    mkfifo "$room.lines"
    RT_JOBS=$(scripts/jobs.sh 20)
    export RT_JOBS
    # All but a few wait for the first crate, so it gets all processors.
    (cd "$room" && exec env -u RT_JOBS rt ci "$1") >/dev/null 2>&1 &
    first_crate=$!
    (cd "$room" && exec rt ci) >"$room.lines" 2>&1 &
    gate=$!
    read_lines <"$room.lines"
    status=0
    wait "$gate" || status=$?
    wait "$first_crate" || true
    [ -z "$failed" ] || exit 1
    if [ "$status" != 0 ]; then
        tail -n 5 "$log" >&2
        echo "build: each crate was proved, and the gate refused them" >&2
        exit 1
    fi
    mkdir -p "$(dirname "$program")"
    cp "$room/$program" "$program"
    took=$((($(date +%s) - began) / 60))
    echo "build: $total crates in $took minutes, $((ended - kept)) proved now and $kept by earlier runs on this machine"
    if [ -z "$notes" ]; then
        echo "build: all of it is kept for ./test, which has laws, tests and wrong bodies left to prove"
    else
        printf 'build: not all of it is kept for ./test: %s' "$notes"
    fi
}

# The program is built by a run, since nothing else builds one.
prove() {
    cd "crates/$1"
    if [ "$1" = "$top" ]; then
        rt run --jobs "$jobs" -- once a 1 100 110 112 121
    else
        rt lib --jobs "$jobs"
    fi
}

in_turn() {
    jobs=${JOBS:-$(nproc)}
    for name; do
        mkdir -p "crates/$name/out"
        if ! (prove "$name") >"crates/$name/out/build.log" 2>&1; then
            tell_failed "$name"
            exit 1
        fi
        tell "$name" proved
    done
    echo "build: nothing of it is kept for ./test, which proves these crates once more"
}

main() {
    way=${BUILD:-}
    if ! can_keep; then
        echo "build: this kit's gate keeps nothing of what it proves"
        way=turn
    elif [ -z "$way" ]; then
        way=side
        ! has_work "$@" || way=turn
    fi
    case $way in
    side) side_by_side "$@" ;;
    turn) in_turn "$@" ;;
    *)
        echo "build: BUILD is side or turn" >&2
        exit 2
        ;;
    esac
    # A source that was edited meanwhile is newer than the program.
    touch -r "$room.began" "$program"
}

# (on one line, so that the shell reads nothing of this file after a build in which it was edited)
main "$@"; exit
