#!/bin/sh
# Runs the tests of the clients in Python and Rust: over a model of the program, and over the program that SHARDS_PROGRAM names, or that was
# built here. It says what was not run: without `python3` nothing is, without `cargo` the client in Rust, and without the program what starts
# it. Its exit status is 1 if a test failed.
set -eu
root=$(dirname "$(dirname "$(readlink -f "$0")")")
program=${SHARDS_PROGRAM:-$root/crates/shards/out/shards}
room=$(mktemp -d)
trap 'rm -rf "$room"' EXIT

if ! python3 --version >/dev/null 2>&1; then
    echo "clients: NOT RUN, since there is no python3"
    exit
fi
if [ -n "${SHARDS_PROGRAM:-}" ]; then
    if [ ! -x "$program" ]; then
        echo "clients: FAILED: SHARDS_PROGRAM names no program: $program" >&2
        exit 1
    fi
elif [ ! -x "$program" ]; then
    echo "clients: the program is NOT BUILT (./run --build builds it): the tests run over the model alone"
elif ! "$program" --help | grep -q 'serve '; then
    echo "clients: the program that is built has NO serve: the tests run over the model alone"
else
    export SHARDS_PROGRAM="$program"
fi

# Each client is one file of so many lines at most.
short() {
    lines=$(wc -l <"$root/clients/$2")
    if [ "$lines" -gt "$1" ]; then
        echo "clients: FAILED: $2 has $lines lines, and not $1 at most" >&2
        exit 1
    fi
}
short 250 python/spanner_shards.py
short 350 rust/src/lib.rs

# Runs the tests of a client, and says how many there were: tried NAME COMMAND..
tried() {
    name=$1
    shift
    if ! "$@" >"$room/said" 2>&1; then
        cat "$room/said" >&2
        echo "clients: FAILED: the client in $name" >&2
        exit 1
    fi
    sed -n "s/.*\(the \(model\|program\): kills [0-9]* moves.*\)/clients: $name: \1/p" "$room/said"
    awk -v name="$name" '
        /^Ran [0-9]+ tests/ { passed += $2 }
        /^OK .skipped=/ { skipped = $2; gsub(/[^0-9]/, "", skipped); passed -= skipped }
        /^test result: ok/ { passed += $4 }
        END { print "clients: " name ": " passed + 0 " tests passed, " skipped + 0 " were not run" }' "$room/said"
}

export PYTHONDONTWRITEBYTECODE=1
tried Python python3 -W error -m unittest discover -s "$root/clients/python/tests"
if cargo --version >/dev/null 2>&1; then
    CARGO_TARGET_DIR=${CARGO_TARGET_DIR:-$room/target}
    export CARGO_TARGET_DIR
    cd "$root/clients/rust"
    tried Rust cargo test --offline -- --nocapture
else
    echo "clients: Rust: NOT RUN, since there is no cargo"
fi
