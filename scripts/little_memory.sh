#!/bin/sh
# Drives of 64 workers in memory under ten limits of address space, from 30,000 to 39,000 KB: each ends as `1 Memory`, or whole, within SECONDS (5 if
# not given). It says how long the slowest took. It wants the program built (`./run --build`):
#     scripts/little_memory.sh [SECONDS]
set -eu
root=$(dirname "$(dirname "$(readlink -f "$0")")")
program=${SHARDS_PROGRAM:-$root/crates/shards/out/shards}
longest=${1:-5}
room=$(mktemp -d)
trap 'rm -rf "$room"' EXIT

cat >"$room/settings" <<END
shards = 2
splits = ["k000500"]
stride = 100000
epsilon = 100
workers = 64
transactions = 50
keys = 1000
END

slowest=0 of=0 limit=30000
while [ "$limit" -lt 40000 ]; do
    from=$(date +%s%N)
    status=0
    (
        ulimit -v "$limit"
        exec timeout 60 "$program" drive "$room/settings"
    ) >"$room/said" 2>"$room/err" || status=$?
    took=$((($(date +%s%N) - from) / 1000000))
    if [ "$status" -ne 0 ] && ! grep -q '1 Memory' "$room/err"; then
        echo "little_memory: $limit KB: status $status: $(tail -n 1 "$room/err")" >&2
        exit 1
    fi
    if [ "$took" -gt "$slowest" ]; then
        slowest=$took of=$limit
    fi
    limit=$((limit + 1000))
done
echo "little_memory: ten limits, each answered; the slowest took $slowest ms, under $of KB"
[ "$slowest" -le $((longest * 1000)) ]
