#!/bin/sh
# Kills a drive over files with `kill -9` at 20 random moments, or at as many as it is told, and starts it again on the same files
# each time. After each kill the verdict on the logs alone has to be yes, and so has that of a last drive that ends by itself. Kills
# that come before the logs were made are counted apart. It wants the program built (`./run --build`).
set -eu
root=$(dirname "$(dirname "$(readlink -f "$0")")")
program=${SHARDS_PROGRAM:-$root/crates/shards/out/shards}
kills=${1:-20}
room=$(mktemp -d)
trap 'rm -rf "$room"' EXIT

# The settings with as many transactions a worker.
settings() {
    cat <<END
shards = 3
splits = ["k0004", "k0008"]
stride = 1000
epsilon = 100
workers = 4
transactions = $1
keys = 12
dir = "$room"
END
}

settings 100000 >"$room/long.settings"
settings 50 >"$room/short.settings"
: >"$room/no.lines"

# The verdict on the logs, or the fault.
verdict() {
    for shard in 0 1 2; do
        if [ ! -f "$room/shard-$shard.log" ]; then
            echo missing
            return
        fi
    done
    "$program" inspect "$room/no.lines" "$room/shard-0.log" "$room/shard-1.log" "$room/shard-2.log" 2>&1 || true
}

# A number of milliseconds below 2,000, more often a small one.
moment() {
    od -An -N4 -tu2 /dev/urandom | awk '{ printf "%.3f", ($1 % 2000) * ($2 % 1000) / 1000000 }'
}

early=0
count=0
while [ "$count" -lt "$kills" ]; do
    moment=$(moment)
    "$program" drive "$room/long.settings" >"$room/said" 2>&1 &
    drive=$!
    sleep "$moment"
    if ! kill -9 "$drive" 2>/dev/null; then
        echo "kill_drive: the drive ended by itself: $(cat "$room/said")" >&2
        exit 1
    fi
    wait "$drive" 2>/dev/null || true
    found=$(verdict)
    case $found in
    yes) count=$((count + 1)) ;;
    missing) early=$((early + 1)) ;;
    *)
        echo "kill_drive: after a kill at $moment seconds the verdict is '$found'" >&2
        exit 1
        ;;
    esac
done
last=$("$program" drive "$room/short.settings") || true
echo "$last"
case $last in
*'verdict yes') ;;
*) exit 1 ;;
esac
[ "$(verdict)" = yes ]
echo "kill_drive: yes after each of $count kills, and $early came before the logs were made"
