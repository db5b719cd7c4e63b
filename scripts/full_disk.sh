#!/bin/sh
# Drives over files under a limit on their size, as on a disk that is full. An opening that has no room is refused as `2 Device`; a
# shard that runs into the limit stops, and then the drive ends, prints its counts and is refused as `2 Device`. Both name the log and say that there is
# no room left. The verdict on the logs has to be yes each time, and once the limit is gone the next drive goes on where they end. It wants the
# program built (`./run --build`).
set -eu
root=$(dirname "$(dirname "$(readlink -f "$0")")")
program=${SHARDS_PROGRAM:-$root/crates/shards/out/shards}
room=$(mktemp -d)
trap 'rm -rf "$room"' EXIT
# A write past the limit is an error then, and no signal.
trap '' XFSZ

cat >"$room/settings" <<END
shards = 2
splits = ["k0005"]
stride = 1000
epsilon = 100
workers = 4
transactions = 10
keys = 10
dir = "$room"
END
: >"$room/no.lines"

fail() {
    echo "full_disk: $1: $(cat "$room/said")" >&2
    exit 1
}

# A drive, with files of so many blocks of 512 bytes at most.
drive() {
    (
        ulimit -f "$1"
        exec "$program" drive "$room/settings"
    ) >"$room/said" 2>&1
}

# How many blocks the smaller log fills.
blocks() {
    wc -c "$room/shard-0.log" "$room/shard-1.log" | awk '$2 != "total" && (!least || $1 < least) { least = $1 } END { print int(least / 512) }'
}

# The log that found no room has to be named, with that reason.
tells_room() {
    tail -n 1 "$room/said" | grep -qx -- "--> $room/shard-[01][.]log: no room left" || fail "$1 does not tell which log found no room"
}

# The verdict on the logs has to be yes.
inspect() {
    "$program" inspect "$room/no.lines" "$room/shard-0.log" "$room/shard-1.log" >"$room/said" 2>&1 || fail "after $1 the verdict is no yes"
}

drive unlimited || fail "the first drive did not go well"
inspect "the first drive"

if drive "$(blocks)" || [ "$(head -n 1 "$room/said")" != 'fault: 2 Device' ]; then
    fail "an opening without room was not refused as 2 Device"
fi
tells_room "an opening without room"
inspect "an opening without room"

if drive $(($(blocks) + 2)) || [ "$(sed '/^-->/d; s/ .*//' "$room/said" | tr '\n' ' ')" != 'committed aborted unknown looks fault: ' ]; then
    fail "a drive that runs into the limit did not print its counts and then why it is refused"
fi
tells_room "a drive that ran into the limit"
cut=$(cat "$room/said")
inspect "a drive that ran into the limit"

drive unlimited || fail "a drive without the limit did not go well"
inspect "a drive without the limit"
echo "$cut"
echo "full_disk: refused without room, cut off at the limit, and gone on without it; yes each time"
