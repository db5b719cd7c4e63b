#!/bin/sh
# Reads stores that others write to: beside a drive of 8 workers, and beside a bank that renews a log whenever it has grown by 100 KB, it tries
# each command that reads 1,000 times, or as often as its first word says. None may be refused, and each verdict has to be yes. Once a log of
# the drive has 4 MB, the drive is killed and begins with an empty store, so that a try takes a part of a second. It wants both programs built
# (`./run --build`): `SHARDS_PROGRAM` and `BANK_PROGRAM` name others.
set -eu
root=$(dirname "$(dirname "$(readlink -f "$0")")")
program=${SHARDS_PROGRAM:-$root/crates/shards/out/shards}
bank=${BANK_PROGRAM:-$root/crates/bank/out/bank}
times=${1:-1000}
room=$(mktemp -d)
writer=
trap '[ -z "$writer" ] || kill -9 "$writer" 2>/dev/null || true; rm -rf "$room"' EXIT
mkdir "$room/drive" "$room/bank"
: >"$room/told"
cat >"$room/settings" <<END
shards = 2
splits = ["k0005"]
stride = 100000
epsilon = 100
workers = 8
transactions = 100000
keys = 10
dir = "$room/drive"
END

fail() {
    echo "beside: $1: $(cat "$room/told" "$room/said")" >&2
    exit 1
}

# Begins to write to the store of a drive or of a bank, or goes on with it.
begin() {
    case $where in
    drive) "$program" drive "$room/settings" >"$room/said" 2>&1 & ;;
    bank) "$bank" "$room/bank" 100000 100000 >"$room/said" 2>&1 & ;;
    esac
    writer=$!
}

# Waits until the writer has made its logs, and for some commits more.
await_logs() {
    waited=0
    while [ ! -s "$folder/shard-1.log" ]; do
        [ "$waited" -lt 300 ] || fail "the $where made no logs"
        waited=$((waited + 1))
        sleep 0.1
    done
    sleep "$1"
}

# Kills the writer.
stop() {
    kill -9 "$writer" 2>/dev/null || true
    wait "$writer" 2>/dev/null || true
    writer=
}

# Begins with an empty store once a log of the drive is long.
keep_short() {
    if [ "$where" = drive ] && [ "$(wc -c <"$folder/shard-0.log")" -gt 4000000 ]; then
        stop
        rm -rf "$folder"
        mkdir "$folder"
        begin
        await_logs 0.3
        grown=1
    fi
}

# Tries a command so often as it is told. What it says of an inspection has to be yes.
try() {
    count=0
    grown=0
    before=$(cat "$folder"/shard-?.log | wc -c)
    while [ "$count" -lt "$times" ]; do
        kill -0 "$writer" 2>/dev/null || begin
        keep_short
        "$program" "$@" >"$room/told" 2>&1 || fail "beside the $where '$1' is refused at try $count"
        [ "$1" != inspect ] || [ "$(cat "$room/told")" = yes ] || fail "beside the $where a verdict is no at try $count"
        count=$((count + 1))
    done
    [ "$grown" = 1 ] || [ "$(cat "$folder"/shard-?.log | wc -c)" -gt "$before" ] || fail "the $where has written nothing beside '$1'"
    echo "beside: the $where: $1: $count of $count answered"
}

# Reads the store of whoever writes: its folder and a key of it.
read_beside() {
    where=$1
    folder=$room/$where
    key=$2
    begin
    await_logs 2
    try get "$folder" "$key"
    try history "$folder" "$key"
    try stats "$folder/shard-0.log"
    try dump "$folder/shard-1.log"
    try inspect /dev/null "$folder"/shard-?.log
    stop
}

read_beside drive k0001
read_beside bank acct-03
