#!/bin/sh
# Kills the bank with `kill -9` at 20 random moments, or at as many as it is told, and starts it again over the same folder. Each start has to
# find all money there, in each audit, and so has a last one that ends by itself and audits; behind it the accounts are added up by `get`, another
# program's reading of the logs. A start that moves nothing leaves what each account has. With a number of bytes as its second word the bank renews a
# log that has grown by so many, and the logs have to be renewed in the end, with verdict yes. It wants the program built: `BANK_PROGRAM`
# names it, and `PROGRAM` the one that judges logs.
set -eu
root=$(dirname "$(dirname "$(readlink -f "$0")")")
program=${BANK_PROGRAM:-$root/crates/bank/out/bank}
judge=${PROGRAM:-$root/crates/shards/out/shards}
kills=${1:-20}
bytes=${2:-}
room=$(mktemp -d)
trap 'rm -rf "$room"' EXIT

# A number of milliseconds below 2,000, more often a small one; four times as many where logs are renewed, which is tried about once a second.
times=1
[ -z "$bytes" ] || times=4
moment() {
    od -An -N4 -tu2 /dev/urandom | awk -v times="$times" '{ printf "%.3f", times * ($1 % 2000) * ($2 % 1000) / 1000000 }'
}

count=0
while [ "$count" -lt "$kills" ]; do
    moment=$(moment)
    "$program" "$room" 100000 $bytes >"$room/said" 2>&1 &
    bank=$!
    sleep "$moment"
    if ! kill -9 "$bank" 2>/dev/null; then
        echo "kill_bank: the bank ended by itself: $(cat "$room/said")" >&2
        exit 1
    fi
    wait "$bank" 2>/dev/null || true
    audit=$("$program" "$room" 1 $bytes) || true
    case $audit in
    *'wrong 0') count=$((count + 1)) ;;
    *)
        echo "kill_bank: after a kill at $moment seconds the bank says '$audit'" >&2
        exit 1
        ;;
    esac
done
last=$("$program" "$room" 200 $bytes) || true
echo "$last"
case $last in
'audits 0 '*) exit 1 ;;
*'wrong 0') ;;
*) exit 1 ;;
esac
# What the accounts hold by the program that reads logs, so that the bank's own audit is not alone in saying so.
balances() {
    for account in 00 01 02 03 04 05 06 07 08 09 10 11 12 13 14 15; do
        "$judge" get "$room" "acct-$account"
    done
}
balances >"$room/before"
"$program" "$room" 0 $bytes >/dev/null 2>&1
balances >"$room/after"
if ! cmp -s "$room/before" "$room/after"; then
    echo "kill_bank: a start that moves nothing changes what the accounts have" >&2
    exit 1
fi
if [ "$(sort -u "$room/before" | wc -l)" -lt 2 ]; then
    echo "kill_bank: no money was moved" >&2
    exit 1
fi
total=$(python3 -c '
import sys
balances = [line.rstrip("\n")[1:].encode("latin1").decode("unicode_escape").encode("latin1") for line in sys.stdin]
print(sum(int.from_bytes(balance, "big") for balance in balances))' <"$room/before")
if [ "$total" != 16000 ]; then
    echo "kill_bank: by their logs the accounts hold $total in all" >&2
    exit 1
fi
echo "kill_bank: all money was there after each of $count kills"
if [ -n "$bytes" ]; then
    for log in "$room"/shard-*.log; do
        first=$("$judge" dump "$log" | sed -n 1p)
        case $first in
        *' base '*) ;;
        *)
            echo "kill_bank: a log was never renewed: $first" >&2
            exit 1
            ;;
        esac
    done
    verdict=$("$judge" inspect /dev/null "$room"/shard-*.log) || true
    echo "$verdict"
    [ "$verdict" = yes ]
fi
