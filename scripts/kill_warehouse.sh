#!/bin/sh
# Kills the warehouse with `kill -9` at 20 random moments, or at as many as it is told, and starts it again over the same folder. Each start sends
# the same requests of all workers, and has to find everything in balance. A last start ends by itself. Then the warehouse has to have what one has
# that was never killed: so each request was done once. It wants the program built: `WAREHOUSE_PROGRAM` names it.
set -eu
root=$(dirname "$(dirname "$(readlink -f "$0")")")
program=${WAREHOUSE_PROGRAM:-$root/crates/warehouse/out/warehouse}
kills=${1:-20}
requests=1000
room=$(mktemp -d)
trap 'rm -rf "$room"' EXIT
mkdir "$room/killed" "$room/whole"

count=0
while [ "$count" -lt "$kills" ]; do
    # A number of milliseconds below 2,000, more often a small one.
    moment=$(od -An -N4 -tu2 /dev/urandom | awk '{ printf "%.3f", ($1 % 2000) * ($2 % 1000) / 1000000 }')
    "$program" "$room/killed" "$requests" >"$room/said" 2>&1 &
    warehouse=$!
    sleep "$moment"
    kill -9 "$warehouse" 2>/dev/null || break
    wait "$warehouse" 2>/dev/null || true
    told=$("$program" "$room/killed" 0 2>"$room/said") || true
    case $told in
    *' balances'*' wrong 0') count=$((count + 1)) ;;
    *)
        echo "kill_warehouse: after a kill at $moment seconds the warehouse says '$told' $(cat "$room/said")" >&2
        exit 1
        ;;
    esac
done
wait
last=$("$program" "$room/killed" "$requests" 2>/dev/null) || true
whole=$("$program" "$room/whole" "$requests" 2>/dev/null) || true
"$program" "$room/killed" 0 "$room/copy" >"$room/said" 2>&1 || true
copy=$("$program" "$room/copy" 0 2>/dev/null) || true
echo "$last"
if [ "$last" != "$whole" ]; then
    echo "kill_warehouse: one that was never killed says '$whole'" >&2
    exit 1
fi
if [ "$copy" != "$whole" ]; then
    echo "kill_warehouse: the backup says '$copy' $(cat "$room/said")" >&2
    exit 1
fi
case $last in
*' balances'*' wrong 0') echo "kill_warehouse: each request was done once, through $count kills" ;;
*) exit 1 ;;
esac
