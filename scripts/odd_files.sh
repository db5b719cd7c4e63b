#!/bin/sh
# Commands over files and folders that are not as they should be: texts without an end, pipes, other settings than the store's, logs that are
# gone, exchanged or older, a draft that is a link, logs of version 1, no thread to be had. Each has to be refused as docs/COMMANDS.md says,
# soon, with the words that say why, and with nothing written. It wants the program built (`./run --build`).
set -eu
root=$(dirname "$(dirname "$(readlink -f "$0")")")
program=${SHARDS_PROGRAM:-$root/crates/shards/out/shards}
room=$(mktemp -d)
trap 'rm -rf "$room"' EXIT
cd "$room"

fail() {
    echo "odd_files: $1" >&2
    exit 1
}

# What a command has to print to both outputs, and its words.
want() {
    wanted=$1
    shift
    found=$(timeout 60 "$program" "$@" 2>&1) || true
    [ "$found" = "$wanted" ] || fail "'$*' printed '$found', and not '$wanted'"
}

# The fault that a command has to be refused with, what has to stand after the arrow in the line behind it, and its words.
refused() {
    fault=$1
    why=$2
    shift 2
    status=0
    timeout 20 "$program" "$@" </dev/null >said 2>why || status=$?
    [ "$status" = 2 ] || fail "'$*' ends with status $status"
    [ "$(sed -n 1p why)" = "fault: $fault" ] || fail "'$*' is refused as '$(sed -n 1p why)', and not '$fault'"
    [ "$(sed -n 2p why)" = "--> $why" ] || fail "'$*' tells '$(sed -n 2p why)', and not '$why'"
}

# Settings of so many shards over a folder.
settings() {
    splits=
    [ "$2" = 1 ] || splits='"k0004"'
    printf 'shards = %s\nsplits = [%s]\nstride = 1000\nepsilon = 100\nworkers = 2\ntransactions = 10\nkeys = 8\ndir = "%s"\n' "$2" "$splits" "$1"
}

sums() {
    cat logs/* | cksum
}

mkdir logs
settings logs 2 >two
settings logs 1 >one
settings '' 2 >nowhere
: >no.lines

refused '2 Device' '/dev/zero: is no plain file' play /dev/zero
refused '2 Device' '/dev/zero: is no plain file' drive /dev/zero
refused '2 Device' '/dev/zero: is no plain file' inspect /dev/zero no.lines
refused '2 Device' 'missing: no such file' play missing
refused '2 Device' 'logs: is a folder' dump logs
refused '2 Device' 'missing/store.toml: no such file' get missing a
refused '2 Device' 'logs/store.toml: no such file' put logs a 1
refused '2 Device' 'two: is there already' format two
refused '2 Device' 'missing/new.log: no such file' format missing/new.log
"$program" drive nowhere >said 2>&1 && fail "settings without a folder are taken"
[ "$(sed -n 1p said)" = 'fault: 7 BadRequest(settings)' ] || fail "settings without a folder: $(cat said)"

# No command waits for a pipe.
mkfifo pipe
settings pipe 2 >piped
refused '2 Device' 'pipe: is no plain file' play pipe
refused '2 Device' 'pipe: is no plain file' drive pipe
refused '2 Device' 'pipe: is no folder' drive piped
refused '2 Device' 'pipe: is no plain file' dump pipe
refused '2 Device' 'pipe: is no plain file' stats pipe
refused '2 Device' 'pipe: is no plain file' inspect pipe no.lines
refused '2 Device' 'pipe: is no plain file' inspect no.lines pipe
refused '2 Device' 'pipe: is no plain file' migrate pipe new.log
refused '2 Device' 'pipe: is no plain file' compact pipe new.log
mkdir plumbed
mkfifo plumbed/store.toml
refused '2 Device' 'plumbed/store.toml: is no plain file' get plumbed a
refused '2 Device' 'plumbed/store.toml: is no plain file' history plumbed a
refused '2 Device' 'plumbed/store.toml: is no plain file' put plumbed a 1
settings plumbed 2 >piped
refused '2 Device' 'plumbed/store.toml: is no plain file' drive piped

seq 1000 >precious
ln -s ../precious logs/shard-0.log.new
before=$(cksum <precious)
"$program" drive two >said 2>&1 || fail "a draft that is a link keeps the drive from going well: $(cat said)"
[ "$(cksum <precious)" = "$before" ] || fail "a draft that is a link was followed"
want yes inspect no.lines logs/shard-0.log logs/shard-1.log

# The logs as they were made, and as they are after one drive more.
cp -r logs former
"$program" drive two >said 2>&1 || fail "the store is not driven again: $(cat said)"
before=$(sums)
refused '7 BadRequest(settings)' 'logs/store.toml' drive one
mv logs/shard-1.log kept
refused '2 Device' 'logs/shard-1.log: is missing from its store' drive two
refused '2 Device' 'logs/shard-1.log: is missing from its store' put logs k0001 1
refused '2 Device' 'logs/shard-1.log: no such file' get logs k0005
[ ! -e logs/shard-1.log ] || fail "a log that was gone is there again"
mkfifo logs/shard-1.log
refused '2 Device' 'logs/shard-1.log: is no plain file' drive two
refused '2 Device' 'logs/shard-1.log: is no plain file' get logs k0005
rm logs/shard-1.log
cp former/shard-1.log logs/shard-1.log
end=$("$program" dump logs/shard-1.log | sed -n 's/^closed at //p')
refused "11 Damaged at $end" 'logs/shard-1.log: is older than shard 0 says' drive two
refused "11 Damaged at $end" 'logs/shard-1.log: is older than shard 0 says' put logs k0001 1
cmp -s former/shard-1.log logs/shard-1.log || fail "an older log was written to"
rm logs/shard-1.log
"$program" format logs/shard-1.log
refused '11 Damaged at 9224' 'logs/shard-1.log: is older than shard 0 says' put logs k0001 1
rm logs/shard-1.log
mv logs/shard-0.log logs/shard-1.log
mv kept logs/shard-0.log
found=$("$program" drive two 2>&1) || true
case $found in
'fault: 11 Damaged at '* | 'fault: 14 Stranger'*) ;;
*) fail "logs that are exchanged: '$found'" ;;
esac
mv logs/shard-0.log kept
mv logs/shard-1.log logs/shard-0.log
mv kept logs/shard-1.log
[ "$(sums)" = "$before" ] || fail "a drive that was refused has written"

# Without a manifest nothing is made where one log holds a record and another one is missing.
mkdir torn
cp logs/shard-0.log torn
settings torn 2 >half
refused '2 Device' 'torn/shard-1.log: is missing from its store' drive half
[ "$(ls torn)" = shard-0.log ] || fail "something was made beside a log whose other one is missing: $(ls torn)"
cmp -s logs/shard-0.log torn/shard-0.log || fail "a log whose other one is missing was written to"

printf 'SPNLOG01\245\000\000\000\011\001\000\000\000\000\000\000\000\001\000' >old.log
mv logs/shard-0.log kept
cp old.log logs/shard-0.log
refused '12 NotALog' 'logs/shard-0.log' drive two
refused '12 NotALog' 'old.log' dump old.log
want '' migrate old.log new.log
want '9224 opened 1
closed at 9238' dump new.log
refused '2 Device' 'new.log: is there already' migrate old.log new.log
refused '2 Device' 'missing/new.log: no such file' migrate old.log missing/new.log
refused '12 NotALog' 'new.log' migrate new.log newer.log
[ ! -e newer.log ] || fail "a refused migration has made a file"
cmp -s old.log logs/shard-0.log || fail "a log of version 1 was written to"
refused '12 NotALog' 'old.log' compact old.log newer.log
want '' compact new.log short.log
want '9225 opened 1
closed at 9239' dump short.log
refused '2 Device' 'short.log: is there already' compact new.log short.log
refused '2 Device' 'missing/new.log: no such file' compact new.log missing/new.log
refused '2 Device' 'missing.log: no such file' compact missing.log newer.log
[ ! -e newer.log ] || fail "a refused compaction has made a file"
mv kept logs/shard-0.log

if (ulimit -v 20000) 2>/dev/null; then
    began=$(date +%s)
    (ulimit -v 20000 && exec "$program" drive two) >said 2>&1 || true
    [ $(($(date +%s) - began)) -lt 10 ] || fail "a drive without threads took $(($(date +%s) - began)) seconds"
fi
"$program" drive two >said 2>&1 || fail "the store is not driven again: $(cat said)"
echo "odd_files: each was refused, and nothing was written"
