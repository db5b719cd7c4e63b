#!/bin/sh
# Runs programs with the N-th growth of their memory refused, for N = 1, 2, .. until none is. The test `two_stories` of `core_tests` has to ask
# again, and to end as without. The program has to end as without, or with `1 Memory` behind what it printed so far: `once`, `play`, `inspect`,
# `migrate`, `compact`, and `drive` at some of its growths, whose number depends on its threads. And a drive over files has to sync each write of a
# file before the next one, and the last, and the folder after each name that it gives, before it gives or writes more. It wants these tests and the program built (as the gate does), and the kit's own clang; where there is none,
# nothing is tried.
set -eu
root=$(dirname "$(dirname "$(readlink -f "$0")")")
clang=$(dirname "$(rt doc | head -n 1)")/toolchain/bin/clang
if [ ! -x "$clang" ]; then
    echo "refused_memory: not tried, since the kit has no clang"
    exit
fi
room=$(mktemp -d)
trap 'rm -rf "$room"' EXIT
for source in refuse turns; do
    "$clang" -O1 -shared -fPIC -nostdlib -fuse-ld=lld -o "$room/$source.so" "$root/scripts/$source.c"
done
program=$root/crates/shards/out/shards

fail() {
    echo "refused_memory: FAILED: $name, growth $n: status $status, $(tail -n 1 "$room/err" "$room/out")" >&2
    exit 1
}

# Runs some words with growth n refused, and says whether it was. A file that is to be made is not there then.
run() {
    : >"$room/refused"
    rm -f "$room/new.log"
    status=0
    REFUSE_AT=$n LD_PRELOAD=$room/refuse.so "$@" >"$room/out" 2>"$room/err" 9>"$room/refused" || status=$?
    [ -s "$room/refused" ]
}

# It said `1 Memory`, behind a beginning of what it prints without a refusal.
is_memory() {
    [ "$status" -eq 2 ] && [ "$(cat "$room/err")" = 'fault: 1 Memory' ] && head -c "$(wc -c <"$room/out")" "$room/whole" | cmp -s - "$room/out"
}

# It ended as without a refusal, but for what says which call was refused.
is_whole() {
    [ "$status" -eq 0 ] && [ ! -s "$room/err" ] && ! grep -q '^refused, not all as before: ' "$room/out" \
        && grep -v '^refused: ' "$room/out" | cmp -s - "$room/whole"
}

# The new log was made, and the old one is as it was.
is_migrated() {
    is_whole && [ "$(wc -c <"$room/new.log")" -eq 9239 ] && cmp -s "$room/old.log" "$room/kept.log"
}

# There is no new log, and the old one is as it was.
is_not_migrated() {
    is_memory && [ ! -s "$room/new.log" ] && cmp -s "$room/old.log" "$room/kept.log"
}

# The new log has the records of the old one, which is as it was.
is_compacted() {
    is_whole && [ "$(wc -c <"$room/new.log")" -eq 9240 ] && cmp -s "$room/long.log" "$room/kept.long"
}

# There is no new log, or the empty one, and the old one is as it was.
is_not_compacted() {
    is_memory && cmp -s "$room/long.log" "$room/kept.long" \
        && { [ ! -s "$room/new.log" ] || [ "$(wc -c <"$room/new.log")" -eq 9225 ]; }
}

# The drive ended with the verdict yes, or with `1 Memory`, behind its four counts where its workers had reported.
is_driven() {
    if [ "$status" -eq 0 ]; then
        [ ! -s "$room/err" ] && [ "$(tail -n 1 "$room/out")" = 'verdict yes' ]
    else
        words=$(sed 's/ [0-9]*$//' "$room/out" | tr '\n' ' ')
        [ "$status" -eq 2 ] && [ "$(cat "$room/err")" = 'fault: 1 Memory' ] \
            && { [ -z "$words" ] || [ "$words" = 'committed aborted unknown looks ' ]; }
    fi
}

# Refuses each growth of some words, or one of so many, until none is, and wants each end to be one of these two.
sweep() {
    name=$1 step=$2 first=$3 second=$4
    shift 4
    n=0
    run "$@" || true
    cp "$room/out" "$room/whole"
    [ "$status" -eq 0 ] || fail
    n=1 tried=0
    while run "$@"; do
        "$first" || "$second" || fail
        n=$((n + step)) tried=$((tried + 1))
    done
    [ "$tried" -gt 0 ] || fail
    done="${done:+$done, }$name $tried"
}

cat >"$room/settings" <<END
shards = 2
splits = ["k0005"]
stride = 1000
epsilon = 100
workers = 2
transactions = 2
keys = 10
END
mkdir "$room/logs"
(cat "$room/settings" && echo "dir = \"$room/logs\"") >"$room/with.files"
: >"$room/no.lines"

# How many writes a drive over files makes, each of which is synced before the next one of its file. None comes before the names are on the device
# of the manifest and the two logs that it makes.
writes_in_turn() {
    LD_PRELOAD=$room/turns.so "$program" drive "$room/with.files" 9>"$room/turns" >/dev/null
    awk '$1 == "w" { if (open[$2] || named) bad = 1; open[$2] = 1; count++ }
        $1 == "s" { open[$2] = 0 }
        $1 == "n" { if (named) bad = 1; named = 1; names++ }
        $1 == "d" { named = 0 }
        END { for (file in open) if (open[file]) bad = 1; print bad || named || names != 3 ? 0 : count + 0 }' "$room/turns"
}

# What the stories tell, and how a test ends that passes.
cat >"$room/told" <<END
session 1.1 done 1.1 committed 111
session 1.2 done 1.2 committed 200
look z 200 =2
log 0
base 1 200 0
version 111 a=1
version 200 a=1
settled 1.1 111 0
settled 1.2 200 0,1
log 1
base 1 200 0
version 200 z=2
closed 1.2 0 committed 200

test result: ok
END

# Version 1: Opened 1, and a closed gate.
printf 'SPNLOG01\245\000\000\000\011\001\000\000\000\000\000\000\000\001\000' >"$room/old.log"
cp "$room/old.log" "$room/kept.log"

# The same in version 2.
"$program" migrate "$room/old.log" "$room/long.log"
cp "$room/long.log" "$room/kept.long"

# Two to make each log, and two for its opening.
writes=$(writes_in_turn)
if [ "$writes" -lt 8 ]; then
    echo "refused_memory: FAILED: a drive over files does not sync each write before the next one, or a name" >&2
    exit 1
fi

from=$(date +%s)
done=
sweep stories 1 is_whole is_whole "$root/crates/core_tests/out/core_tests_tests" without_memory::two_stories
cmp -s "$room/whole" "$room/told" || fail
sweep once 1 is_whole is_memory "$program" once a 1 100 110 112 121
sweep play 1 is_whole is_memory "$program" play "$root/docs/example.schedule"
sweep inspect 1 is_whole is_memory "$program" inspect "$room/no.lines" "$room/logs/shard-0.log" "$room/logs/shard-1.log"
sweep migrate 1 is_migrated is_not_migrated "$program" migrate "$room/old.log" "$room/new.log"
sweep compact 1 is_compacted is_not_compacted "$program" compact "$room/long.log" "$room/new.log"
sweep drive 13 is_driven is_driven "$program" drive "$room/settings"
echo "refused_memory: $done growths refused in $(($(date +%s) - from)) seconds, each as it should be; $writes writes of a drive, each synced"
