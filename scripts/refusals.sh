#!/bin/sh
# Tries each line of scripts/refusals.txt over the program that is built, or that SHARDS_PROGRAM names: the fault, the words after it, the status,
# and that nothing is printed or written. If no program is built it says so. It says how many lines it tried; its status is 1 if one failed.
set -eu
root=$(dirname "$(dirname "$(readlink -f "$0")")")
program=${SHARDS_PROGRAM:-$root/crates/shards/out/shards}
if [ ! -x "$program" ]; then
    echo "refusals: the program is NOT BUILT (./run --build builds it): nothing was tried"
    exit
fi
room=$(mktemp -d)
chmod 711 "$room"
server=
trap '[ -z "$server" ] || kill "$server" 2>/dev/null || true; rm -rf "$room"' EXIT
mkdir "$room/here"
cd "$room/here"
failed=0
tried=0
tab=$(printf '\t')

# Settings of three shards, of which one line is another: settings NUMBER LINE.
settings() {
    printf '%s\n' 'shards = 3' 'splits = ["g", "p"]' 'stride = 1000' 'epsilon = 100' 'workers = 2' 'transactions = 10' 'keys = 8' |
        sed "$1" >"$2.settings"
}

# What the lines name.
"$program" make logs m
"$program" put logs a 1 >committed
"$program" put logs z 1 >committed
for name in foreign held hurt linked lost older swapped unnamed; do cp -r logs $name; done
rm lost/shard-1.log
cp -r logs closed
chmod 0 closed
mkdir room
cp -r logs room/tight
# Root has rights to all, so it becomes somebody else.
nobody=
[ "$(id -u)" != 0 ] || nobody="setpriv --reuid=65534 --regid=65534 --clear-groups"
printf '%s\n' begin 'put a 2' 'put z 2' commit | "$program" serve older >committed
cp -r older emptied
rm emptied/shard-1.log
"$program" format emptied/shard-1.log
cp logs/shard-1.log older
mv swapped/shard-0.log kept
mv swapped/shard-1.log swapped/shard-0.log
mv kept swapped/shard-1.log
echo 'no manifest' >unnamed/store.toml
mkdir bare plumbed pruned strange
mkfifo pipe plumbed/store.toml
ln -s nowhere dangling
printf 'no text \377 and no log\n' >text
head -c 9250 logs/shard-0.log >cut
cp cut hurt/shard-0.log
cp text foreign/shard-1.log
mv linked/shard-0.log elsewhere
ln -s ../elsewhere linked/shard-0.log
cp text strange/shard-0.log
printf 'SPNLOG01\245\000\000\000\011\001\000\000\000\000\000\000\000\001\000' >old
# A renewed log of one shard: Base 1 200 150; versions of a at 111 and, erased, at 200.
printf '%s\n' 'version = 1' 'shards = 1' 'splits = []' 'name = "0123456789abcdef"' >pruned/store.toml
{
    printf SPNLOG02
    head -c 9216 /dev/zero
    printf '\245\000\000\000\031\010\000\000\000\000\000\000\000\001\000\000\000\000\000\000\000\310\000\000\000\000\000\000\000\226'
    printf '\245\000\000\000\017\011\001a\000\000\000\000\000\000\000o\001\000\0011'
    printf '\245\000\000\000\014\011\001a\000\000\000\000\000\000\000\310\000\000'
} >pruned/shard-0.log
printf '%s\n' 'shards 2' 'split m' 'stride 1000' '100 begin 1.1' '50 begin 1.2' >late.schedule
printf '%s\n' 'shards 1' 'stride 1000' '# noted' '100 begin 1.1' >noted.schedule
settings '3s/.*/stride 1000/' 1
settings '$a other = 1' 2
settings '/workers/d' 3
settings '5s/.*/workers = 65/' 4
settings '2s/.*/splits = 2/' 5
settings '2s/.*/splits = ["g", ""]/' 6
settings '2s/.*/splits = ["g"]/' 7
settings '2s/.*/splits = ["p", "g"]/' 8
settings '$a dir = ""' 9
settings '$a dir = "logs"' other
for name in bare/none closed foreign held hurt linked logs lost older pipe plumbed room/tight swapped text; do
    settings '1s/3/2/; 2s/.*/splits = ["m"]/; $a dir = "'$name'"' "${name#*/}"
done
mkfifo ../lines
"$program" serve held <../lines >../answers &
server=$!
exec 9>../lines
for _ in 1 2 3 4 5 6 7 8 9 10; do
    ! grep -q ready ../answers || break
    sleep 1
done
sums() {
    find . -type f ! -path './held/*' ! -path './room/*' -exec cksum {} + | sort
}
sums >../before

# Runs the program: as somebody without rights, or if files may have at most 512 bytes, or as it is.
run() {
    case $who in
    @nobody) timeout 60 $nobody "$program" "$@" ;;
    @full) (trap '' XFSZ && ulimit -f 1 && exec timeout 60 "$program" "$@") ;;
    *) timeout 60 "$program" "$@" ;;
    esac
}

# The words of a line, one a line: spelled and long ones are told in full.
words_of() {
    for word in $1; do
        case $word in
        -) echo ;;
        =) ;;
        K65) printf '%065d\n' 0 ;;
        V4097) printf '%04097d\n' 0 ;;
        L17) seq 17 ;;
        X255) printf '\377\n' ;;
        S16) seq 10 25 ;;
        *) printf '%s\n' "$word" | sed 's/\\\\/\\/g' ;;
        esac
    done
}

# Tries one line.
try() {
    set -f
    words=$3
    who=
    case $words in
    '@'*)
        who=${words%% *}
        words=${words#* }
        ;;
    esac
    words_of "$words" >../words
    set --
    while IFS= read -r word; do set -- "$@" "$word"; done <../words
    set +f
    status=0
    run "$@" </dev/null >../out 2>../err || status=$?
    tried=$((tried + 1))
    told=$(sed -n 1p ../err | sed 's/ at [0-9]*$/ at */')
    if [ "$status" != 2 ] || [ -s ../out ] || [ "$told" != "fault: $fault" ] || [ "$(sed -n 2p ../err)" != "--> $place" ]; then
        echo "refusals: '$line': status $status, '$told', '$(sed -n 2p ../err)'; wanted 'fault: $fault', '--> $place'" >&2
        failed=$((failed + 1))
    fi
    # After wrong words a third line says how the command is called, if they were read.
    case "$fault $place" in
    *' a word is no text in UTF-8') ;;
    '7 BadRequest(command) '*)
        [ "$(sed -n '3s/^usage: shards ..*/is told/p' ../err)" = 'is told' ] || {
            echo "refusals: '$line': how the command is called is not told" >&2
            failed=$((failed + 1))
        }
        ;;
    esac
}

while IFS= read -r row; do
    case $row in '#'*) continue ;; esac
    fault=${row%%"$tab"*}
    rest=${row#*"$tab"}
    place=${rest%%"$tab"*}
    line=${rest#*"$tab"}
    try "$fault" "$place" "$line"
done <"$root/scripts/refusals.txt"

sums | cmp -s - ../before || {
    echo "refusals: a refused command has written" >&2
    failed=$((failed + 1))
}
exec 9>&-

# What a command says that finds no room in a log which it has opened: told_full STATUS ANSWER FAULT COMMAND. The answer is a pattern.
told_full() {
    tried=$((tried + 1))
    wanted="${3:+$3
}--> room/filled/shard-0.log: no room left"
    [ "$status" = "$1" ] && tail -n 1 ../out | grep -qx "$2" && [ "$(cat ../err)" = "$wanted" ] || {
        echo "refusals: '$4' on a full disk: status $status, '$(tail -n 1 ../out)', '$(cat ../err)'" >&2
        failed=$((failed + 1))
    }
}

# The log is filled so far that the record of an opening has room in the last block, and not one of a write.
"$program" make room/filled m
"$program" put room/filled a 1 >committed
length=$(wc -c <room/filled/shard-0.log)
rest=$((512 - (2 * length - 9225 + 20) % 512))
"$program" put room/filled a "$(printf "%0$((rest + 1))d" 0)" >committed
blocks=$((($(wc -c <room/filled/shard-0.log) + 511) / 512))
status=0
(trap '' XFSZ && ulimit -f $blocks && exec timeout 60 "$program" put room/filled a 2) >../out 2>../err || status=$?
told_full 1 'unknown 4[.][0-9]*' '' put
status=0
(trap '' XFSZ && ulimit -f $((blocks + 1)) && seq 30 | sed 's/^/put a /' | timeout 60 "$program" serve room/filled) >../out 2>../err || status=$?
told_full 2 '0 unknown 5[.][0-9]*' 'fault: 2 Device' serve

[ $failed = 0 ] || exit 1
[ "$tried" -ge 105 ] || {
    echo "refusals: only $tried lines were found" >&2
    exit 1
}
echo "refusals: $tried lines were refused as they are to be"
