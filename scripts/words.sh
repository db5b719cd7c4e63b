#!/bin/sh
# Checks what `./run` answers before anything is built, without the kit: wrong words are refused at once, with what the tests of the program want
# of the same words; help and the version are told. And that a crate of one's own in crates.txt does not make the program one that is not built.
# The rows are those of crates/program_tests/src/explained.rt but for words that only the program reads, as numbers. It says how many rows it tried.
set -eu
root=$(dirname "$(dirname "$(readlink -f "$0")")")
room=$(mktemp -d)
trap 'rm -rf "$room"' EXIT
mkdir -p "$room/clone/scripts" "$room/clone/crates/command_line/src" "$room/clone/crates/shards/out"
cp "$root/run" "$root/crates.txt" "$room/clone"
cp "$root/scripts/crates_below.sh" "$room/clone/scripts"
cp "$root/crates/command_line/src/usage.rt" "$room/clone/crates/command_line/src"
for name in $("$root/scripts/crates_below.sh" shards); do mkdir -p "$room/clone/crates/$name"; done
PATH=/usr/bin:/bin
export PATH
failed=0
tried=0

fail() {
    echo "words: $*" >&2
    failed=$((failed + 1))
}

# run WORDS: its status, and what it prints to both outputs.
ask() {
    status=0
    "$room/clone/run" "$@" >"$room/out" 2>"$room/err" </dev/null || status=$?
    tried=$((tried + 1))
}

# A row is a line of words, what is wrong with them, and how their command is called.
awk -F'"' '
    /usage: "/ { usage = $2 }
    /^ *\($/ { line = ""; wanted = 1; reason = ""; next }
    wanted && /^ *"/ { if (line == "") { line = $2; given = 1 } else if (reason == "Command") { print line "\t" $2 "\t" usage; wanted = 0 } else wanted = 0; next }
    wanted && /Reason::/ { reason = $0; gsub(/[^A-Za-z:]/, "", reason); sub(/Reason::/, "", reason); next }
    /^ *\("/ { split($0, part, /Reason::|,/); reason = $3; gsub(/[^A-Za-z:]/, "", reason); sub(/Reason::/, "", reason); if (reason == "Command") print $2 "\t" $4 "\t" usage }
' "$root/crates/program_tests/src/explained.rt" | grep -v 'whole number\|exclude each other\|backslash' >"$room/rows"
rows=$(wc -l <"$room/rows")
[ "$rows" -ge 50 ] || fail "only $rows rows were found"

tab=$(printf '\t')
while IFS= read -r row; do
    line=${row%%"$tab"*}
    rest=${row#*"$tab"}
    case $line in -*) continue ;; esac
    printf 'fault: 7 BadRequest(command)\n--> %s\nusage: shards %s\n' "${rest%%"$tab"*}" "${rest#*"$tab"}" >"$room/wanted"
    # Single spaces part the words.
    set -f
    set -- $line
    set +f
    ask "$@"
    [ $status = 2 ] && [ ! -s "$room/out" ] && cmp -s "$room/err" "$room/wanted" || fail "'$line' is not refused as it is to be"
done <"$room/rows"

# Help and the version.
begins() {
    wanted=$1
    shift
    ask "$@"
    [ $status = 0 ] && [ "$(head -n 1 "$room/out")" = "$wanted" ] || fail "'$*' does not begin with '$wanted'"
}
begins 'usage: shards COMMAND WORD..' --help
begins 'usage: shards COMMAND WORD..' help
begins 'usage: shards COMMAND WORD..' gett --help
begins 'get [--raw] [--json] DIR KEY [AT]' get --help
begins 'get [--raw] [--json] DIR KEY [AT]' help get
begins 'put [--raw] [--bytes] DIR KEY VALUE' put logs -h
begins 'shards 1.0' --version
grep -q '^not built; the sources are those of commit ' "$room/out" || fail "the version does not tell that nothing was built"

# Lines are no words that run without proof.
printf '#!/bin/sh\nexit 1\n' >"$room/rt"
chmod +x "$room/rt"
PATH=$room:$PATH
ask serve logs
[ $status = 3 ] && grep -q "'serve' wants the program built" "$room/err" || fail "'serve' does not say that it wants the program built"
PATH=${PATH#*:}

# A program that is built: one's own crate changes nothing, and a crate that the program stands on does.
program=$room/clone/crates/shards/out/shards
printf '#!/bin/sh\necho ran\n' >"$program"
chmod +x "$program"
for name in $("$root/scripts/crates_below.sh" shards); do grep "^$name[ :]" "$root/crates.txt"; done >"$program.crates"
echo 0123456 >"$program.commit"
runs() {
    ask get logs a
    [ "$status $(cat "$room/out")" = "$1" ] || fail "$2"
}
runs '0 ran' 'a program that is built does not run'
echo 'mine: store' >>"$room/clone/crates.txt"
runs '0 ran' "a crate of one's own makes the program one that is not built"
ask --version
[ "$(tail -n 1 "$room/out")" = 'built from commit 0123456' ] || fail 'the version does not tell the commit'
sed -i 's/^units: /units: indexmap /' "$room/clone/crates.txt"
runs '3 ' 'a crate that stands on more does not make the program one that is not built'

[ $failed = 0 ] || exit 1
echo "words: $tried lines were answered as they are to be"
