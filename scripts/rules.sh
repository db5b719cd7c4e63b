#!/bin/sh
# Checks the page of rules, docs/RULES.md: that each definition, function and wrong body that it names exists; that the wrong bodies exist
# which docs/CHEATS.md names with their crates; and that no document has the marks of a merge that was not ended. And that no other files
# than these make an end of a transaction for which nothing was waited: of what a log tells, of the messages of a model, and of tests; or an
# aborted end. And that each file of rows is named by the words of its program.
set -eu
cd "$(dirname "$(dirname "$(readlink -f "$0")")")"
missing=0
say() {
    echo "rules: $*" >&2
    missing=1
}
# The wrong body stands at the gate or outside it.
is_body() {
    [ -f "crates/${1%/*}/must-fail/${1#*/}.edit" ] || [ -f "wrong-bodies/$1.edit" ]
}
rows=$(mktemp)
trap 'rm -f "$rows"' EXIT
sed -n 's/^| .* | \(`[a-z_]*: [A-Za-z.-_]*`\|a test\) | `\([a-z_:]*\)` | `\{0,1\}\(-\|[a-z_/]*\)`\{0,1\} |$/\1|\2|\3/p' docs/RULES.md | tr -d '`' >"$rows"
count=$(grep -c '^| ' docs/RULES.md)
heads=$(grep -c '^| Rule' docs/RULES.md)
[ "$(wc -l <"$rows")" = $((count - heads)) ] || say "a row has another form"
while IFS='|' read -r definition function body; do
    if [ "$definition" != 'a test' ]; then
        crate=${definition%%:*}
        place=${definition#*: }
        file=crates/$crate/specs/${place%%.*}.antt
        grep -qE "(^|pub )(abbrev |unfoldable |record |data )?(pub )?(record |data )?${place#*.}( |$)" "$file" 2>/dev/null || say "no definition $definition"
    fi
    crate=${function%%::*}
    grep -qrE "fn ${function##*::}[(<]" "crates/$crate/src" || say "no function $function"
    [ "$body" = - ] || is_body "$body" || say "no wrong body $body"
done <"$rows"
for body in $(grep -oE '`[a-z_]+/[a-z0-9_]+`' docs/CHEATS.md | tr -d '`' | sort -u); do
    case $body in
    misuse/*) [ -f "$body.case" ] || say "no case $body" ;;
    wrong-bodies/*) [ -d "$body" ] || say "no folder $body" ;;
    *) is_body "$body" || say "no wrong body $body" ;;
    esac
done
! grep -nE '^(<<<<<<<|=======$|>>>>>>>)' README.md docs/*.md bench/*.md crates/*/README.md >&2 || say "a merge was not ended"
for file in $(grep -rlE '::said\b' crates/*/src | sort); do
    case $file in
    crates/message/src/message.rt | crates/memory/src/standing.rt | crates/world/src/begun.rt | crates/*_tests/src/*) ;;
    *) say "an end that is only said: $file" ;;
    esac
done
# An aborted end is made by the two planners that log it or find it logged; a client hears ends, and makes none.
for file in $(grep -rlE 'Done::aborted\b' crates/*/src | sort); do
    case $file in
    crates/coordinator/src/commits.rt | crates/memory/src/planning.rt | crates/*_tests/src/*) ;;
    *) say "an aborted end that no shard told: $file" ;;
    esac
done
# The program that plays rows goes over the files that its words name, and no others.
for file in crates/*/data/*.rows; do
    grep -qx "${file##*/}" "${file%/data/*}/args" || say "no word names $file"
done
[ "$missing" = 0 ] && echo "rules: $(wc -l <"$rows") stand"
exit "$missing"
