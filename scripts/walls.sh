#!/bin/sh
# Checks the walls of docs/ARCHITECTURE.md against crates.txt. Each row `| `CRATE` | WHAT | WALL |` is a crate, and each crate has one row; a
# crate stands only on crates above it on that page. A wall is `never on any`, `never on `A`, `B`` (neither by itself nor through
# others), or `only `A`, `B`` (on no others by itself). It names each wall that does not stand, and ends with status 1 then.
set -eu
cd "$(dirname "$(dirname "$(readlink -f "$0")")")"
awk '
function say(text) { print "walls: " text > "/dev/stderr"; wrong = 1 }
# Whether a crate stands on another, by itself or through others.
function stands(crate, other,    i, n, on) {
    if (!(crate in below)) return 0
    if ((crate, other) in known) return known[crate, other]
    n = split(below[crate], on, " ")
    known[crate, other] = 0
    for (i = 1; i <= n; i++) if (on[i] == other || stands(on[i], other)) known[crate, other] = 1
    return known[crate, other]
}
FNR == NR { sub(/#.*/, ""); if (/:/) { name = $1; sub(/:$/, "", name); sub(/^[^:]*:/, ""); below[name] = $0 }; next }
/^\| `/ {
    split($0, cell, / *\| */)
    name = cell[2]
    gsub(/`/, "", name)
    if (!(name in below) || name in row) { say("the row of " name); next }
    row[name] = ++rows
    wall[name] = cell[4]
}
END {
    for (name in below) {
        if (!(name in row)) { say("no row of " name); continue }
        text = wall[name]
        if (text !~ /^(never on any|(never on|only) `[a-z_]+`(, `[a-z_]+`)*)$/) say("the wall of " name " has another form")
        only = text ~ /^only/
        sub(/^(never on|only) /, "", text)
        gsub(/[`,]/, "", text)
        n = split(text, other, " ")
        for (i = 1; i <= n; i++) {
            if (other[i] != "any" && !(other[i] in below)) say("the wall of " name " names " other[i])
            if (!only && stands(name, other[i])) say(name " stands on " other[i])
        }
        n = split(below[name], on, " ")
        for (i = 1; i <= n; i++) {
            if (!(on[i] in below)) continue
            if (row[on[i]] > row[name]) say(name " stands on " on[i] ", which comes after it")
            if (text == "any" || only && index(" " text " ", " " on[i] " ") == 0) say(name " stands on " on[i] ", which its wall does not name")
        }
    }
    if (!wrong) print "walls: " rows " stand"
    exit wrong
}' crates.txt docs/ARCHITECTURE.md
