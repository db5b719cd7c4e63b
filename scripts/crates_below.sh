#!/bin/sh
# Prints the crates of the repository that a crate stands on, and the crate itself, the lowest first, one a line.
set -eu
awk -v top="$1" '
    { sub(/#.*/, "") }
    /:/ {
        name = $1
        sub(/:$/, "", name)
        sub(/^[^:]*:/, "")
        listed[name] = $0
    }
    function visit(name,    deps, count, i) {
        if (!(name in listed) || name in seen) return
        seen[name] = 1
        count = split(listed[name], deps, " ")
        for (i = 1; i <= count; i++) visit(deps[i])
        print name
    }
    END { visit(top) }' "$(dirname "$(dirname "$(readlink -f "$0")")")/crates.txt"
