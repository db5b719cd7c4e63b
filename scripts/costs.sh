#!/bin/sh
# Says which functions of a crate cost most to prove: their seconds, and the megabytes of their translated bodies, which do not depend on
# what else the machine does. It proves the crate from nothing, at one job, and goes by the times at which each module was kept.
#     scripts/costs.sh CRATE          the crate
#     scripts/costs.sh CRATE --test   its tests
# With SHOWN, so many functions are shown, and else 20.
#     scripts/costs.sh --touch [CRATE]
# proves nothing: it says what the longest chain of crates is, and what the gate proves anew after a touch of each crate, or of one.
set -eu
root=$(dirname "$(dirname "$(readlink -f "$0")")")
if [ "${1:-}" = --touch ]; then
    shift
    exec "$root/scripts/touch_costs.py" "$@"
fi
cd "$root/crates/$1"
kept=out/incremental
rm -rf "$kept"
mkdir -p out
if ! rt check --jobs 1 ${2:+"$2"} >out/costs 2>&1; then
    tail -n 20 out/costs
    exit 1
fi
# The modules that the checker makes of a function.
parts='Code|Lts|Kinds|Named|Reads|Layout|Tie|Goals|Given|Answers|Invariants|Proof|Statement|Met|Carried|Instances|Symbol|Key|TheLinks?'
find "$kept" -name '*.oantt' -printf '%T@ %s %f\n' | sort -n | awk -v parts="$parts" '
    NR > 1 { cost = $1 - last }
    {
        last = $1
        name = $3
        sub(/^Rattle-[a-z0-9_]+-(proofs|specs)\./, "", name)
        sub(/(\.decls)?\.oantt$/, "", name)
        is_body = name ~ /\.Lts/
        sub("\\.(" parts ")([-.].*)?$", "", name)
        seconds[name] += cost
        if (is_body) bytes[name] += $2
    }
    END { for (name in seconds) printf "%6.1f s %5.1f MB  %s\n", seconds[name], bytes[name] / 1000000, name }
' | sort -rn | head -n "${SHOWN:-20}"
