#!/bin/sh
# Prints the crates whose contracts are others than at a commit, and which have wrong bodies in wrong-bodies/, one a line. Contracts are others if
# a file of src/ has other clauses (`requires`, `ensures`, `ghost` items), comments left out, or a file of specs/ another text, comments left out; and
# a crate counts too if one of its wrong bodies is new or another.
#     scripts/changed_contracts.sh [COMMIT]       COMMIT is the first parent of HEAD if none is told
# Where that commit is not at hand, as in a checkout without history, it prints none and says so on standard error.
set -eu
cd "$(dirname "$(dirname "$(readlink -f "$0")")")"
base=${1:-HEAD^}
if ! git rev-parse -q --verify "$base^{commit}" >/dev/null 2>&1; then
    echo "contracts: there is no commit '$base' here to compare with" >&2
    exit 0
fi

# The clauses of a file of src/, or the text of one of specs/.
contract() {
    case $1 in
    *.rt)
        awk '
            { line = $0; sub(/\/\/.*/, "", line); gsub(/[ \t]+/, " ", line) }
            match(line, /fn [a-z_0-9]+/) { name = substr(line, RSTART, RLENGTH) }
            line ~ /^ (requires|ensures|invariant|decreases|ghost) / { within = 1; opened = 0; closed = 0 }
            within {
                print name, line
                opened += gsub(/\{/, "{", line)
                closed += gsub(/\}/, "}", line)
                if ((opened && opened <= closed) || line ~ /; *$/) within = 0
            }' | tr -d '\n'
        ;;
    *) sed 's/--.*//' | tr -s ' \n' ' ' ;;
    esac
}

changed() {
    for file; do
        case $file in wrong-bodies/*) return 0 ;; esac
        was=$(git show "$base:$file" 2>/dev/null | contract "$file")
        is=$(cat "$file" 2>/dev/null | contract "$file")
        [ "$was" = "$is" ] || return 0
    done
    return 1
}

for folder in wrong-bodies/*/; do
    crate=$(basename "$folder")
    set -- $(git diff --name-only "$base" -- "crates/$crate/src/*.rt" "crates/$crate/specs/*.antt" "wrong-bodies/$crate/*.edit")
    if changed "$@"; then
        echo "$crate"
    fi
done
