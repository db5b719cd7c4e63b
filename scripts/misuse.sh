#!/bin/sh
# Checks that each misuse of misuse/*.case is refused by the compiler, by the error that the case names and no other.
# Nothing is proved for it: the compiler refuses the code before it proves anything of the crates below. All cases are modules of one crate, in a copy
# of the repository; it stands on the crates that their code names. What is let go the compiler looks for only where all else is right, so the cases
# that have no error then are tried once more, by themselves. The lines of a case:
#     within: NAME      the code is added to this crate, whose private fields it names; most cases have no such line
#     wants: WORDS      words of the one error that is to come; each such line has to be met
#     code:             and all lines below it are the code
# With names of cases, as `scripts/misuse.sh logged_let_go`, only those are tried.
set -eu
root=$(dirname "$(dirname "$(readlink -f "$0")")")
copy=$(mktemp -d)
trap 'rm -rf "$copy"' EXIT
(cd "$root" && tar -cf - --exclude=out crates crates.txt HANDLES) | tar -xf - -C "$copy"

code_of() {
    sed '1,/^code:$/d' "$root/misuse/$1.case"
}

# The names of the cases that have no error yet.
without_error() {
    for name; do
        grep -q "^src/$name\.rt:.* error\[" "$copy/errors" || echo "$name"
    done
}

# Tries cases in a crate as it stands in the copy, and adds the errors to those that there are.
try_in() {
    crate=$copy/crates/$1
    shift
    cp "$crate/src/lib.rt" "$copy/lib.rt"
    for name; do
        code_of "$name" >"$crate/src/$name.rt"
        printf '\nmod %s;\n' "$name" >>"$crate/src/lib.rt"
    done
    (cd "$crate" && timeout 900 rt check --jobs 1) >>"$copy/said" 2>&1 || true
    grep 'error\[' "$copy/said" | sort -u >"$copy/errors" || true
    (cd "$crate/src" && printf '%s.rt\n' "$@" | xargs rm)
    mv "$copy/lib.rt" "$crate/src/lib.rt"
}

# What is wrong with a case, on standard output; nothing where it is refused as it should be.
judge() {
    grep "^src/$1\.rt:" "$copy/errors" >"$copy/own" || true
    if [ "$(wc -l <"$copy/own")" -ne 1 ]; then
        echo "one error was to come, and not these $(wc -l <"$copy/own"):"
        cat "$copy/own"
        tail -n 20 "$copy/said"
        return
    fi
    sed -n 's/^wants: //p' "$root/misuse/$1.case" >"$copy/wants"
    if [ ! -s "$copy/wants" ]; then
        echo "it says not what error it wants"
    fi
    while IFS= read -r words; do
        if ! grep -qF -- "$words" "$copy/own"; then
            echo "no '$words' in:"
            cat "$copy/own"
        fi
    done <"$copy/wants"
}

if [ $# -eq 0 ]; then
    set -- $(cd "$root/misuse" && ls ./*.case | sed 's|^\./||; s|\.case$||')
fi
: >"$copy/said"
: >"$copy/errors"

apart=
for name; do
    crate=$(sed -n 's/^within: //p' "$root/misuse/$name.case")
    if [ -z "$crate" ]; then
        apart="$apart $name"
    else
        try_in "$crate" "$name"
    fi
done
if [ -n "$apart" ]; then
    named=$(for name in $apart; do code_of "$name"; done | sed -n 's/^use \([a-z_]*\)::.*/\1/p' | sort -u | grep -vx std)
    mkdir -p "$copy/crates/misuse/src"
    printf '//! Misuse.\n#![tactic(auto)]\n' >"$copy/crates/misuse/src/lib.rt"
    echo "misuse: $(echo $named)" >>"$copy/crates.txt"
    try_in misuse $apart
    left=$(without_error $apart)
    [ -z "$left" ] || try_in misuse $left
fi

failed=0
for name; do
    wrong=$(judge "$name")
    if [ -z "$wrong" ]; then
        echo "misuse $name: refused"
    else
        printf 'misuse %s: FAILED\n%s\n' "$name" "$wrong"
        failed=$((failed + 1))
    fi
done
echo "misuse: $(($# - failed)) refused, $failed failed"
[ "$failed" -eq 0 ]
