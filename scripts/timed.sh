#!/bin/sh
# Runs the gate, `rt ci`, and the cases of misuse from its first proved crate on, while most others wait for `units` and processors are
# idle. It says above the gate's last line how long each part took, by the times at which its lines came:
#     proofs    until the last crate was proved
#     tests     until the tests of the last crate were proved
#     edits     from the first crate whose wrong bodies were tried, until the last of them was refused
#     runs      of the programs and the tests, once nothing is left to prove
# The first three go beside one another. After a gate that passed, the programs that it built run with each growth of their memory refused. The
# refused command lines and the tests of the clients run over the program, and four histories of its threads are judged. Then the wrong bodies are
# tried of the crates whose contracts are others than at the parent of HEAD, or at the commit BASE. What the gate prints passes through, and its
# exit status is passed on. If a misuse or a wrong body is not refused, a program does not end as it should when memory is refused, a line is
# refused otherwise, a client's test fails, or a history breaks a rule, that is the last line, and the status is 1.
set -u
RT_JOBS=$(scripts/jobs.sh 40)
export RT_JOBS

room=$(mktemp -d)
trap 'rm -rf "$room"' EXIT
mkfifo "$room/lines"
began=$(date +%s)
# Nearly all stands on `units`, and while one processor proves it the others have little to do. So where the kit can prove one crate so, a
# second call proves it with all of them, and the gate takes that over. Another kit ends that call at once, and the gate proves `units` itself.
env -u RT_JOBS rt ci units >/dev/null 2>&1 &
first_crate=$!
rt ci >"$room/lines" &
gate=$!
misuse=
trap 'kill "$gate" "$first_crate" $misuse' HUP INT TERM

# The seconds since the beginning, as minutes and seconds.
now() {
    echo $(($(date +%s) - began))
}
minutes() {
    printf '%d:%02d' $(($1 / 60)) $(($1 % 60))
}

# The cases of misuse, beside the gate.
start_misuse() {
    from=$(date +%s)
    (scripts/misuse.sh && echo "time: misuse $(($(date +%s) - from)) seconds") </dev/null >"$room/misuse" 2>&1 &
    misuse=$!
}

proofs=0 tests=0 first=0 edits=0 runs=0
while IFS= read -r line || [ -n "$line" ]; do
    if [ -z "$misuse" ]; then
        start_misuse
    fi
    case $line in
        'rt: '*': its tests are proved') tests=$(now) ;;
        'rt: '*' proved') proofs=$(now) ;;
        'rt: '*': trying its must-fail edits'*) [ "$first" -gt 0 ] || first=$(now) ;;
        'rt: must-fail '*) [ "$edits" -gt 0 ] || edits=$(now) ;;
        'rt: '*': its tests passed' | 'rt: '*' ran, and wrote'*) runs=$(now) ;;
    esac
    # The last line is kept back.
    [ -z "${last+is there}" ] || printf '%s\n' "$last"
    last=$line
done <"$room/lines"
wait "$gate"
status=$?
wait "$first_crate"
if [ -n "$misuse" ]; then
    wait "$misuse" || misused=yes
    cat "$room/misuse"
fi
if [ "$status" -eq 0 ]; then
    scripts/refused_memory.sh </dev/null 2>&1 || unended=yes
    scripts/refusals.sh </dev/null 2>&1 || unrefused=yes
    scripts/clients.sh </dev/null 2>&1 || unserved=yes
    if python3 --version >/dev/null 2>&1; then
        scripts/histories.py 4 </dev/null 2>&1 || untold=yes
    fi
    scripts/wrong_bodies.sh --changed ${BASE:+"$BASE"} </dev/null 2>&1 || passed_on=yes
fi

whole=$(now)
times >"$room/times"
parts="proofs until $(minutes "$proofs"), tests until $(minutes "$tests")"
parts="$parts, edits from $(minutes "$first") until $(minutes "$edits"), runs until $(minutes "$runs")"
echo "time: $parts"
echo "time: $(minutes "$whole") on $(nproc) processors, of which (user, system) $(sed -n 2p "$room/times")"
printf '%s\n' "${last-}"
[ -x "$(dirname "$(rt doc | head -n 1)")/toolchain/bin/clang" ] || echo 'refused_memory: NOT TRIED, since the kit has no clang'
if [ -n "${misused:-}" ]; then
    echo 'misuse: FAILED'
    exit 1
fi
if [ -n "${unended:-}" ]; then
    echo 'refused_memory: FAILED'
    exit 1
fi
if [ -n "${unrefused:-}" ]; then
    echo 'refusals: FAILED'
    exit 1
fi
if [ -n "${passed_on:-}" ]; then
    echo 'wrong_bodies: FAILED'
    exit 1
fi
if [ -n "${unserved:-}" ]; then
    echo 'clients: FAILED'
    exit 1
fi
if [ -n "${untold:-}" ]; then
    echo 'histories: FAILED'
    exit 1
fi
exit "$status"
