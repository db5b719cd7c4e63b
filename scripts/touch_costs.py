#!/usr/bin/env python3
"""Says by crates.txt and a table of seconds (docs/gate-seconds.txt, which scripts/seconds.py makes) what the longest chain of the gate is, and what a
touch of a crate costs: that crate and all that stand on it are proved anew, with their tests and wrong bodies.
    scripts/costs.sh --touch [CRATE]"""
import os
import signal
import sys

ROOT = os.path.dirname(os.path.dirname(os.path.realpath(__file__)))


def lines_of(path):
    """The lines of a file of the repository without comments."""
    with open(f"{ROOT}/{path}", encoding="utf-8") as it:
        cut = [line.split("#")[0].strip() for line in it]
    return [line for line in cut if line]


def crates():
    """Each crate with those of the repository that it names."""
    named = {}
    for line in lines_of("crates.txt"):
        head, _, rest = line.partition(":")
        named[head.split()[0]] = rest.split()
    return {name: [it for it in needs if it in named] for name, needs in named.items()}


def main():
    needs = crates()
    seconds = {name.lstrip("~"): [float(it) for it in rest] for name, *rest in map(str.split, lines_of("docs/gate-seconds.txt"))}
    unknown = sorted(name for name in needs if name not in seconds)
    if unknown:
        print(f"not measured, so taken as nothing: {' '.join(unknown)}")
    # A crate's proof is waited for by those above, and its tests and wrong bodies by nobody.
    proof, tests = ({name: seconds.get(name, [0, 0])[at] for name in needs} for at in (0, 1))
    whole = {name: sum(seconds.get(name, [0])) for name in needs}
    chains, above = {}, {name: set() for name in needs}

    def before(name):
        return max((chain(it) for it in needs[name]), default=(0, []))

    def chain(name):
        if name not in chains:
            chains[name] = before(name)[0] + proof[name], [*before(name)[1], name]
        return chains[name]

    def with_tests(name):
        return before(name)[0] + max(proof[name], tests[name]), chain(name)[1]

    def below(name):
        return {name}.union(*(below(it) for it in needs[name]))

    for name in needs:
        for it in below(name):
            above[it].add(name)
    every = sum(whole.values())
    cost = {name: sum(whole[it] for it in above[name]) for name in needs}
    if len(sys.argv) > 1:
        name = sys.argv[1]
        if name not in needs:
            sys.exit(f"costs: there is no crate '{name}'")
        print(f"a touch of {name}: {cost[name] / 60:.0f} minutes of a processor, {100 * cost[name] / every:.0f} of 100 of the gate")
        print(f"proved anew ({len(above[name])}): {' '.join(sorted(above[name], key=lambda it: -whole[it]))}")
        return
    longest, way = max(with_tests(name) for name in needs)
    print(f"the gate: {every / 60:.0f} minutes of a processor, of which proofs {sum(proof.values()) / 60:.0f}")
    print(f"the longest chain: {longest / 60:.0f} minutes at one processor a crate: {' > '.join(way)}")
    print("a touch of each crate: crates proved anew, minutes of a processor, share of the gate")
    for name in sorted(needs, key=lambda it: -cost[it]):
        print(f"{name:16} {len(above[name]):3} {cost[name] / 60:6.1f} {100 * cost[name] / every:4.0f} %")


if __name__ == "__main__":
    # Whoever reads the first lines alone has enough.
    signal.signal(signal.SIGPIPE, signal.SIG_DFL)
    main()
