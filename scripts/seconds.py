#!/usr/bin/env python3
"""Says how many seconds of a processor a gate takes for each crate: for its proof, for its tests, and for its wrong bodies.
    scripts/seconds.py PID >docs/gate-seconds.txt      of the process PID, an `rt ci` that runs, and of those that it starts
It looks once a second until that process has ended; so of each process up to a second is lost. `scripts/costs.sh --touch` reads the table."""
import os
import re
import sys
import time

TICKS = os.sysconf("SC_CLK_TCK")
KINDS = ("proof", "tests", "edits")


def read(path):
    try:
        with open(path, "rb") as it:
            return it.read()
    except OSError:
        return b""


def processes():
    """Each process: its parent, and its ticks so far, with those of what it waited for if that is no process of a crate itself."""
    found = {}
    for name in os.listdir("/proc"):
        fields = read(f"/proc/{name}/stat").rpartition(b")")[2].split() if name.isdigit() else []
        if fields:
            found[int(name)] = int(fields[1]), int(fields[11]) + int(fields[12])
    return found


def below(found, top):
    """Whether a process is `top` or was started by it."""

    def is_below(pid):
        while pid in found and pid != top:
            pid = found[pid][0]
        return pid == top

    return [pid for pid in found if is_below(pid)]


def work_of(pid):
    """The crate that a process works for, and what it does there; or None."""
    words = read(f"/proc/{pid}/cmdline").decode(errors="replace").split("\0")
    if "--crate-name" not in words:
        return None
    try:
        folder = os.readlink(f"/proc/{pid}/cwd")
    except OSError:
        return None
    kind = "edits" if re.search(r"/rt-edits?-", folder) else "tests" if "--test" in words else "proof"
    return words[words.index("--crate-name") + 1], kind


def main():
    top, seen, ticks = int(sys.argv[1]), {}, {}
    while os.path.exists(f"/proc/{top}"):
        found = processes()
        for pid in below(found, top):
            work = seen.get(pid) or work_of(pid)
            # What a check starts, a compiler or a linker, works for the same crate.
            work = work or seen.get(found[pid][0])
            if work:
                seen[pid] = work
                ticks[pid, work] = max(found[pid][1], ticks.get((pid, work), 0))
        time.sleep(1)
    sums = {}
    for (_, (crate, kind)), count in ticks.items():
        sums.setdefault(crate, dict.fromkeys(KINDS, 0))[kind] += count / TICKS
    print("# Seconds of a processor for each crate at the gate: proof, tests, wrong bodies.")
    for crate in sorted(sums):
        print(crate, *(round(sums[crate][kind]) for kind in KINDS))


if __name__ == "__main__":
    main()
