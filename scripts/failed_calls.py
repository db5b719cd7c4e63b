#!/usr/bin/env python3
"""Drives over files while a system call fails, moves nothing, or is the last one: at each call of an opening, of a new store and of one that is there,
and at 100 drawn ones of drives. Each has to end soon, with the verdict yes, or with a fault and either no counts or those of all its transactions.
After each the next drive has to come to its end with the verdict yes, and the logs have to hold as many commits as all drives told. A call
fails with EIO, ENOSPC or EINTR; a write moves nothing; or the program is killed before it (and so behind the call before it). Some drives
may write no file beyond a drawn length, so that a write is cut short and the next one fails. Then long drives: a log's write or sync fails, or
a node's thread does not start, and each has to end soon.
It wants the program built and strace; without that it says so and ends well. SHARDS and WORKERS (2) tell how many there are, DRAWN (100) how many
calls are drawn, EACH=0 leaves out the others; SOON (20) is how many seconds a drive may take. SECONDS (300) bounds it, and it says how many it
tried; with LOUD it names each."""
import os
import random
import shutil
import sys
import tempfile
import time

import traced

SHARDS = int(os.environ.get("SHARDS", "2"))
WORKERS = int(os.environ.get("WORKERS", "2"))
DRAWN = int(os.environ.get("DRAWN", "100"))
EACH = os.environ.get("EACH", "1") != "0"
LOUD = "LOUD" in os.environ
SECONDS = int(os.environ.get("SECONDS", "300"))
SEED = int(os.environ.get("SEED", "1"))
# What a drive takes at most. Where nobody stops the workers, a turn takes two seconds.
SOON = int(os.environ.get("SOON", "20"))
TURNS = 4
FAILS = ["error=EIO", "error=ENOSPC", "error=EINTR", "signal=KILL"]


def fail(why):
    print(f"failed_calls: {why}", file=sys.stderr)
    sys.exit(1)


class Store:
    """A folder that is driven, and how many commits its drives told."""

    def __init__(self, room, turns=TURNS):
        self.turns = turns * WORKERS
        self.folder = os.path.join(room, "logs")
        self.settings = os.path.join(room, "settings")
        self.no_lines = os.path.join(room, "no.lines")
        self.told = 0
        os.mkdir(self.folder)
        open(self.no_lines, "w").close()
        traced.settings(self.settings, self.folder, SHARDS, WORKERS, turns, 4 * SHARDS)

    def drive(self, **how):
        return self.add(traced.drive(self.settings, **how), how)

    def add(self, answer, how):
        """Looks at what a drive came to, and adds its commits. Where a call of the loader failed, no program began."""
        if answer.status == 127 and "loading shared libraries" in answer.err:
            return answer
        if not answer.is_sound(self.turns):
            fail(f"a drive with {how} came to {answer}")
        if answer.seconds > SOON:
            fail(f"a drive with {how} did not end soon: {answer}")
        self.told += answer.committed
        return answer

    def judge(self, what):
        """The next drive goes well, and nothing that was told is lost."""
        answer = self.drive()
        if not answer.is_yes:
            fail(f"after {what} the next drive did not go well: {answer}")
        found = traced.verdict(self.folder, SHARDS, self.no_lines)
        if found != "yes":
            fail(f"after {what} the logs are judged {found!r}")
        there = traced.commits(self.folder, SHARDS)
        if there < self.told:
            fail(f"after {what} there are {there} commits, and {self.told} were told")


def counted(room, is_new):
    """How often the first thread makes each call in a drive."""
    store = Store(room)
    if not is_new and not store.drive().is_yes:
        fail("a drive without faults did not go well")
    trace = os.path.join(room, "trace")
    if not store.drive(trace=trace).is_yes:
        fail("a drive that is traced did not go well")
    counts, first = {}, None
    for call, begins in traced.events(trace):
        first = first or call.thread
        if begins and call.thread == first:
            counts[call.name] = counts.get(call.name, 0) + 1
    return counts


def in_room(what, *words):
    room = tempfile.mkdtemp()
    try:
        return what(room, *words)
    finally:
        shutil.rmtree(room)


def try_one(room, is_new, name, inject, path=None):
    store = Store(room)
    if not is_new and not store.drive().is_yes:
        fail("a drive without faults did not go well")
    store.drive(inject=inject, path=path and os.path.join(store.folder, path))
    store.judge(f"{inject} in {name}")


def try_limit(room, length):
    """A drive whose files may grow to a length and no further."""
    store = Store(room)
    store.drive()
    store.add(traced.answer(["prlimit", f"--fsize={length}", traced.PROGRAM, "drive", store.settings]), length)
    store.judge(f"a limit of {length} bytes")


def try_long(room, inject, wanted, path):
    """A drive of many turns ends soon, with a fault, and with counts where its workers have begun."""
    store = Store(room, turns=5000)
    answer = store.drive(inject=inject, path=path and os.path.join(store.folder, path))
    if answer.is_yes or not answer.err.startswith(wanted) or bool(answer.counts) != bool(path):
        fail(f"{inject} in a long drive came to {answer}")
    traced.settings(store.settings, store.folder, SHARDS, WORKERS, TURNS, 4 * SHARDS)
    store.turns = TURNS * WORKERS
    store.judge(f"{inject} in a long drive")


LONG = [
    ("pwrite64:error=EIO:when=30", "fault: 2 Device\n", "shard-0.log"),
    ("pwrite64:error=ENOSPC:when=31", "fault: 2 Device\n", "shard-1.log"),
    ("fsync:error=EIO:when=30", "fault: 2 Device\n", "shard-0.log"),
    ("fsync:error=EIO:when=31", "fault: 2 Device\n", "shard-1.log"),
    # All shards but one are opened by a thread of their own; the nodes' threads come behind these.
    (f"clone3:error=EAGAIN:when={SHARDS}", "fault: 1 Memory\n", None),
    (f"clone3:error=EAGAIN:when={SHARDS + 1}", "fault: 1 Memory\n", None),
]


def main():
    traced.need_tools("failed_calls")
    began, tried, left_out = time.time(), 0, 0
    random.seed(SEED)
    cases = []
    for is_new, name in [(True, "a drive of a new store"), (False, "a drive that goes on")] if EACH else []:
        for call, count in sorted(in_room(counted, is_new).items()):
            kinds = FAILS + (["retval=0"] if call == "pwrite64" else [])
            for place in range(1, min(count, 60) + 1):
                cases += [(is_new, name, f"{call}:{kind}:when={place}") for kind in kinds]
    random.shuffle(cases)
    drawn = []
    for _ in range(DRAWN):
        call = random.choice(["pwrite64", "fsync"])
        kind = random.choice(FAILS + (["retval=0"] if call == "pwrite64" else []))
        path = f"shard-{random.randrange(SHARDS)}.log"
        drawn.append((False, f"a drive, at {path}", f"{call}:{kind}:when={random.randint(1, 12)}", path))
    drawn.append((False, "a drive one of whose shards is opened without a thread", "clone3:error=EAGAIN:when=1"))
    for case in drawn + cases:
        if time.time() - began > SECONDS:
            left_out += 1
            continue
        in_room(try_one, *case)
        tried += 1
        if LOUD:
            print(f"{tried}: {case[1]}: {case[2]}", flush=True)
    for case in LONG:
        in_room(try_long, *case)
    limits = 0
    while limits < 20 and shutil.which("prlimit") and time.time() - began < SECONDS + 30:
        in_room(try_limit, random.randint(20, 4000))
        limits += 1
    print(
        f"failed_calls: {tried} failing calls, {len(LONG)} in long drives and {limits} limits, each drive ended soon, and nothing that was "
        f"told is lost; {left_out} calls left out for time"
    )


main()
