#!/usr/bin/env python3
"""Serves a store whose files run into a limit, or of which one sync fails, and looks whether its shards are opened again. Values are put one after the
other. Once a put is refused, the limit is taken away; then a put has to be committed within 15 seconds, and a new view has to have each value whose
commit was told. At the end `inspect` has to say that the logs are right. It says how long each shard stood still. It wants the program built; without
strace the failing syncs are left out."""
import os
import resource
import shutil
import subprocess
import sys
import tempfile
import time

import traced

KEYS = ["a", "b", "y", "z"]
OPTIONS = ["--epsilon", "0", "--clients", "1", "--patience", "200"]


def fail(why):
    print(f"healed: {why}", file=sys.stderr)
    sys.exit(1)


class Served:
    """A store that is served, with the last value of each key whose commit was told."""

    def __init__(self, folder, words=()):
        subprocess.run([traced.PROGRAM, "make", folder, "m"], check=True)
        self.folder, self.told, self.number = folder, {}, 0
        # A write past the limit is an error then, and no signal.
        self.process = subprocess.Popen(
            [*words, traced.PROGRAM, "serve", folder, *OPTIONS], stdin=subprocess.PIPE, stdout=subprocess.PIPE, text=True, restore_signals=False
        )
        if not self.process.stdout.readline().startswith("ready"):
            fail("the store was not opened")

    def asks(self, line):
        self.process.stdin.write(line + "\n")
        self.process.stdin.flush()
        return self.process.stdout.readline().split()

    def puts(self, key=None):
        """Puts the next number under a key, or the next one, and tells whether it was committed."""
        self.number += 1
        key = key or KEYS[self.number % len(KEYS)]
        words = self.asks(f"put {key} {self.number}")
        if words[1] == "committed":
            self.told[key] = self.number
        return words[1] == "committed"

    def puts_until(self, committed, seconds, why, key=None):
        """Puts on until one is committed, or one is not, and tells how long that took."""
        start = time.time()
        while self.puts(key) != committed:
            if time.time() - start > seconds:
                fail(why)
            time.sleep(0.002)
        return time.time() - start

    def check(self):
        """All that was told is there. A put that was not told may be there as well."""
        for key, number in self.told.items():
            words = self.asks(f"get {key}")
            if not words[1].startswith("=") or int(words[1][1:]) < number:
                fail(f"{key} has {words}, and {number} was told")

    def closes(self):
        self.process.stdin.close()
        self.process.stdout.read()
        self.process.wait()
        no_lines = os.path.join(os.path.dirname(self.folder), "no.lines")
        open(no_lines, "w").close()
        found = traced.verdict(self.folder, 2, no_lines)
        if found != "yes":
            fail(f"the logs are judged {found!r}")


def goes_on(served, what):
    """Each shard commits again, and what was told is there."""
    took = sum(served.puts_until(True, 15, f"after {what} {key} is not committed", key) for key in KEYS)
    served.check()
    served.closes()
    print(f"healed: after {what} commits went on within {took:.1f} seconds, and all that was told is there")


def at_a_limit(room):
    served = Served(os.path.join(room, "limited"))
    for _ in range(40):
        served.puts_until(True, 5, "a put at the beginning is not committed")
    size = max(os.path.getsize(path) for path in traced.logs_of(served.folder, 2))
    limit = resource.prlimit(served.process.pid, resource.RLIMIT_FSIZE, (size + 100, resource.RLIM_INFINITY))
    served.puts_until(False, 30, "no put was refused at the limit")
    resource.prlimit(served.process.pid, resource.RLIMIT_FSIZE, limit)
    goes_on(served, "a limit")


def after_a_sync(room, number):
    strace = ["strace", "-f", "-qq", "-o", "/dev/null", "-e", f"inject=fsync:error=EIO:when={number}"]
    served = Served(os.path.join(room, f"sync{number}"), strace)
    served.puts_until(False, 60, f"no put was refused for sync {number}")
    goes_on(served, f"sync {number} that failed")


def main():
    if not os.access(traced.PROGRAM, os.X_OK):
        print("healed: it wants the program built (./run --build)", file=sys.stderr)
        sys.exit(2)
    with tempfile.TemporaryDirectory() as room:
        at_a_limit(room)
        if shutil.which("strace"):
            for number in (40, 41, 42, 43):
                after_a_sync(room, number)
        else:
            print("healed: failing syncs are left out, since there is no strace")


main()
