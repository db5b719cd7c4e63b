#!/usr/bin/env python3
"""Renews the logs of a store, and cuts that off. First the program is killed before each call that names, writes or syncs a file. Then a renewal is
recorded, and what power cuts may leave at each moment of it is rebuilt (`Machine` of power_cuts.py). In each store that is left there have to be all
keys with their values, the verdict has to be yes, and some are renewed once more. It says how many were right. It wants the program built and strace;
without strace it says so and ends well. IMAGES (200) bounds the power cuts, SEED (1) draws them."""
import os
import random
import shutil
import subprocess
import sys
import tempfile

import traced
from power_cuts import Inode, Machine

IMAGES = int(os.environ.get("IMAGES", "200"))
SHARDS = 3
KEYS = [f"{letter}{number}" for letter in "ahq" for number in range(5)]
CALLS = ["openat", "fsync", "pwrite64", "rename", "unlink"]


def fail(why):
    print(f"renew_cuts: {why}", file=sys.stderr)
    sys.exit(1)


def program(*words, **how):
    return subprocess.run([traced.PROGRAM, *words], capture_output=True, text=True, **how)


def pairs_in(folder):
    return program("export", folder).stdout


def renewal(folder):
    return [traced.PROGRAM, "renew", folder, "--keep", "0"]


def make(folder):
    """Makes a store, writes each key some times, and tells what it has then."""
    program("make", folder, "g", "p", check=True)
    for number in range(4):
        lines = "".join(f"{key} {number}-{key}\n" for key in KEYS)
        program("import", folder, input=lines, check=True)
    return pairs_in(folder)


class Checks:
    """What the store had, and how many that were left have it."""

    def __init__(self, room, wanted):
        self.room, self.wanted, self.right, self.again = room, wanted, 0, 0
        self.no_lines = os.path.join(room, "no.lines")
        open(self.no_lines, "w").close()

    def check(self, folder, moment):
        found = traced.verdict(folder, SHARDS, self.no_lines)
        if found != "yes":
            fail(f"{moment} the logs are judged {found!r}; there are {sorted(os.listdir(folder))}")
        if random.random() < 0.2:
            self.again += 1
            ran = program(*renewal(folder)[1:])
            if ran.returncode or len(ran.stdout.splitlines()) != SHARDS or any(name.endswith(".copy") for name in os.listdir(folder)):
                fail(f"{moment} the store is not renewed again: {ran.stdout!r}, {ran.stderr!r}")
        if pairs_in(folder) != self.wanted:
            fail(f"{moment} the store has other pairs")
        self.right += 1

    def kill_at_each(self, call, store):
        for place in range(1, 1000):
            folder = os.path.join(self.room, "killed")
            shutil.copytree(store, folder)
            ran = traced.run(traced.by_strace(renewal(folder), inject=f"{call}:signal=KILL:when={place}"))
            self.check(folder, f"after a kill at {call} {place}")
            shutil.rmtree(folder)
            if ran.returncode == 0:
                return
        fail(f"there is no end of {call}")

    def cut_power(self, store):
        folder = os.path.join(os.path.realpath(self.room), "cut")
        shutil.copytree(store, folder)
        machine = Machine(folder)
        for name in os.listdir(folder):
            machine.names[name] = Inode()
            with open(os.path.join(folder, name), "rb") as file:
                machine.names[name].synced = file.read()
        machine.synced = dict(machine.names)
        trace = os.path.join(self.room, "trace")
        if traced.run(traced.by_strace(renewal(folder), trace=trace)).returncode:
            fail("a renewal that is recorded did not go well")
        moments = list(traced.events(trace))
        for call, begins in moments:
            machine.take(call, begins)
            for _ in range(IMAGES // len(moments) + (random.random() < IMAGES / len(moments) % 1)):
                image = os.path.join(self.room, "image")
                os.mkdir(image)
                machine.write_image(image)
                self.check(image, f"after a power cut at {call.name}")
                shutil.rmtree(image)


def main():
    traced.need_tools("renew_cuts")
    random.seed(int(os.environ.get("SEED", "1")))
    with tempfile.TemporaryDirectory() as room:
        store = os.path.join(room, "logs")
        checks = Checks(room, make(store))
        if len(checks.wanted.splitlines()) != len(KEYS):
            fail(f"the store was not made: {checks.wanted!r}")
        for call in CALLS:
            checks.kill_at_each(call, store)
        kills = checks.right
        checks.cut_power(store)
        print(f"renew_cuts: {kills} kills and {checks.right - kills} power cuts left all pairs, {checks.again} were renewed again")


main()
