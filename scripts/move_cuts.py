#!/usr/bin/env python3
"""Serves a store whose logs go on in new files again and again, and cuts that off. The calls of the served program are recorded, and what power cuts may
leave at each moment is rebuilt (`Machine` of power_cuts.py). In each store that is left every key has to have the last value whose commit was told by
then, or a later one, and the verdict has to be yes. Then the program is killed before each call that renames a file, and the same is asked of what it
leaves. It says how many were right, and how often a log went on in a new file. It wants the program built and strace; without strace it says so and ends
well. PUTS (400) are how many values are put, IMAGES (200) bounds the power cuts, SEED (1) draws them."""
import os
import random
import shutil
import subprocess
import sys
import tempfile
import time

import traced
from power_cuts import Inode, Machine

PUTS = int(os.environ.get("PUTS", "400"))
IMAGES = int(os.environ.get("IMAGES", "200"))
SHARDS = 2
KEYS = ["a", "b", "c", "x", "y", "z"]
OPTIONS = ["--renew", "1000", "--shrink", "0", "--keep", "0", "--epsilon", "0", "--clients", "1"]


def fail(why):
    print(f"move_cuts: {why}", file=sys.stderr)
    sys.exit(1)


def program(*words, **how):
    return subprocess.run([traced.PROGRAM, *words], capture_output=True, text=True, **how)


def key_of(number):
    return KEYS[number % len(KEYS)]


def make(folder):
    """Makes a store in which each key has the value 0."""
    program("make", folder, "m", check=True)
    program("import", folder, input="".join(f"{key} 0\n" for key in KEYS), check=True)


def put_all(words):
    """Puts rising numbers under the keys, one after the other, and tells how many commits were told."""
    process = subprocess.Popen(words, stdin=subprocess.PIPE, stdout=subprocess.PIPE, text=True)
    told = 0
    try:
        ready = process.stdout.readline()
        for number in range(1, PUTS + 1) if ready else []:
            process.stdin.write(f"put {key_of(number)} {number}\n")
            process.stdin.flush()
            if " committed " not in process.stdout.readline():
                break
            told = number
            time.sleep(0.004)
        process.stdin.close()
    except BrokenPipeError:
        pass
    process.stdout.read()
    process.wait()
    return told


def last_told(key, told):
    """The last number that was put under a key, of the first ones."""
    return max((number for number in range(1, told + 1) if key_of(number) == key), default=0)


class Checks:
    """How many stores that were left were right."""

    def __init__(self, room):
        self.room, self.right = room, 0
        self.no_lines = os.path.join(room, "no.lines")
        open(self.no_lines, "w").close()

    def check(self, folder, told, moment):
        found = traced.verdict(folder, SHARDS, self.no_lines)
        if found != "yes":
            fail(f"{moment} the logs are judged {found!r}; there are {sorted(os.listdir(folder))}")
        ran = program("export", folder)
        pairs = dict(line.split() for line in ran.stdout.splitlines())
        for key in KEYS:
            has = int(pairs.get(key, "-1"))
            if not last_told(key, told) <= has <= told + 1:
                fail(f"{moment} {key} has {has}, and {last_told(key, told)} was told: {ran.stderr!r}")
        self.right += 1

    def cut_power(self, store):
        folder = os.path.join(os.path.realpath(self.room), "cut")
        shutil.copytree(store, folder)
        machine = Machine(folder)
        for name in os.listdir(folder):
            machine.names[name] = Inode()
            with open(os.path.join(folder, name), "rb") as file:
                machine.names[name].synced = file.read()
        machine.synced = dict(machine.names)
        trace = os.path.join(self.room, "trace")
        strace = ["strace", "-f", "-qq", "-xx", "-s", "1100000", "-e", f"trace={traced.CALLS},write", "-o", trace]
        if put_all([*strace, traced.PROGRAM, "serve", folder, *OPTIONS]) != PUTS:
            fail("a store that is recorded was not served to its end")
        moments, told, moves = list(traced.events(trace)), 0, 0
        for call, begins in moments:
            machine.take(call, begins)
            told += begins and call.name == "write" and call.number(0) == 1 and b" committed " in call.text(0)
            is_move = call.name == "rename"
            moves += is_move and begins
            # A move is a few of many calls.
            if random.random() < IMAGES / len(moments) * (20 if is_move or call.name == "fsync" and machine.done else 1):
                image = os.path.join(self.room, "image")
                os.mkdir(image)
                machine.write_image(image)
                self.check(image, told, f"after a power cut at {call.name}")
                shutil.rmtree(image)
        return moves

    def kill_at_each_rename(self, store):
        for place in range(1, 5):
            folder = os.path.join(self.room, "killed")
            shutil.copytree(store, folder)
            words = traced.by_strace([traced.PROGRAM, "serve", folder, *OPTIONS], inject=f"rename:signal=KILL:when={place}")
            self.check(folder, put_all(words), f"after a kill at rename {place}")
            shutil.rmtree(folder)


def main():
    traced.need_tools("move_cuts")
    random.seed(int(os.environ.get("SEED", "1")))
    with tempfile.TemporaryDirectory() as room:
        store = os.path.join(room, "logs")
        make(store)
        checks = Checks(room)
        moves = checks.cut_power(store)
        cuts = checks.right
        checks.kill_at_each_rename(store)
        if moves == 0:
            fail("no log went on in a new file")
        print(f"move_cuts: {moves} moves; {cuts} power cuts and {checks.right - cuts} kills left all that was told")


main()
