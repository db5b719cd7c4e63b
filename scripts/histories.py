#!/usr/bin/env python3
"""Tries a store of many threads from outside. Clients of `serve` write down what they do and are told, over several lives of the program.
Then the history is judged by rules that know nothing of the store (`judging.py`): what is read and shown is the serial run by timestamp, what began
after an end has the larger timestamp, what is unknown stands whole or nowhere, and without any timestamp there is an order that fits.

    scripts/histories.py [COUNT [FIRST]]     COUNT histories (50 unless told), drawn by their numbers from FIRST (0) on

Of four histories one runs undisturbed, one is killed by `kill -9`, one is stopped and goes on (SIGSTOP), and one has slow syncs, as far as `cc` is there.
Into each history faults of seventeen kinds are planted afterwards, and each has to be found. SHARDS_PROGRAM names the program, or it was built here."""

import collections
import os
import pathlib
import random
import signal
import subprocess
import sys
import tempfile
import threading
import time

import judging

ROOT = pathlib.Path(__file__).resolve().parent.parent
sys.path.insert(0, str(ROOT / "clients/python"))
from spanner_shards import Aborted, Closed, Refused, Store, Unknown  # noqa: E402

PROGRAM = os.environ.get("SHARDS_PROGRAM") or str(ROOT / "crates/shards/out/shards")
SECONDS = 1.2  # of each life


class Plan:
    """What is drawn by a history's number: how many shards, clients, keys and lives, and what disturbs it."""

    def __init__(self, number, slow_sync):
        draw = random.Random(number)
        self.number, self.draw = number, draw
        self.splits = [b"m", b"f", b"t"][: draw.choice([0, 1, 1, 2, 3])]
        self.clients = draw.choice([2, 4, 8, 16])
        letters = b"acfghmprtuz"
        count = draw.choice([3, 8, 40])
        self.keys = [bytes([letters[i % len(letters)]]) + b"%d" % (i // len(letters)) for i in range(count)]
        self.kind = ["calm", "kills", "pauses", "slow"][number % 4]
        if self.kind == "slow" and slow_sync is None:
            self.kind = "calm"
        self.lives = draw.choice([2, 3, 4]) if self.kind == "kills" else 2
        self.options = ["--renew", str(draw.choice([20_000, 100_000]))] if draw.random() < 0.5 else []
        self.environment = {"LD_PRELOAD": slow_sync, "SLOW_SYNC": str(draw.choice([500, 5_000]))} if self.kind == "slow" else {}

    def __str__(self):
        words = f"{self.kind}, {len(self.splits) + 1} shards, {self.clients} clients, {len(self.keys)} keys, {self.lives} lives"
        return words + (f", renewed each {self.options[1]} bytes" if self.options else "")


class Teller:
    """One client of one life. It writes down each attempt before it closes, each end and each view."""

    def __init__(self, plan, life, number, history, lock):
        self.plan, self.life, self.number, self.history, self.lock = plan, life, number, history, lock
        self.draw = random.Random(f"{plan.number} {life} {number}")
        self.count = 0

    def value(self):
        """A value that is written once, at times a long one: its tag is what stands before the bar."""
        self.count += 1
        tag = b"%d.%d.%d" % (self.life, self.number, self.count)
        return tag, tag + b"|" + b"-" * self.draw.choice([0, 0, 0, 20, 300, 4_000])

    def some_keys(self):
        return self.draw.sample(self.plan.keys, min(len(self.plan.keys), self.draw.choice([1, 1, 2, 3, 5])))

    def body(self, attempt):
        """Reads keys, all at once or one by one, and writes some of them, or others that it has not read."""
        keys, blind = self.some_keys(), self.draw.random() < 0.2
        reads = [] if blind else keys
        writes = {key: None if self.draw.random() < 0.1 else self.value() for key in keys if blind or self.draw.random() < 0.7}
        together = self.draw.random() < 0.5

        def run(tx):
            attempt.id = tx.id
            values = tx.get_all(*reads) if together and reads else [tx.get(key) for key in reads]
            attempt.reads = {key: tag_of(value) for key, value in zip(reads, values)}
            for key, value in writes.items():
                tx.put(key, value[1]) if value else tx.erase(key)
            attempt.writes = {key: value and value[0] for key, value in writes.items()}
        return run

    def attempt(self, store):
        attempt = judging.Attempt(self.number, self.life, time.monotonic())
        with self.lock:
            self.history.attempts.append(attempt)
        try:
            done = store.transact(self.body(attempt), tries=1)
            attempt.at, attempt.end = done.at, "committed"
        except (Aborted, Refused):
            attempt.end = "aborted"
        except Unknown:
            return
        except Closed:
            attempt.end = "aborted"
            raise
        finally:
            if attempt.end != "unknown":
                attempt.ended = time.monotonic()

    def view(self, store):
        keys = self.plan.keys if self.draw.random() < 0.3 else self.some_keys()
        began = time.monotonic()
        with store.view() as view:
            values = view.get_all(*keys[:16])
            seen = judging.View(self.number, self.life, began, view.at, {key: tag_of(value) for key, value in zip(keys, values)}, time.monotonic())
        with self.lock:
            self.history.views.append(seen)

    def work(self, store, until):
        try:
            while time.monotonic() < until:
                try:
                    (self.view if self.draw.random() < 0.3 else self.attempt)(store)
                except (Refused, Unknown):
                    pass
        except Closed:
            pass


def tag_of(value):
    return value if value is None else value.partition(b"|")[0]


def disturb(plan, store):
    """Kills the program at some moment of its life, or stops it for a while now and then."""
    if plan.kind == "kills":
        time.sleep(plan.draw.uniform(0.05, SECONDS))
        store.process.kill()
    elif plan.kind == "pauses":
        until = time.monotonic() + SECONDS
        while time.monotonic() < until:
            time.sleep(plan.draw.uniform(0.01, 0.3))
            store.process.send_signal(signal.SIGSTOP)
            time.sleep(plan.draw.choice([0.01, 0.05, 0.2]))
            store.process.send_signal(signal.SIGCONT)


def live(plan, life, folder, history):
    """One life of the program: its clients work side by side until it ends. The last one ends by itself."""
    store = Store(folder, plan.clients, plan.options, PROGRAM)
    until, lock = time.monotonic() + SECONDS, threading.Lock()
    threads = [threading.Thread(target=Teller(plan, life, number, history, lock).work, args=(store, until)) for number in range(plan.clients)]
    for thread in threads:
        thread.start()
    if life + 1 < plan.lives or plan.kind == "pauses":
        disturb(plan, store)
    for thread in threads:
        thread.join()
    store.close()


def versions_of(folder, key):
    """The versions of a key in the closed store, by the command `history`."""
    said = subprocess.run([PROGRAM, "history", folder, key], capture_output=True, check=True).stdout
    found = []
    for line in said.splitlines():
        at, _, rest = line.partition(b" ")
        if at.isdigit():
            txn, _, value = rest.partition(b" ")
            found.append((int(at), None if txn == b"-" else txn.decode(), tag_of(value[1:]) if value.startswith(b"=") else None))
    return found


def told(plan, folder):
    """The history of a plan, over a new store in the folder."""
    history = judging.History([], [], {}, [])
    Store.make(folder, *sorted(plan.splits), program=PROGRAM)
    for life in range(plan.lives):
        os.environ.update(plan.environment)
        live(plan, life, folder, history)
        for name in plan.environment:
            del os.environ[name]
        ids = [attempt.id for attempt in history.attempts if attempt.life == life and attempt.id]
        history.runs.append(int(ids[0].partition(".")[0]) if ids else (history.runs or [0])[-1] + 1)
    history.versions = {key: versions_of(folder, key) for key in plan.keys}
    return history


def inspected(plan, folder):
    logs = [f"{folder}/shard-{number}.log" for number in range(len(plan.splits) + 1)]
    return subprocess.run([PROGRAM, "inspect", "/dev/null", *logs], capture_output=True).stdout == b"yes\n"


def built_slow_sync(room):
    library = f"{room}/slow_sync.so"
    try:
        subprocess.run(["cc", "-shared", "-fPIC", "-O2", "-o", library, str(ROOT / "bench/slow_sync.c")], check=True)
    except (OSError, subprocess.CalledProcessError):
        print("histories: without slow syncs, since there is no cc")
        return None
    return library


def main(count=50, first=0):
    counts, planted = collections.Counter(), 0
    with tempfile.TemporaryDirectory() as room:
        slow_sync = built_slow_sync(room)
        for number in range(first, first + count):
            plan, folder = Plan(number, slow_sync), f"{room}/{number}"
            os.mkdir(folder)
            history = told(plan, folder)
            found = judging.breaches(history) + ([] if inspected(plan, folder) else [("inspect", "the verdict is not yes")])
            for rule, words in found:
                print(f"histories: {number} ({plan}) breaks {rule}: {words}", file=sys.stderr)
            many, missed = judging.planted(history, random.Random(number))
            for name in missed:
                print(f"histories: {number} ({plan}): {name} was planted and not found", file=sys.stderr)
            if found or missed:
                sys.exit(1)
            counts.update(attempt.end for attempt in history.attempts)
            counts["views"] += len(history.views)
            planted += many
    ends = ", ".join(f"{counts[end]} {end}" for end in ("committed", "aborted", "unknown", "views"))
    print(f"histories: {count} judged, {ends}; {planted} planted faults found")


if __name__ == "__main__":
    main(*map(int, sys.argv[1:]))
