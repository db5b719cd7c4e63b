#!/usr/bin/env python3
"""Draws a schedule of as many events as it is told, over four shards: draw.py 10000 >FILE, for `shards play FILE`.

Transactions of one to three shards come one after another, some with a read, each with all its messages delivered; between them
shards advance and are looked at. Which number a message has is told from how many each step puts out where all goes well.
"""
import random
import sys

SPLITS = ["f", "m", "t"]
LETTERS = ["abcde", "fghijkl", "mnopqrs", "tuvwxyz"]


class Schedule:
    def __init__(self, count):
        self.count, self.events, self.time, self.messages = count, [], 100, 0

    def event(self, text):
        self.events.append(f"{self.time} {text}")
        self.time += random.randint(1, 3)

    def put_out(self, count):
        """The number of the first of some messages that the last event put out."""
        self.messages += count
        return self.messages - count

    def reading(self):
        return f"{self.time - 5} {self.time + 5}"

    def deliver(self, message):
        self.event(f"deliver {message} {self.reading()}")

    def read(self, txn, key):
        self.event(f"read {txn} {key}")
        self.deliver(self.put_out(1))
        self.deliver(self.put_out(1))

    def commit(self, txn, parts):
        self.event(f"close {txn}")
        first = self.put_out(len(parts))
        votes = []
        for part in range(1, len(parts)):
            self.deliver(first + part)
            votes.append(self.put_out(1))
        for message in [first, *votes]:
            self.deliver(message)
        self.time += 20
        self.event(f"settle {parts[0]} {txn} {self.reading()}")
        ends = self.put_out(len(parts))
        for part in range(len(parts)):
            self.deliver(ends + part)


def key(shard):
    return random.choice(LETTERS[shard]) + str(random.randint(0, 300))


def drawn(count):
    schedule = Schedule(count)
    number = 0
    while len(schedule.events) < count:
        number += 1
        txn = f"1.{number}"
        parts = sorted(random.sample(range(4), random.choice([1, 1, 2, 3])))
        schedule.event(f"begin {txn}")
        if random.random() < 0.5:
            schedule.read(txn, key(random.choice(parts)))
        for part in parts:
            schedule.event(f"write {txn} {key(part)} v{number}")
        schedule.commit(txn, parts)
        if random.random() < 0.3:
            shard = random.randrange(4)
            schedule.event(f"advance {shard} {schedule.time} {schedule.reading()}")
            schedule.event(f"look {shard} {key(shard)} {schedule.time - 1}")
    return schedule.events[:count]


random.seed(7)
head = ["shards 4", *(f"split {split}" for split in SPLITS), "stride 1000"]
print("\n".join(head + drawn(int(sys.argv[1]))))
