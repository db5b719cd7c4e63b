#!/usr/bin/env python3
"""How long the slowest transaction of a store takes while its shards renew their logs, and while none does, in turn:
bench/pauses.py [REVISION..] [--shards N] [--keys N] [--clients N] [--transactions N] [--rounds N]

The logs are files in /dev/shm, so a sync takes next to nothing. Each client runs transactions that read and write two of 50,000 keys a shard.
A renewing shard keeps a second of the past, renews once its log has grown by 4 MiB and to more than twice its length, and retires ids once
there are 10,000. A line tells how many turnovers there were, and what the program `serving` tells: times in microseconds. A load beside it
shows."""
import argparse
import pathlib
import subprocess
import tempfile

import load

# The first slot of a file, how many there are, how long each is, and the byte of an open one.
FIRST, SLOTS, LONG, OPEN = 8, 1024, 9, 0xA5

GIVE_UP, KEEP, RENEW, RETIRE = 30_000, 1_000_000, 4 << 20, 10_000


def turnovers(folder):
    """How many areas were begun after the first, in all files of a folder."""
    count = 0
    for file in pathlib.Path(folder).glob("shard-*.log"):
        slots = file.read_bytes()[FIRST : FIRST + SLOTS * LONG]
        count += slots[::LONG].count(OPEN)
    return count


def row(program, asked, renews):
    """What the program tells of a store, and how often its logs were turned over."""
    with tempfile.TemporaryDirectory(dir="/dev/shm") as folder:
        words = ["files", asked.shards, asked.clients, asked.transactions, asked.keys * asked.shards, 100, folder]
        words += [GIVE_UP, KEEP, RENEW, RETIRE] if renews else []
        told = subprocess.run([program, *map(str, words)], stdout=subprocess.PIPE, text=True, timeout=600, check=True)
        return f"{turnovers(folder)} turnovers, {told.stdout.split(': ', 1)[-1].strip()}"


def main():
    words = argparse.ArgumentParser()
    words.add_argument("revisions", nargs="*")
    words.add_argument("--shards", type=int, default=1)
    words.add_argument("--keys", type=int, default=50_000)
    words.add_argument("--clients", type=int, default=16)
    words.add_argument("--transactions", type=int, default=200_000)
    words.add_argument("--rounds", type=int, default=3)
    asked = words.parse_args()
    made = pathlib.Path(tempfile.mkdtemp(prefix="pauses."))
    programs = {name or "here": load.build(made, name) for name in [*asked.revisions, None]}
    for turn in range(asked.rounds):
        for name, program in programs.items():
            for renews in [False, True]:
                what = "renews" if renews else "grows"
                print(f"round {turn}, {name}, {what}: {row(program, asked, renews)}", flush=True)


if __name__ == "__main__":
    main()
