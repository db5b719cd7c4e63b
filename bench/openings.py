#!/usr/bin/env python3
"""Prints a schedule of 100 events a round, the last of which opens the shard again: openings.py ROUNDS [BYTES]. Each round has 16 commits
of one write, of a value of so many bytes (8), an advance, a look at the view of the round's number, and a crash."""
import sys


def commit(number, time, size):
    """The events of one commit, which takes 20 microseconds."""
    txn, first = f"1.{number}", 2 * (number - 1)
    value = f"v{number}".ljust(size, "x")
    yield f"{time} begin {txn}"
    yield f"{time} write {txn} k{number % 1000} {value}"
    yield f"{time} close {txn}"
    yield f"{time} deliver {first} {time - 2} {time + 2}"
    yield f"{time + 10} settle 0 {txn} {time + 8} {time + 12}"
    yield f"{time + 10} deliver {first + 1} {time + 10} {time + 10}"


def ending(number, time):
    """The events that end a round."""
    yield f"{time} advance 0 {time - 5} {time - 2} {time + 2}"
    yield f"{time} view 0 {number} k1 {time // 2}"
    yield f"{time} crash 0"
    yield f"{time} open 0"


def main(rounds, size="8"):
    """All rounds."""
    print("shards 1\nstride 0")
    time = 100
    for number in range(int(rounds)):
        for one in range(16):
            print("\n".join(commit(16 * number + one + 1, time + 20 * one + 10, int(size))))
        time += 330
        print("\n".join(ending(number, time)))


main(*sys.argv[1:])
