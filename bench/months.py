#!/usr/bin/env python3
"""Serves a store for as many transactions as months of a service make, and tells what grows: months.py [OPTION..] PROGRAM prints a table.

PROGRAM is the built program, which serves a new store of two shards. Its 64 clients put values under the same keys over and over; each tenth
transaction writes to both shards. At each tenth of the way the served process is halted for a moment, and its folder is copied, as a power
cut would leave it. A row tells the memory of the process, the bytes of its files, and how long another process takes to open the copy, with
its memory then: the soonest of three openings. It also tells how long no client was answered at most: a shard that stands still keeps all of
them, since each waits for it soon. With `--again` the store is closed and opened again at each tenth, too. Under the table stands whether
the last of these are within 1.5 of the second tenth.

With `--kills` the process is killed so often on the way, while transactions are under way, and started again. Each value tells its transaction. So
after each kill, and at the end, every key has to have the last value whose commit was told, or one of which nothing was told. At the end `inspect`
has to say that the logs are right.

  --commits N        how many transactions (1000000)
  --keys N           how many keys (10000)
  --bytes N          how long a value is (100)
  --keep MICROS      how long views of the past are answered (1000000)
  --renew BYTES      how much a log grows before it is renewed (4000000)
  --again            the store is opened again at each tenth
  --kills N          how often it is killed and started again (0)
  --program WORDS    further options of the program, as one word
"""
import collections
import contextlib
import getopt
import os
import random
import shutil
import signal
import subprocess
import sys
import tempfile
import threading
import time

import drive

CLIENTS = 64
# So many transactions of a client wait at a time. A line waits no longer than the store's patience if there are no more than 64.
AHEAD = 8
HEAD = ["Commits", "Commits a second", "Aborted", "Memory, MB", "Files, MB", "Opening, s", "Memory then, MB", "Longest without an answer, ms"]
GROWS = {3: "memory", 4: "files", 5: "opening"}


def memory_of(process):
    """The resident memory of a process, in megabytes."""
    with open(f"/proc/{process.pid}/status") as status:
        return next(int(line.split()[1]) for line in status if line.startswith("VmRSS")) / 1000


def bytes_in(folder):
    return sum(os.path.getsize(os.path.join(folder, name)) for name in os.listdir(folder)) / 1e6


class Served:
    """A store that is served, with the transactions of a client that were asked and not answered."""

    def __init__(self, told, folder):
        options = ["--keep", told["--keep"], "--renew", told["--renew"], "--patience", "2000", *told["--program"].split()]
        start = time.perf_counter()
        self.process = subprocess.Popen([told["program"], "serve", folder, *options], stdin=subprocess.PIPE, stdout=subprocess.PIPE)
        if not self.process.stdout.readline().startswith(b"ready"):
            sys.exit("The store was not opened.")
        self.opening = time.perf_counter() - start

    def close(self):
        self.process.stdin.write(b"quit\n")
        self.process.stdin.flush()
        self.process.stdout.read()
        if self.process.wait() != 0:
            sys.exit(f"The store ended with status {self.process.returncode}.")


class Told:
    """What clients were told of the values of keys."""

    def __init__(self):
        self.lock = threading.Lock()
        self.number = 0
        # Of each key the last value whose commit was told, with its timestamp, and the values of which nothing was told.
        self.known, self.open = {}, {}
        self.wrong = 0

    def asks(self, keys):
        """The number of the next transaction, which puts it under these keys."""
        with self.lock:
            self.number += 1
            for key in keys:
                self.open.setdefault(key, set()).add(self.number)
            return self.number

    def hears(self, keys, number, at):
        """A transaction was committed at this time, or aborted."""
        with self.lock:
            for key in keys:
                self.open[key].discard(number)
                if at is not None:
                    self.known[key] = max(self.known.get(key, (0, 0)), (at, number))

    def check(self, key, number):
        """A key has the value of this transaction."""
        right = number == self.known.get(key, (0, 0))[1] or number in self.open.get(key, ())
        self.wrong += not right
        self.known[key] = (self.known.get(key, (0, 0))[0], number)
        self.open.pop(key, None)


class Month:
    """Some transactions over a served store, which is killed after so many of them, or not."""

    def __init__(self, told, served, heard, count, killed_after=None):
        self.served, self.left, self.keys, self.heard, self.killed_after = served, count, int(told["--keys"]), heard, killed_after
        self.bytes = int(told["--bytes"])
        self.free = threading.Semaphore(CLIENTS * AHEAD)
        self.committed, self.aborted, self.other = 0, 0, 0
        # The longest time, in seconds, in which no answer came.
        self.silent = 0.0
        # Of each client the keys and the number of each transaction that was not answered yet.
        self.asked = [collections.deque() for _ in range(CLIENTS)]

    def asks(self, client):
        """The lines of a transaction, of which the last is answered by how it ended."""
        key = b"%06d" % random.randrange(self.keys)
        keys = [b"a" + key, b"z" + key] if random.randrange(10) == 0 else [b"az"[key[-1] % 2:][:1] + key]
        number = self.heard.asks(keys)
        self.asked[client].append((keys, number))
        value = (b"%d" % number).ljust(self.bytes, b".")
        if len(keys) == 1:
            return b"%d put %s %s\n" % (client, keys[0], value)
        puts = b"".join(b"%d put %s %s\n" % (client, key, value) for key in keys)
        return b"%d begin\n%s%d commit\n" % (client, puts, client)

    def ask(self):
        out = self.served.process.stdin
        with contextlib.suppress(BrokenPipeError):
            for number in range(self.left):
                self.free.acquire()
                out.write(self.asks(number % CLIENTS))
                if number % AHEAD == 0:
                    out.flush()
            out.flush()

    def hear(self):
        heard = time.perf_counter()
        while self.committed + self.aborted + self.other < self.left:
            if self.committed + self.aborted + self.other == self.killed_after:
                self.served.process.kill()
            line = self.served.process.stdout.readline()
            if not line.endswith(b"\n"):
                if self.killed_after is None:
                    sys.exit("The store ended.")
                # Whoever asks is not to wait for an answer.
                self.left = 0
                self.free.release(CLIENTS * AHEAD)
                return
            now = time.perf_counter()
            self.silent, heard = max(self.silent, now - heard), now
            client, word, *more = line.split(maxsplit=3)
            if word in (b"begun", b"ok"):
                continue
            keys, number = self.asked[int(client)].popleft()
            if word == b"committed":
                self.committed += 1
                self.heard.hears(keys, number, int(more[0]))
            elif word == b"aborted":
                self.aborted += 1
                self.heard.hears(keys, number, None)
            else:
                self.other += 1
            self.free.release()

    def run(self):
        start = time.perf_counter()
        asking = threading.Thread(target=self.ask, daemon=True)
        asking.start()
        self.hear()
        asking.join()
        return time.perf_counter() - start


def check_all(served, heard):
    """Reads each key, and compares what it has with what was told."""
    keys = sorted(set(heard.known) | set(heard.open))
    out, answers = served.process.stdin, served.process.stdout
    for at in range(0, len(keys), AHEAD):
        part = keys[at:at + AHEAD]
        out.write(b"".join(b"0 get %s\n" % key for key in part))
        out.flush()
        for key in part:
            found = answers.readline().split()[1]
            heard.check(key, int(found[1:].rstrip(b".")) if found.startswith(b"=") else 0)


def opened_copy(told, served, folder, room):
    """How long the folder takes to be opened as it stands, and the memory of that process."""
    copy = os.path.join(room, "copy")
    served.process.send_signal(signal.SIGSTOP)
    try:
        shutil.copytree(folder, copy)
    finally:
        served.process.send_signal(signal.SIGCONT)
    found = []
    for _ in range(3):
        other = Served(told, copy)
        found.append((other.opening, memory_of(other.process)))
        other.close()
    shutil.rmtree(copy)
    return min(found)


def tenth_of(told, served, heard, folder, count, kills):
    """So many transactions, with some kills in their midst. Gives the process that serves the store then, and what was told."""
    committed, other, took, silent = 0, 0, 0.0, 0.0
    for part in range(kills + 1):
        share = count // (kills + 1)
        month = Month(told, served, heard, share, random.randrange(share // 2, share) if part < kills else None)
        took += month.run()
        committed, other, silent = committed + month.committed, other + month.aborted + month.other, max(silent, month.silent)
        if part < kills:
            served.process.wait()
            with contextlib.suppress(BrokenPipeError):
                served.process.stdin.close()
            served = Served(told, folder)
            check_all(served, heard)
    return served, committed, other, took, silent


def rows(told, room, heard):
    folder, tenth, total = os.path.join(room, "logs"), int(told["--commits"]) // 10, 0
    subprocess.run([told["program"], "make", folder, "m"], check=True)
    served, found = Served(told, folder), []
    for number in range(10):
        kills = int(told["--kills"]) * (number + 1) // 10 - int(told["--kills"]) * number // 10
        served, committed, other, took, silent = tenth_of(told, served, heard, folder, tenth, kills)
        total += committed
        memory, files = memory_of(served.process), bytes_in(folder)
        opening, then = opened_copy(told, served, folder, room)
        found.append([total, round(committed / took), other, round(memory, 1), round(files, 1), round(opening, 2), round(then, 1), round(1000 * silent)])
        drive.print_row(found[-1])
        if "--again" in told:
            served.close()
            served = Served(told, folder)
    check_all(served, heard)
    served.close()
    logs = [os.path.join(folder, f"shard-{shard}.log") for shard in range(2)]
    looked = subprocess.run([told["program"], "inspect", os.devnull, *logs], stdout=subprocess.PIPE, text=True, check=False)
    return found, looked.stdout.strip()


def main(words):
    given, programs = getopt.getopt(words, "", ["commits=", "keys=", "bytes=", "keep=", "renew=", "again", "kills=", "program="])
    told = {"--commits": "1000000", "--keys": "10000", "--bytes": "100", "--keep": "1000000", "--renew": "4000000"}
    told = {**told, "--kills": "0", "--program": "", **dict(given)}
    if len(programs) != 1:
        sys.exit(__doc__)
    told["program"] = os.path.abspath(programs[0])
    with tempfile.TemporaryDirectory() as room:
        drive.print_row(HEAD)
        drive.print_row("---" for _ in HEAD)
        heard = Told()
        found, verdict = rows(told, room, heard)
    print(f"\nThe load was {os.getloadavg()[0]:.1f} on {os.cpu_count()} processors.")
    print(f"- {told['--kills']} kills; {len(heard.known)} keys, of which {heard.wrong} had a wrong value; `inspect` says {verdict}")
    for column, name in GROWS.items():
        second, last = found[1][column], found[-1][column]
        print(f"- {name}, the last tenth against the second: {last / max(second, .01):.2f}, {'yes' if last <= 1.5 * second else 'NO'}")


if __name__ == "__main__":
    main(sys.argv[1:])
