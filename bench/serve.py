#!/usr/bin/env python3
"""Times a store that is served over lines, beside the same work by `store` itself: serve.py [OPTION..] PROGRAM [DIRECT] prints a table.

PROGRAM is the built program. DIRECT is the built program of `direct.rt.txt`; without it there is nothing to compare with. A line is one that
is refused at once. A read is one line, and by `store` a view and a get. A commit is a transaction of four lines (begin, get, put, commit) that
reads and writes a key of the client's own. Each row is tried by turns in a new folder: over lines by a pipe alone, with no client's code, one
line after the other, or begin with get and put with commit; by the client in Python, whose threads are in one process, by the client in Rust, which
`cargo` builds, and then by `store`. A row tells the median of its rounds. All are as patient as `--patience` says, and commits alone are counted.
After the table come the limits that serving has to keep.

  --seconds N        how long each try takes (2)
  --rounds N         how often each row is tried (3)
  --patience N       how many milliseconds of silence a transaction waits for (1000)
  --places A,B,..    of files, a folder under TMPDIR, and memory, a folder in /dev/shm
  --program WORDS    further options of the program, as one word
"""
import getopt
import os
import re
import shutil
import statistics
import subprocess
import sys
import tempfile
import threading
import time

import drive

TOP = os.path.dirname(os.path.dirname(os.path.abspath(__file__)))
sys.path.insert(0, os.path.join(TOP, "clients", "python"))
import spanner_shards  # noqa: E402

HEAD = ["Folder", "Work", "Clients", "By", "A second", "Half within, us", "Aborted", "Unknown"]
TOLD = re.compile(r"(\d+) a second, half within (\d+) us, aborted (\d+), unknown (\d+)")
PLACES = {"files": None, "memory": "/dev/shm"}
# What is tried: the work, the numbers of clients, and by what.
WORK = [
    ("lines", [1], ["lines", "Python"]),
    ("reads", [1], ["lines", "Python", "Rust", "store"]),
    ("reads", [16], ["Python", "Rust", "store"]),
    ("commits", [1], ["lines", "two writes", "Python", "Rust", "store"]),
    ("commits", [16], ["Python", "Rust", "store"]),
    ("commits", [64], ["Rust", "store"]),
]
# The lines of a turn: those of one list go in one write, and all their answers are read before the next.
TURNS = {
    "lines": [[b"nothing"]],
    "reads": [[b"get a00"]],
    "commits": [[b"begin"], [b"get a00"], [b"put a00 %08d"], [b"commit"]],
    "commits in two writes": [[b"begin", b"get a00"], [b"put a00 %08d", b"commit"]],
}


def key_of(number):
    """Half of the keys are before `m`, where the store is parted."""
    return (b"a" if number % 2 == 0 else b"z") + b"%02d" % number


def done_once(store, work, key, turn):
    """One turn of some work."""
    if work == "reads":
        store.get(key)
    elif work == "commits":
        store.transact(lambda tx: (tx.get(key), tx.put(key, turn.to_bytes(8, "big"))))
    else:
        try:
            store._ask(b"nothing")
        except spanner_shards.Refused:
            pass


class Worker(threading.Thread):
    """A client in Python, for some seconds."""

    def __init__(self, store, work, number, seconds):
        super().__init__()
        self.store, self.work, self.key, self.seconds = store, work, key_of(number), seconds
        self.times, self.aborted, self.unknown = [], 0, 0

    def run(self):
        until, turn, start = time.perf_counter() + self.seconds, 0, time.perf_counter()
        while start < until:
            turn += 1
            try:
                done_once(self.store, self.work, self.key, turn)
                self.times.append(time.perf_counter() - start)
            except spanner_shards.Aborted:
                self.aborted += 1
            except spanner_shards.Unknown:
                self.unknown += 1
            start = time.perf_counter()


def by_python(told, folder, work, clients):
    """How many were answered a second, the half time in microseconds, and how many were aborted and unknown."""
    spanner_shards.Store.make(folder, b"m", program=told["program"])
    options = ["--patience", told["--patience"], *told["--program"].split()]
    with spanner_shards.Store(folder, clients=clients, options=options, program=told["program"]) as store:
        workers = [Worker(store, work, number, float(told["--seconds"])) for number in range(clients)]
        start = time.perf_counter()
        for worker in workers:
            worker.start()
        for worker in workers:
            worker.join()
        took = time.perf_counter() - start
    times = [each for worker in workers for each in worker.times]
    aborted, unknown = sum(worker.aborted for worker in workers), sum(worker.unknown for worker in workers)
    return len(times) / took, statistics.median(times or [0]) * 1e6, aborted, unknown


def by_lines(told, folder, work, clients):
    """One client that writes lines and reads answers by itself."""
    spanner_shards.Store.make(folder, b"m", program=told["program"])
    words = [told["program"], "serve", folder, "--clients", "1", "--patience", told["--patience"], *told["--program"].split()]
    process = subprocess.Popen(words, stdin=subprocess.PIPE, stdout=subprocess.PIPE, bufsize=0)
    answers, times = os.fdopen(os.dup(process.stdout.fileno()), "rb"), []
    answers.readline()
    turn, start = 0, time.perf_counter()
    until, begun = start + float(told["--seconds"]), start
    while start < until:
        turn += 1
        for lines in TURNS[work]:
            process.stdin.write(b"".join(b"0 " + (line % turn if b"%" in line else line) + b"\n" for line in lines))
            for _ in lines:
                told_last = answers.readline()
        if work in ("lines", "reads") or told_last.startswith(b"0 committed"):
            times.append(time.perf_counter() - start)
        start = time.perf_counter()
    process.stdin.close()
    process.wait()
    return len(times) / (start - begun), statistics.median(times or [0]) * 1e6, turn - len(times), 0


def by_two_writes(told, folder, work, clients):
    return by_lines(told, folder, work + " in two writes", clients)


def printed(command, **how):
    """The figures that a program prints."""
    found = TOLD.search(subprocess.run(command, check=True, stdout=subprocess.PIPE, text=True, **how).stdout)
    return tuple(map(int, found.groups()))


def by_rust(told, folder, work, clients):
    spanner_shards.Store.make(folder, b"m", program=told["program"])
    options = ["--patience", told["--patience"], *told["--program"].split()]
    environment = {**os.environ, "SHARDS_PROGRAM": told["program"]}
    return printed([told["rate"], folder, str(clients), told["--seconds"], work, *options], env=environment)


def by_store(told, folder, work, clients):
    os.mkdir(folder)
    millis = str(round(float(told["--seconds"]) * 1000))
    return printed([told["direct"], folder, str(clients), millis, told["--patience"], work])


def rate_program(room):
    """The program over the client in Rust, if there is `cargo`."""
    if not shutil.which("cargo"):
        return None
    target = os.path.join(room, "target")
    command = ["cargo", "build", "--quiet", "--release", "--offline", "--example", "rate", "--target-dir", target]
    subprocess.run(command, check=True, cwd=os.path.join(TOP, "clients", "rust"))
    return os.path.join(target, "release", "examples", "rate")


def rows(told, place, room):
    """The figures of each row, by its work, clients and what it is done by."""
    by = {"lines": by_lines, "two writes": by_two_writes, "Python": by_python}
    by.update({"Rust": told["rate"] and by_rust, "store": told["direct"] and by_store})
    found = {}
    for work, numbers, names in WORK:
        for clients in numbers:
            tries = {name: [] for name in names if by[name]}
            for number in range(int(told["--rounds"])):
                for name, figures in tries.items():
                    with tempfile.TemporaryDirectory(dir=PLACES[place] or room) as within:
                        figures.append(by[name](told, os.path.join(within, "logs"), work, clients))
            for name, figures in tries.items():
                found[work, clients, name] = [round(statistics.median(each)) for each in zip(*figures)]
                drive.print_row([place, work, clients, name, *found[work, clients, name]])
    return found


def limits(found):
    """What each limit says, and what was found. `None` if it was not tried."""
    def less(work, limit, by):
        over, alone = found.get((work, 1, by)), found.get((work, 1, "store"))
        return over and alone and (over[1] - alone[1] <= limit, f"{over[1] - alone[1]} us above")

    reads, over, alone = found.get(("reads", 16, "Python")), found.get(("commits", 64, "Rust")), found.get(("commits", 64, "store"))
    return {
        "1 client: the round trip of a line that reads at most 80 us above": less("reads", 80, "lines"),
        "1 client: a transaction of four lines at most 250 us above": less("commits", 250, "two writes"),
        "the same, one line after the other": less("commits", 250, "lines"),
        "the same by the client in Python: a read": less("reads", 80, "Python"),
        "the same by the client in Rust: a transaction": less("commits", 250, "Rust"),
        "the same by the client in Python: a transaction": less("commits", 250, "Python"),
        "16 threads of one Python process: at least 5,000 reads a second": reads and (reads[0] >= 5000, f"{reads[0]} a second"),
        "64 clients in Rust: at least .7 of the commits of 64 of `store`":
            over and alone and (over[0] >= .7 * alone[0], f"{over[0] / max(alone[0], 1):.2f} of {alone[0]} a second"),
    }


def main(words):
    given, programs = getopt.getopt(words, "", ["seconds=", "rounds=", "patience=", "places=", "program="])
    told = {"--seconds": "2", "--rounds": "3", "--patience": "1000", "--places": "files,memory", "--program": "", **dict(given)}
    if not 1 <= len(programs) <= 2:
        sys.exit(__doc__)
    told["program"], told["direct"] = map(os.path.abspath, programs) if len(programs) == 2 else (os.path.abspath(programs[0]), None)
    with tempfile.TemporaryDirectory() as room:
        told["rate"] = rate_program(room)
        for name, found in (("cargo, so no client in Rust", told["rate"]), ("program of direct.rt.txt, so nothing to compare with", told["direct"])):
            if not found:
                print(f"There is no {name}.\n")
        drive.print_row(HEAD)
        drive.print_row("---" for _ in HEAD)
        found = {place: rows(told, place, room) for place in told["--places"].split(",")}
        print(f"\nThe load was {os.getloadavg()[0]:.1f} on {os.cpu_count()} processors.")
        for place, figures in found.items():
            for limit, told_of in limits(figures).items():
                said = "not tried" if not told_of else f"{'yes' if told_of[0] else 'NO'}, {told_of[1]}"
                print(f"- {place}, {limit}: {said}")
        print(f"\nTwo writes of 100 bytes, each with a sync, in the folder of the files: {drive.device(room)} us, the median of 500.")


if __name__ == "__main__":
    main(sys.argv[1:])
