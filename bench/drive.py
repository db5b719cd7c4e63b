#!/usr/bin/env python3
"""Times drives of built programs: drive.py [OPTION..] PROGRAM.. prints a table.

Each worker runs 1,000 transactions over as many keys, for each number of shards and workers, with disks in memory, with files in a new
folder under TMPDIR, and with files in memory whose syncs take 5 milliseconds longer each (slow_sync.c, by the compiler `cc`). Several
programs take turns, row by row. What a drive says last on standard error, which it writes to a terminal alone, is read through a pseudo
terminal: its last line, and the commits' line of its table. Behind the table is what the device of that folder takes by itself.

  --turns N          transactions of each worker (1000); on the slow device a fifth of them
  --stride N         how far ahead a ceiling is logged, in microseconds (100000)
  --places A,B,..    of memory, files, slow
  --shards A,B,..    of 1, 2, 4
  --workers A,B,..   of 1, 4, 16, 64
"""
import getopt
import os
import pty
import re
import statistics
import subprocess
import sys
import tempfile
import time

MOST_KEYS = 1_000
EPSILON = 100
SLOW_SYNC = 5_000
LAST_LINE = re.compile(r"(\d+) of \d+ done, (\d+) commits a second")
COMMITS = re.compile(r"commits +\d+ +([\d-]+) +[\d-]+ +([\d-]+) +[\d-]+")
HEAD = [
    "Disks", "Shards", "Workers", "Program", "Committed", "Aborted", "Unknown", "Over several, %", "Commits a second", "Half within, us",
    "99 of 100 within, us", "Turns a second", "Looks answered, %", "Verdict",
]


def keys_of(turns):
    """From how many keys a drive takes its keys: no more than a worker has turns, so that each worker goes over all shards."""
    return min(turns, MOST_KEYS)


def settings(shards, workers, turns, stride, folder):
    """The settings of a drive. Without a folder disks are in memory."""
    keys = keys_of(turns)
    splits = ", ".join(f'"k{number * keys // shards:04}"' for number in range(1, shards))
    lines = [
        f"shards = {shards}",
        f"splits = [{splits}]",
        f"stride = {stride}",
        f"epsilon = {EPSILON}",
        f"workers = {workers}",
        f"transactions = {turns}",
        f"keys = {keys}",
    ]
    if folder:
        lines.append(f'dir = "{folder}"')
    return "\n".join(lines) + "\n"


def shard_of(key, keys, shards):
    """The shard of a key by the settings' splits."""
    return sum(key >= number * keys // shards for number in range(1, shards))


def over_several(shards, workers, turns):
    """How many of a hundred transactions read and write keys of more than one shard."""
    keys, both = keys_of(turns), 0
    for worker in range(workers):
        for turn in range(turns):
            first, second = (worker + turn) % keys, (7 * worker + 3 * turn) % keys
            both += shard_of(first, keys, shards) != shard_of(second, keys, shards)
    return round(100 * both / (workers * turns))


def read_all(terminal):
    """What is written to a pseudo terminal until nobody has it open."""
    parts = []
    while True:
        try:
            part = os.read(terminal, 65_536)
        except OSError:
            part = b""
        if not part:
            return b"".join(parts).decode(errors="replace")
        parts.append(part)


def run(program, file, environment):
    """What a drive writes to standard output and to its terminal, and how many seconds it takes."""
    ours, theirs = pty.openpty()
    start = time.monotonic()
    command = [program, "drive", file]
    with subprocess.Popen(command, stdout=subprocess.PIPE, stderr=theirs, text=True, env={**os.environ, **environment}) as process:
        os.close(theirs)
        shown = read_all(ours)
        printed = process.stdout.read()
    os.close(ours)
    return printed, shown, time.monotonic() - start


def row(program, name, place, shards, workers, turns, stride, folder, environment):
    """A drive's row of the table."""
    with tempfile.NamedTemporaryFile("w", suffix=".toml") as file:
        file.write(settings(shards, workers, turns, stride, folder))
        file.flush()
        printed, shown, seconds = run(program, file.name, environment)
    told = dict(line.split(" ", 1) for line in printed.splitlines())
    fault = re.search(r"fault: .*", shown)
    found = list(LAST_LINE.finditer(shown))
    rate = found[-1].group(2) if found else "-"
    commits = COMMITS.search(shown)
    half, most = commits.groups() if commits else ("-", "-")
    verdict = told.get("verdict", fault.group().strip() if fault else "-")
    counts = [told.get(word, "-") for word in ["committed", "aborted", "unknown"]]
    looks = round(100 * int(told["looks"]) / (workers * turns)) if "looks" in told else "-"
    several = over_several(shards, workers, turns)
    return [place, shards, workers, name, *counts, several, rate, half, most, round(workers * turns / seconds), looks, verdict]


def slow_library(folder):
    """The library that makes syncs slow, or none where there is no compiler."""
    library = os.path.join(folder, "slow_sync.so")
    source = os.path.join(os.path.dirname(os.path.abspath(__file__)), "slow_sync.c")
    try:
        subprocess.run(["cc", "-shared", "-fPIC", "-O2", "-o", library, source], check=True)
    except (OSError, subprocess.CalledProcessError):
        return None
    return library


def device(folder):
    """The median of how many microseconds two writes of 100 bytes take, each with a sync behind it, which is what a record takes."""
    times = []
    file = os.open(os.path.join(folder, "device"), os.O_RDWR | os.O_CREAT)
    for _ in range(500):
        start = time.monotonic()
        for _ in range(2):
            os.write(file, bytes(100))
            os.fsync(file)
        times.append(time.monotonic() - start)
    os.close(file)
    return round(statistics.median(times) * 1_000_000)


def ideal(record):
    """What a commit takes at least, in microseconds, with nothing else under way, by what a record takes: over one shard, and over two.

    The wait for its timestamp runs from the moment at which the deciding shard has the commit. It hides that shard's record, and the promise
    of another shard before that. Behind it comes the record of the outcome.
    """
    wait = 2 * EPSILON + 1
    return max(wait, record) + record, max(wait, 2 * record) + record


def print_ideal(record):
    one, two = ideal(record)
    print(f"\nTwo writes of 100 bytes, each with a sync, in the same folder: {record} us, the median of 500. So a commit takes at least")
    print(f"{one} us over one shard with its log there, {two} us over two, and {ideal(0)[0]} us in memory.")


def print_row(cells):
    print("| " + " | ".join(str(cell) for cell in cells) + " |", flush=True)


def options(words):
    """The options, with what they are where they are not given, and the programs."""
    given, programs = getopt.getopt(words, "", ["turns=", "stride=", "places=", "shards=", "workers="])
    told = {"--turns": "1000", "--stride": "100000", "--places": "memory,files,slow", "--shards": "1,2,4", "--workers": "1,4,16,64"}
    told.update(given)
    return told, [os.path.abspath(program) for program in programs]


def main(words):
    told, programs = options(words)
    if not programs:
        sys.exit(__doc__)
    print_row(HEAD)
    print_row("---" for _ in HEAD)
    with tempfile.TemporaryDirectory() as top, tempfile.TemporaryDirectory(dir="/dev/shm") as memory:
        for place in told["--places"].split(","):
            environment, within, turns = {}, top, int(told["--turns"])
            if place == "slow":
                library = slow_library(top)
                if not library:
                    print("No slow device: there is no compiler `cc`.")
                    continue
                environment, within, turns = {"SLOW_SYNC": str(SLOW_SYNC), "LD_PRELOAD": library}, memory, max(turns // 5, 1)
            for shards in map(int, told["--shards"].split(",")):
                for workers in map(int, told["--workers"].split(",")):
                    for number, program in enumerate(programs):
                        folder = None if place == "memory" else tempfile.mkdtemp(dir=within)
                        stride = int(told["--stride"])
                        print_row(row(program, number, place, shards, workers, turns, stride, folder, environment))
        print_ideal(device(top))


if __name__ == "__main__":
    main(sys.argv[1:])
