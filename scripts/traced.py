"""What the scripts share that look at the program from outside: settings, drives under strace, the calls of a trace, and the records of logs."""
import os
import re
import shutil
import subprocess
import sys
import time

ROOT = os.path.dirname(os.path.dirname(os.path.abspath(__file__)))
PROGRAM = os.environ.get("SHARDS_PROGRAM", os.path.join(ROOT, "crates/shards/out/shards"))
CALLS = "openat,flock,fsync,ftruncate,pwrite64,pread64,rename,unlink,statx,close,clone3"


def leave(script, why):
    """Ends a script that can't be run here, and is no failure."""
    print(f"{script}: left out, since {why}")
    sys.exit(0)


def need_tools(script):
    if not os.access(PROGRAM, os.X_OK):
        print(f"{script}: it wants the program built (./run --build)", file=sys.stderr)
        sys.exit(2)
    if not shutil.which("strace"):
        leave(script, "there is no strace")
    if subprocess.run(["strace", "-o", "/dev/null", "true"], capture_output=True).returncode:
        leave(script, "strace may not trace here")


def settings(path, folder, shards, workers, transactions, keys):
    """Writes settings whose keys are parted evenly."""
    splits = ", ".join(f'"k{keys * shard // shards:04}"' for shard in range(1, shards))
    with open(path, "w") as file:
        file.write(
            f"shards = {shards}\nsplits = [{splits}]\nstride = 100000\nepsilon = 100\nworkers = {workers}\n"
            f'transactions = {transactions}\nkeys = {keys}\ndir = "{folder}"\n'
        )


COUNTS = re.compile(r"committed (\d+)\naborted (\d+)\nunknown (\d+)\nlooks \d+\n")


class Answer:
    """What a drive printed, how it ended, and how many seconds it took."""

    def __init__(self, ran, seconds):
        self.status, self.out, self.err, self.seconds = ran.returncode, ran.stdout, ran.stderr, seconds
        found = COUNTS.match(self.out)
        self.counts = [int(count) for count in found.groups()] if found else []
        self.committed = self.counts[0] if found else 0
        self.is_yes = self.status == 0 and found is not None and self.out[found.end() :] == "verdict yes\n"
        self.is_refused = self.status == 2 and self.err.startswith("fault: ") and self.out == (found[0] if found else "")
        self.is_killed = self.status in (-9, 137) and self.out == ""

    def is_sound(self, transactions):
        """It ended as a drive may, and its counts are those of all transactions."""
        return (self.is_yes or self.is_refused or self.is_killed) and (not self.counts or sum(self.counts) == transactions)

    def __str__(self):
        return f"status {self.status} after {self.seconds:.1f} seconds, {self.out!r}, {self.err!r}"


def run(words, seconds=120):
    try:
        # A write past a limit is an error and no signal, as it is here.
        return subprocess.run(
            words, capture_output=True, text=True, stdin=subprocess.DEVNULL, timeout=seconds, restore_signals=False
        )
    except subprocess.TimeoutExpired:
        return subprocess.CompletedProcess(words, 124, "", f"no end within {seconds} seconds")


def by_strace(words, inject=None, trace=None, path=None):
    """The same words by strace, where calls are injected into what they run or recorded."""
    if not inject and not trace:
        return words
    strace = ["strace", "-f", "-qq", "-e", f"trace={CALLS}", "-o", trace or "/dev/null"]
    if trace:
        strace += ["-xx", "-s", "1100000"]
    if path:
        strace += ["-P", path]
    if inject:
        strace += ["-e", f"inject={inject}"]
    return strace + words


def drive(settings_file, inject=None, trace=None, path=None):
    """A drive, by strace where calls are injected into it or recorded."""
    return answer(by_strace([PROGRAM, "drive", settings_file], inject, trace, path))


def answer(words):
    """What a drive by these words came to."""
    began = time.time()
    ran = run(words)
    return Answer(ran, time.time() - began)


def logs_of(folder, shards):
    return [os.path.join(folder, f"shard-{shard}.log") for shard in range(shards)]


def verdict(folder, shards, no_lines):
    """The verdict on the logs alone."""
    ran = run([PROGRAM, "inspect", no_lines] + logs_of(folder, shards))
    return (ran.stdout + ran.stderr).strip()


FIRST_GATE = 9224


def area(image):
    """Where the log of a file begins: its slots, each a gate and an offset, are open from the first on, and the last open one names it."""
    begins = FIRST_GATE
    for slot in range(8, FIRST_GATE, 9):
        if image[slot : slot + 1] != b"\xa5":
            break
        begins = int.from_bytes(image[slot + 1 : slot + 9], "big")
    return begins


def records(image):
    """The bodies of the records of a log, by its file; none where it is no log."""
    found, at = [], area(image)
    if image[:8] != b"SPNLOG02":
        return found
    while at + 5 <= len(image) and image[at] == 0xA5:
        count = int.from_bytes(image[at + 1 : at + 5], "big")
        if at + 5 + count > len(image):
            break
        found.append(image[at + 5 : at + 5 + count])
        at += 5 + count
    return found


def records_in(path):
    try:
        with open(path, "rb") as file:
            return records(file.read())
    except OSError:
        return []


def commits(folder, shards):
    """How many commit decisions stand in the logs of a folder."""
    return sum(body[:1] == b"\x04" for path in logs_of(folder, shards) for body in records_in(path))


class Call:
    """A call of a trace: its thread, name, words, and result, which is None where it did not come back."""

    def __init__(self, thread, name, words):
        self.thread, self.name, self.words, self.result = thread, name, words, None

    def text(self, place):
        """The bytes of its text at a place, from the front."""
        spelled = re.findall(r'"((?:\\x[0-9a-f]{2})*)"', self.words)[place]
        return bytes.fromhex(spelled.replace("\\x", ""))

    def number(self, place):
        """Its number at a place, its texts taken out."""
        words = re.sub(r'"[^"]*"(\.\.\.)?', "text", self.words).split(", ")
        return int(words[place], 0)


START = re.compile(r"^(\d+) +(\w+)\((.*)$")
RESUMED = re.compile(r"^(\d+) +<\.\.\. (\w+) resumed>(.*)$")
RESULT = re.compile(r"\) += (-?\d+|\?)")


def result_of(rest):
    found = RESULT.findall(rest)
    return int(found[-1]) if found and found[-1] != "?" else None


def events(trace):
    """The calls of a trace, as pairs of a call and whether it begins or comes back."""
    open_calls = {}
    with open(trace, errors="replace") as lines:
        for line in lines:
            line = line.rstrip("\n")
            found = RESUMED.match(line)
            if found:
                call = open_calls.pop((found[1], found[2]), None)
                if call:
                    call.result = result_of(found[3])
                    if call.result is not None:
                        yield call, False
                continue
            found = START.match(line)
            if not found:
                continue
            rest = found[3]
            if rest.endswith("<unfinished ...>"):
                call = Call(found[1], found[2], rest[: -len(" <unfinished ...>")])
                open_calls[(found[1], found[2])] = call
                yield call, True
                continue
            call = Call(found[1], found[2], rest[: rest.rfind(") ")])
            yield call, True
            call.result = result_of(rest)
            if call.result is not None:
                yield call, False
