#!/usr/bin/env python3
"""A model of the program's words `make` and `serve`, to test clients without it: a dictionary, and a line of a log for each commit.

    fake_serve.py make FOLDER [SPLIT..]
    fake_serve.py serve FOLDER [--clients N] [--idle MILLIS] [--told FILE] [OPTION VALUE..]

Transactions lock nothing: one that read what another has changed since is aborted at its end. With `--told` each line of the file is
`VERB ANSWER`: the first line of that verb that is asked gets the first such answer, and so on. Such an answer has its effect on what is
open, `committed` alone commits, and three are none: `die` ends the program as a kill does, `cut TEXT` does so after TEXT without its line
feed, and `late SECONDS` answers as ever, but later."""

import collections
import fcntl
import os
import re
import sys
import threading
import time

ESCAPE = re.compile(rb"\\x([0-9a-fA-F]{2})")
COMMAND = b"fault: 7 BadRequest(command)"
STATE = b"fault: 7 BadRequest(state)"


class Bad(Exception):
    """A refusal, by its line."""


def spelled(data):
    return b"".join(b"%c" % byte if 33 <= byte <= 126 and byte != 92 else b"\\x%02x" % byte for byte in data)


def unspelled(word):
    if b"\\" in ESCAPE.sub(b"", word):
        raise Bad(COMMAND)
    return ESCAPE.sub(lambda found: bytes([int(found.group(1), 16)]), word)


def key_of(word):
    key = unspelled(word)
    if not 1 <= len(key) <= 64:
        raise Bad(b"fault: 7 BadRequest(key)")
    return key


def number_of(word):
    if not re.fullmatch(rb"0|[1-9][0-9]*", word):
        raise Bad(COMMAND)
    return int(word)


def stamp_of(word):
    if number_of(word) >= 1 << 62:
        raise Bad(b"fault: 7 BadRequest(stamp)")
    return number_of(word)


def value_of(word):
    value = unspelled(word)
    if len(value) > 4096:
        raise Bad(b"fault: 7 BadRequest(value)")
    return value


class Log:
    """What is committed: for each key the timestamps and values, in order. Each commit is one line of a file, written by one call."""

    def __init__(self, folder):
        self.file = open(os.path.join(folder, "fake.log"), "r+b", buffering=0)
        until = time.monotonic() + 1
        while True:
            try:
                fcntl.flock(self.file, fcntl.LOCK_EX | fcntl.LOCK_NB)
                break
            except OSError:
                if time.monotonic() > until:
                    raise
                time.sleep(0.01)
        self.versions, self.last, self.count = collections.defaultdict(list), 0, 0
        with open(os.path.join(folder, "fake.splits"), "rb") as splits:
            self.splits = list(map(unspelled, splits.read().split()))
        whole = self.file.read()
        whole = whole[:whole.rfind(b"\n") + 1]
        for line in whole.splitlines():
            at, _, *writes = line.split(b" ")
            self.take(int(at), [(unspelled(key), unspelled(value[1:]) if value else None) for key, value in
                                (write.split(b"?", 1) for write in writes)])
        self.run = len(whole.splitlines()) + 1
        self.file.seek(len(whole))

    def take(self, at, writes):
        self.last = max(self.last, at)
        for key, value in writes:
            self.versions[key].append((at, value))

    def now(self):
        self.last = max(self.last + 1, time.time_ns() // 1000)
        return self.last

    def new_id(self):
        self.count += 1
        return b"%d.%d" % (self.run, self.count)

    def commit(self, id, writes):
        at = self.now()
        words = [spelled(key).replace(b"?", b"\\x3f") + b"?" + (b"=" + spelled(value) if value is not None else b"") for key, value in writes]
        self.file.write(b" ".join([b"%d" % at, id, *words]) + b"\n")
        self.take(at, writes)
        return at

    def value(self, key, at):
        return next((value for stamp, value in reversed(self.versions[key]) if stamp <= at), None)

    def changed(self, key, since):
        return any(stamp > since for stamp, _ in self.versions[key][-1:])


class Transaction:
    def __init__(self, log):
        self.log, self.id, self.since, self.reads, self.writes = log, log.new_id(), log.now(), set(), {}

    def value(self, key):
        if key in self.writes:
            return self.writes[key]
        self.reads.add(key)
        return self.log.value(key, self.since)

    def commit(self):
        if not self.reads and not self.writes:
            return b"ended: fault: 7 BadRequest(nothing)"
        if any(self.log.changed(key, self.since) for key in self.reads):
            return b"aborted"
        return b"committed %d %s" % (self.log.commit(self.id, list(self.writes.items())), self.id)


class View:
    def __init__(self, log, at=None):
        self.log, self.at = log, log.now() if at is None else at

    def value(self, key):
        if self.at > self.log.now():
            raise Bad(b"fault: 9 NotYet")
        return self.log.value(key, self.at)

    def keys(self, first, end, limit):
        """A page: as many keys as the limit says that were ever written, of one shard, and where the next begins."""
        self.value(first)
        split = min([split for split in self.log.splits if split > first and (not end or split < end)], default=None)
        written = sorted(key for key in self.log.versions if key >= first and (not end or key < end) and (split is None or key < split))
        return [key for key in written[:limit] if self.value(key) is not None], min(written[limit:], default=split)


class Client:
    """One client's conversation."""

    def __init__(self, log, idle):
        self.log, self.idle, self.open, self.heard, self.doubts = log, idle, None, time.monotonic(), set()
        self.lock, self.held, self.late = threading.Lock(), [], None

    def tell(self, line, wait):
        """Writes a line, or holds it back: for so many seconds, and as long as one before it."""
        with self.lock:
            if wait and not self.late:
                self.late = threading.Timer(wait, self.release)
                self.late.start()
            if self.late:
                self.held.append(line)
            else:
                tell(line)

    def release(self):
        with self.lock:
            tell(b"".join(self.held))
            self.held, self.late = [], None

    def answer(self, words):
        last, self.heard = self.heard, time.monotonic()
        if isinstance(self.open, Transaction) and self.heard - last > self.idle:
            self.open = None
            return b"aborted"
        verb, *rest = words
        if verb not in (b"begin", b"get", b"put", b"erase", b"commit", b"abort", b"view", b"keys", b"end", b"outcome", b"stats"):
            raise Bad(COMMAND)
        return getattr(self, verb.decode())(*rest)

    def is_in(self, kind):
        return isinstance(self.open, kind)

    def begin(self):
        if self.open:
            raise Bad(STATE)
        self.open = Transaction(self.log)
        return b"begun " + self.open.id

    def get(self, *words):
        if not words:
            raise Bad(COMMAND)
        if len(words) > 128:
            raise Bad(b"fault: 7 BadRequest(many)")
        read = (self.open or View(self.log)).value
        values = [read(key) for key in list(map(key_of, words))]
        return b" ".join(b"none" if value is None else b"=" + spelled(value) for value in values)

    def put(self, key, value):
        return self.write(key_of(key), value_of(value))

    def erase(self, key):
        return self.write(key_of(key), None)

    def write(self, key, value):
        if self.is_in(View):
            raise Bad(STATE)
        if self.is_in(Transaction):
            self.open.writes[key] = value
            return b"ok"
        own = Transaction(self.log)
        own.writes[key] = value
        return own.commit()

    def commit(self):
        if not self.is_in(Transaction):
            raise Bad(STATE)
        ended, self.open = self.open.commit(), None
        return ended

    def abort(self):
        if self.is_in(View):
            raise Bad(STATE)
        self.open = None
        return b"aborted"

    def view(self, *words):
        at = [stamp_of(word) for word in words]
        if len(at) > 1:
            raise Bad(COMMAND)
        if self.open:
            raise Bad(STATE)
        self.open = View(self.log, *at)
        return b"at %d" % self.open.at

    def keys(self, first, end, limit):
        first, end, limit = key_of(first), end and key_of(end), number_of(limit)
        if not 1 <= limit <= 1000:
            raise Bad(b"fault: 7 BadRequest(many)")
        if not self.is_in(View):
            raise Bad(STATE)
        keys, after = self.open.keys(first, end, limit)
        return b" ".join([b"page", b"none" if after is None else b"=" + spelled(after), *(b"=" + spelled(key) for key in keys)])

    def end(self):
        if self.is_in(Transaction):
            raise Bad(STATE)
        self.open = None
        return b"ended"

    def outcome(self, id):
        """What was `unknown` stands nowhere. Of each other id a client knows nothing."""
        if not re.fullmatch(rb"[0-9]+[.][0-9]+", id):
            raise Bad(COMMAND)
        if self.open:
            raise Bad(STATE)
        return b"outcome aborted" if id in self.doubts else b"outcome unknown"

    def stats(self):
        if self.open:
            raise Bad(STATE)
        return b"=" + spelled(b'# TYPE spanner_shards_commits counter\nspanner_shards_commits{shard="0"} %d\n' % self.log.count)


def option(words, name, otherwise):
    return words[words.index(name) + 1] if name in words else otherwise


def tell(text):
    os.write(1, text)


def told_in(path):
    """The answers that are told before others, by their verbs."""
    told = collections.defaultdict(collections.deque)
    with open(path, "rb") if path else open(os.devnull, "rb") as lines:
        for line in lines:
            verb, _, answer = line.rstrip(b"\n").partition(b" ")
            told[verb].append(answer)
    return told


def told_answer(client, answer):
    """An answer that was told, once its effect is there."""
    first, _, rest = answer.partition(b" ")
    if first == b"unknown":
        client.doubts.add(rest)
    if first == b"committed" and client.is_in(Transaction):
        client.log.commit(client.open.id, list(client.open.writes.items()))
    if first in (b"committed", b"unknown", b"aborted", b"ended", b"ended:"):
        client.open = None
    return answer


def answered(clients, told, line):
    """Answers a line."""
    found = re.match(rb"([0-9]+) (.*)", line, re.DOTALL)
    number, rest = (int(found.group(1)), found.group(2)) if found else (0, line)
    words, wait = rest.split(b" "), 0
    try:
        if number >= len(clients) or len(line) > 65536:
            raise Bad(COMMAND)
        answer = told[words[0]].popleft() if told[words[0]] else None
        first, _, text = (answer or b"").partition(b" ")
        if first in (b"die", b"cut"):
            tell(b"%d " % number + text if first == b"cut" else b"")
            os.kill(os.getpid(), 9)
        if first == b"late":
            answer, wait = None, float(text)
        if answer is None:
            answer = clients[number].answer(words)
        else:
            answer = told_answer(clients[number], answer)
    except TypeError:
        answer = COMMAND
    except Bad as bad:
        answer = bad.args[0]
    clients[min(number, len(clients) - 1)].tell(b"%d %s\n" % (number, answer), wait)


def serve(folder, *options):
    try:
        log = Log(folder)
    except OSError:
        print("fault: 2 Device", file=sys.stderr)
        return 2
    told = told_in(option(options, "--told", None))
    idle = int(option(options, "--idle", "10000")) / 1000
    clients = [Client(log, idle) for _ in range(int(option(options, "--clients", "64")))]
    found = None
    tell(b"ready %d\n" % log.run)
    for line in sys.stdin.buffer:
        line = line[:-1] if line.endswith(b"\n") else line
        found = re.fullmatch(rb"([0-9]+ )?quit", line)
        if found:
            break
        answered(clients, told, line)
    for late in [client.late for client in clients if client.late]:
        late.join()
    if found:
        tell(b"%d closed\n" % int(found.group(1) or b"0"))
    return 0


def make(folder, *splits):
    try:
        os.makedirs(folder, exist_ok=True)
        with open(os.path.join(folder, "fake.splits"), "w", encoding="ascii") as file:
            file.write("\n".join(splits))
        open(os.path.join(folder, "fake.log"), "xb").close()
    except OSError:
        print("fault: 2 Device", file=sys.stderr)
        return 2
    return 0


if __name__ == "__main__":
    try:
        sys.exit({"make": make, "serve": serve}[sys.argv[1]](*sys.argv[2:]))
    except BrokenPipeError:  # its reader went away
        sys.exit(2)
