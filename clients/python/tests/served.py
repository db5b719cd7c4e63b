"""What tests start: the model in `fake_serve.py`, and the built program, where there is one."""

import os
import subprocess
import sys
import tempfile
import unittest

HERE = os.path.dirname(os.path.realpath(__file__))
sys.path.insert(0, os.path.dirname(HERE))

FAKE = [sys.executable, os.path.join(HERE, "fake_serve.py")]
BUILT = os.path.realpath(os.path.join(HERE, "../../../crates/shards/out/shards"))


def program():
    """The program that SHARDS_PROGRAM names, or the one that was built here, if there is one that serves."""
    named = os.environ.get("SHARDS_PROGRAM")
    if named:
        return [named]
    serves = os.access(BUILT, os.X_OK) and b"serve " in subprocess.run([BUILT, "--help"], stdout=subprocess.PIPE).stdout
    return [BUILT] if serves else None


class Folder(unittest.TestCase):
    """A test in a folder of its own, `self.logs` in it, over the words of a program."""

    words = FAKE

    def setUp(self):
        room = tempfile.TemporaryDirectory()
        self.addCleanup(room.cleanup)
        self.room, self.logs = room.name, os.path.join(room.name, "logs")

    def make(self):
        from spanner_shards import Store
        Store.make(self.logs, b"m", program=self.words)

    def open(self, clients=4, **given):
        """The store, which is closed behind the test."""
        from spanner_shards import Store
        store = Store(self.logs, clients=clients, program=self.words, **given)
        self.addCleanup(store.process.wait)
        self.addCleanup(store.close)
        return store

    def pipe(self, *options):
        """The store, talked to line by line by 4 clients. The program is killed behind the test, if it has not ended."""
        pipe = Pipe(self.words, self.logs, 4, *options)
        self.addCleanup(pipe.process.wait)
        self.addCleanup(pipe.process.stdout.close)
        self.addCleanup(pipe.process.kill)
        return pipe


class Pipe:
    """A program that serves, talked to line by line."""

    def __init__(self, words, folder, clients, *options):
        words = [*words, "serve", folder, "--clients", str(clients), *options]
        self.process = subprocess.Popen(words, stdin=subprocess.PIPE, stdout=subprocess.PIPE)
        self.ready = self.process.stdout.readline()

    def send(self, text):
        self.process.stdin.write(text)
        self.process.stdin.flush()

    def line(self):
        return self.process.stdout.readline()

    def ask(self, line):
        """The answer to a line, when no other waits for one."""
        self.send(line + b"\n")
        return self.line().rstrip(b"\n")

    def end(self):
        """What is left to read once no more is written, and the exit status."""
        self.process.stdin.close()
        rest = self.process.stdout.read()
        self.process.stdout.close()
        return rest, self.process.wait()
