"""What the program that serves shows on a terminal. The model has no prompt, so the built program alone is tried."""

import datetime
import os
import pty
import re
import select
import subprocess
import tty
import unittest

from served import Folder, program

TIME = re.compile(r"\d \w+ (\d+)[^\n]*\n([^\n]*)\n")
# What is typed, and what is shown behind it. ID1 is the id of a transaction, the same wherever it stands, and AT a timestamp with its date.
TYPED = [
    ("get a", "0 none\nstore> "),
    ("begin", "0 begun ID1\nID1> "),
    ("get a", "0 none\nID1> "),
    ("put a 1", "0 ok\nID1> "),
    ("nothing", "0 fault: 7 BadRequest(command)\nID1> "),
    ("view", "0 fault: 7 BadRequest(state)\nID1> "),
    ("1 get a", "1 none\nstore> "),
    ("commit", "0 committed AT ID1\nDATE\nstore> "),
    ("view", "0 at AT\nDATE\nview> "),
    ("get a", "0 =1\nview> "),
    ("abort", "0 fault: 7 BadRequest(state)\nview> "),
    ("end", "0 ended\nstore> "),
    ("1 begin", "1 begun ID2\nID2> "),
    ("1 abort", "1 aborted\nstore> "),
    ("begin", "0 begun ID3\nID3> "),
    ("commit", "0 ended: fault: 7 BadRequest(nothing)\nstore> "),
    ("put a 2", "0 committed AT ID4\nDATE\nstore> "),
]


def date(micros):
    return (datetime.datetime(1970, 1, 1) + datetime.timedelta(microseconds=micros)).strftime("%Y-%m-%d %H:%M:%S.%f")


@unittest.skipUnless(program(), "the program is not built")
class Terminal(Folder):
    words = program()

    def setUp(self):
        super().setUp()
        self.make()
        self.terminal, theirs = pty.openpty()
        self.addCleanup(os.close, self.terminal)
        tty.setraw(theirs)  # so that it shows what the program writes, and nothing else
        self.process = subprocess.Popen([*self.words, "serve", self.logs, "--clients", "2"], stdin=theirs, stdout=theirs)
        self.addCleanup(self.process.wait)
        self.addCleanup(self.process.kill)
        os.close(theirs)

    def shown(self, end):
        """What is shown up to a text that ends with this pattern."""
        text = ""
        while not re.search(end + r"\Z", text):
            self.assertTrue(select.select([self.terminal], [], [], 20)[0], f"{text!r} does not end with {end}")
            text += os.read(self.terminal, 65536).decode()
        return text

    def typed(self, line, end="> "):
        os.write(self.terminal, line.encode() + b"\n")
        return self.shown(end)

    def test_prompts_and_dates(self):
        self.assertRegex(self.shown("> "), r"\Aready [0-9]+\nstore> \Z")
        ids = {}
        for line, wanted in TYPED:
            told = self.typed(line)
            with self.subTest(line, told=told):
                begun = re.match(r"\d (?:begun|committed \d+) (\d+\.\d+)", told)
                for name in re.findall("ID[0-9]", wanted)[:1]:
                    ids.setdefault(name, begun and begun.group(1))
                for name, id in ids.items():
                    wanted = wanted.replace(name, str(id))
                if "AT" in wanted:
                    at, of_day = TIME.match(told).groups()
                    self.assertEqual(of_day, date(int(at)))
                    wanted = wanted.replace("DATE", of_day).replace("AT", at)
                self.assertEqual(told, wanted)
        self.assertEqual(len(set(ids.values())), 4)
        self.assertEqual(self.typed("quit", "closed\n"), "0 closed\n")
        self.assertEqual(self.process.wait(20), 0)

    def test_help(self):
        """A page of at most thirty lines, which has each verb of the line above it."""
        self.shown("> ")
        first, *page, prompt = self.typed("help").split("\n")
        self.assertEqual(prompt, "store> ")
        self.assertLessEqual(len(page), 30)
        for verb in first.removeprefix("0 help: ").split(", "):
            self.assertTrue(any(re.match(re.escape(verb) + "( {2}|$)", line) for line in page), verb)


if __name__ == "__main__":
    unittest.main()
