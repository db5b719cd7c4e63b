"""Tests over a program that serves: each runs against the model, so that the model keeps to the rows, and against the built program."""

import os
import random
import re
import signal
import subprocess
import sys
import threading
import time
import unittest

from served import FAKE, HERE, Folder, program
from bank import ACCOUNTS, WHOLE, Bank
from spanner_shards import Closed, Refused, Store

# What is asked by lines, and what is answered. AT1 is a timestamp and ID1 the id of a transaction, the same wherever they stand in a row. R is
# the reason of a refusal.
CONVERSATIONS = {
    "a transaction": [
        ("begin", "0 begun ID1"),
        ("put a 1", "0 ok"),
        ("get a b", "0 =1 none"),
        ("erase a", "0 ok"),
        ("get a", "0 none"),
        ("put a 2", "0 ok"),
        ("commit", "0 committed AT1 ID1"),
        ("get a b", "0 =2 none"),
    ],
    "a transaction of nothing": [
        ("begin", "0 begun ID1"),
        ("commit", "0 ended: fault: 7 BadRequest(nothing)"),
        ("begin", "0 begun ID2"),
        ("get a", "0 none"),
        ("commit", "0 committed AT1 ID2"),
    ],
    "outside of a transaction": [
        ("get a z", "0 none none"),
        ("put a 1", "0 committed AT1 ID1"),
        ("1 put z 2", "1 committed AT2 ID2"),
        ("2 get z a", "2 =2 =1"),
        ("erase a", "0 committed AT3 ID3"),
        ("2 get z a", "2 =2 none"),
    ],
    "an abort": [
        ("3 begin", "3 begun ID1"),
        ("3 put a 1", "3 ok"),
        ("3 abort", "3 aborted"),
        ("3 get a", "3 none"),
    ],
    "a view stays where it is": [
        ("put a 1", "0 committed AT1 ID1"),
        ("view", "0 at AT2"),
        ("1 put a 2", "1 committed AT3 ID2"),
        ("get a", "0 =1"),
        ("get b a", "0 none =1"),
        ("end", "0 ended"),
        ("get a", "0 =2"),
    ],
    "a view of another time": [
        ("view 0", "0 at 0"),
        ("get a", "0 none"),
        ("end", "0 ended"),
        ("view 1 2", "0 fault: 7 BadRequest(command)"),
        ("view 01", "0 fault: 7 BadRequest(command)"),
        ("view -1", "0 fault: 7 BadRequest(command)"),
        ("view 4611686018427387904", "0 fault: 7 BadRequest(stamp)"),
        ("view 4611686018427387903", "0 at 4611686018427387903"),
        ("get a", "0 fault: 9 NotYet"),
        ("end", "0 ended"),
    ],
    "keys by pages": [
        ("put z 1", "0 committed AT1 ID1"),
        ("put b 1", "0 committed AT2 ID2"),
        ("put m 1", "0 committed AT3 ID3"),
        ("put a 1", "0 committed AT4 ID4"),
        ("put c\\x20 1", "0 committed AT5 ID5"),
        ("erase b", "0 committed AT6 ID6"),
        ("view", "0 at AT7"),
        ("1 put d 1", "1 committed AT8 ID7"),
        ("keys \\x00  1000", "0 page =m =a =c\\x20"),
        ("keys m  1000", "0 page none =m =z"),
        ("keys a  1", "0 page =b =a"),
        ("keys b  1", "0 page =c\\x20"),
        ("keys a c 9", "0 page none =a"),
        ("keys b z 9", "0 page =m =c\\x20"),
        ("keys m z 9", "0 page none =m"),
        ("keys zz  9", "0 page none"),
        ("end", "0 ended"),
        ("view 0", "0 at 0"),
        ("keys a  9", "0 page =m"),
    ],
    "keys out of place, and no page": [
        ("keys a  9", "0 fault: 7 BadRequest(state)"),
        ("begin", "0 begun ID1"),
        ("keys a  9", "0 fault: 7 BadRequest(state)"),
        ("abort", "0 aborted"),
        ("view", "0 at AT1"),
        ("keys a  0", "0 fault: 7 BadRequest(many)"),
        ("keys a  1001", "0 fault: 7 BadRequest(many)"),
        ("keys a  x", "0 fault: 7 BadRequest(R)"),
        ("keys a b", "0 fault: 7 BadRequest(R)"),
        ("keys   9", "0 fault: 7 BadRequest(key)"),
        ("keys a " + "k" * 65 + " 9", "0 fault: 7 BadRequest(key)"),
        ("end", "0 ended"),
        ("view 4611686018427387903", "0 at 4611686018427387903"),
        ("keys a  9", "0 fault: 9 NotYet"),
    ],
    "how ids ended that were not unknown": [
        ("outcome 1.1", "0 outcome unknown"),
        ("put a 1", "0 committed AT1 ID1"),
        ("outcome 1.1", "0 outcome unknown"),
        ("outcome", "0 fault: 7 BadRequest(R)"),
        ("outcome 1", "0 fault: 7 BadRequest(R)"),
        ("outcome 1.1 2", "0 fault: 7 BadRequest(R)"),
        ("begin", "0 begun ID2"),
        ("outcome 1.1", "0 fault: 7 BadRequest(state)"),
        ("stats", "0 fault: 7 BadRequest(state)"),
        ("abort", "0 aborted"),
        ("view", "0 at AT2"),
        ("outcome 1.1", "0 fault: 7 BadRequest(state)"),
        ("stats", "0 fault: 7 BadRequest(state)"),
        ("stats now", "0 fault: 7 BadRequest(R)"),
    ],
    "nothing is open": [
        ("abort", "0 aborted"),
        ("end", "0 ended"),
        ("commit", "0 fault: 7 BadRequest(state)"),
        ("get a", "0 none"),
    ],
    "out of place in a transaction": [
        ("begin", "0 begun ID1"),
        ("begin", "0 fault: 7 BadRequest(state)"),
        ("view", "0 fault: 7 BadRequest(state)"),
        ("end", "0 fault: 7 BadRequest(state)"),
        ("put a 1", "0 ok"),
        ("commit", "0 committed AT1 ID1"),
    ],
    "out of place in a view": [
        ("view", "0 at AT1"),
        ("put a 1", "0 fault: 7 BadRequest(state)"),
        ("erase a", "0 fault: 7 BadRequest(state)"),
        ("begin", "0 fault: 7 BadRequest(state)"),
        ("commit", "0 fault: 7 BadRequest(state)"),
        ("get a", "0 none"),
        ("end", "0 ended"),
    ],
    "no request": [
        ("", "0 fault: 7 BadRequest(R)"),
        ("nothing", "0 fault: 7 BadRequest(R)"),
        ("get", "0 fault: 7 BadRequest(R)"),
        ("get  a", "0 fault: 7 BadRequest(R)"),
        ("put a", "0 fault: 7 BadRequest(R)"),
        ("put a 1 2", "0 fault: 7 BadRequest(R)"),
        ("erase", "0 fault: 7 BadRequest(R)"),
        ("begin now", "0 fault: 7 BadRequest(R)"),
        ("2 commit now", "2 fault: 7 BadRequest(R)"),
        ("4 get a", "4 fault: 7 BadRequest(R)"),
        ("get a", "0 none"),
    ],
    "no request, in a transaction that stays open": [
        ("begin", "0 begun ID1"),
        ("put a 1", "0 ok"),
        ("nothing", "0 fault: 7 BadRequest(R)"),
        ("put a", "0 fault: 7 BadRequest(R)"),
        ("commit", "0 committed AT1 ID1"),
        ("get a", "0 =1"),
    ],
    "spelled": [
        ("put \\x00\\xfF \\x20\\x5C\\x41=", "0 committed AT1 ID1"),
        ("get \\x00\\xff", "0 =\\x20\\x5cA="),
        ("put a ", "0 committed AT2 ID2"),
        ("get a", "0 ="),
        ("put b none", "0 committed AT3 ID3"),
        ("get b", "0 =none"),
        ("get \\q", "0 fault: 7 BadRequest(R)"),
        ("get \\x4", "0 fault: 7 BadRequest(R)"),
        ("get \\x4g", "0 fault: 7 BadRequest(R)"),
        ("put a \\", "0 fault: 7 BadRequest(R)"),
    ],
    "limits": [
        ("get " + "k" * 64, "0 none"),
        ("get " + "k" * 65, "0 fault: 7 BadRequest(key)"),
        ("get " + "\\x20" * 64, "0 none"),
        ("put a " + "\\x00" * 4096, "0 committed AT1 ID1"),
        ("put a " + "v" * 4097, "0 fault: 7 BadRequest(value)"),
        ("get a", "0 =" + "\\x00" * 4096),
        ("get" + " a" * 129, "0 fault: 7 BadRequest(many)"),
        ("get" + " b" * 128, "0" + " none" * 128),
    ],
    "a line that is too long is refused in its place": [
        ("1 put a " + "v" * 70000, "1 fault: 7 BadRequest(R)"),
        ("1 get a", "1 none"),
    ],
}


def pattern(answers):
    """The regular expression of some lines of answers."""
    seen = set()

    def place(found):
        name = found.group()
        if name in seen:
            return f"(?P={name})"
        seen.add(name)
        return f"(?P<{name}>[0-9]+)" if name.startswith("AT") else rf"(?P<{name}>[0-9]+\.[0-9]+)"

    text = re.sub(r"\b(?:AT|ID)[0-9]\b", place, re.escape("\n".join(answers)))
    return text.replace(r"BadRequest\(R\)", r"BadRequest\([a-z]+\)")


def add_one(tx):
    tx.put(b"a", b"%d" % (int(tx.get(b"a") or b"0") + 1))


class OverPipes:
    """What is said over the program's own pipes."""

    def test_conversations(self):
        for name, lines in CONVERSATIONS.items():
            with self.subTest(name):
                self.setUp()
                self.make()
                pipe = self.pipe()
                self.assertRegex(pipe.ready, rb"\Aready [0-9]+\n\Z")
                told = [pipe.ask(asked.encode()).decode() for asked, _ in lines]
                found = re.fullmatch(pattern([answer for _, answer in lines]), "\n".join(told))
                self.assertTrue(found, f"{told}, where this was wanted: {lines}")
                times = [int(at) for name, at in sorted(found.groupdict().items()) if name.startswith("AT")]
                self.assertEqual(times, sorted(set(times)))
                self.assertEqual(pipe.end(), (b"", 0))

    def test_lines_at_once(self):
        """Each line of a burst is answered to its client, in the order of that, also if more than 64 of a client wait."""
        self.make()
        pipe = self.pipe()
        lines = [b"%d put %d v%d.%d\n%d get %d\n" % (client, client, client, turn, client, client) for turn in range(50) for client in range(4)]
        pipe.send(b"".join(lines))
        rest, status = pipe.end()
        for client in range(4):
            told = [line.split(b" ")[1] for line in rest.splitlines() if line.startswith(b"%d " % client)]
            self.assertEqual(told, [word for turn in range(50) for word in (b"committed", b"=v%d.%d" % (client, turn))])
        self.assertEqual((len(rest.splitlines()), status), (400, 0))

    def test_the_end_of_input_within_a_line(self):
        """A last line without line feed is answered, and what is open is given up."""
        self.make()
        pipe = self.pipe()
        pipe.send(b"1 begin\n1 put b 1\n2 put a 1")
        rest, status = pipe.end()
        self.assertEqual(sorted(line.split(b" ")[:2] for line in rest.splitlines()), [[b"1", b"begun"], [b"1", b"ok"], [b"2", b"committed"]])
        self.assertEqual(status, 0)
        self.assertEqual(self.open().get_all(b"a", b"b"), [b"1", None])

    def test_quit(self):
        """It is answered last. What comes behind it is not read."""
        self.make()
        pipe = self.pipe()
        pipe.send(b"put a 1\n1 begin\n1 put b 1\n2 quit\nput a 2\n")
        rest, status = pipe.end()
        self.assertEqual(status, 0)
        self.assertEqual(len(rest.splitlines()), 4)
        self.assertEqual(rest.splitlines()[-1], b"2 closed")
        self.assertEqual(self.open().get_all(b"a", b"b"), [b"1", None])

    def test_clients_do_not_wait_for_each_other(self):
        """While one transaction is open, others come and go."""
        self.make()
        pipe = self.pipe()
        self.assertRegex(pipe.ask(b"begin"), b"0 begun")
        self.assertRegex(pipe.ask(b"put a 1"), b"0 ok")
        self.assertRegex(pipe.ask(b"1 put z 2"), b"1 committed")
        self.assertEqual(pipe.ask(b"2 get a z"), b"2 none =2")
        self.assertRegex(pipe.ask(b"commit"), b"0 committed")
        self.assertEqual(pipe.end(), (b"", 0))

    def test_ids_begin_with_the_run_that_is_told_first(self):
        self.make()
        for _ in range(2):
            pipe = self.pipe()
            run = re.fullmatch(rb"ready ([0-9]+)\n", pipe.ready).group(1)
            self.assertRegex(pipe.ask(b"begin"), rb"\A0 begun %s\.[0-9]+\Z" % run)
            self.assertRegex(pipe.ask(b"1 put a 1"), rb"\A1 committed [0-9]+ %s\.[0-9]+\Z" % run)
            self.assertEqual(pipe.end(), (b"", 0))

    def test_two_that_are_in_each_others_way(self):
        """Both have read the key that both write: one commits, and the other is aborted."""
        self.make()
        pipe = self.pipe()
        for client in (b"0", b"1"):
            self.assertRegex(pipe.ask(client + b" begin"), client + b" begun")
            self.assertEqual(pipe.ask(client + b" get a"), client + b" none")
            self.assertEqual(pipe.ask(client + b" put a " + client), client + b" ok")
        pipe.send(b"0 commit\n1 commit\n")
        ends = dict(pipe.line().split()[:2] for _ in range(2))
        self.assertEqual(sorted(ends.values()), [b"aborted", b"committed"])
        self.assertEqual(pipe.ask(b"get a"), b"0 =" + next(client for client, end in ends.items() if end == b"committed"))
        self.assertEqual(pipe.end(), (b"", 0))

    def test_an_idle_transaction_lets_its_locks_go(self):
        """A `put` beside it commits within its two seconds, and the next line of the idle one is answered `aborted`."""
        self.make()
        pipe = self.pipe("--idle", "1000")
        self.assertRegex(pipe.ask(b"begin"), b"0 begun")
        self.assertEqual(pipe.ask(b"get a"), b"0 none")
        time.sleep(1.2)
        self.assertRegex(pipe.ask(b"1 put a 1"), b"1 committed")
        self.assertEqual(pipe.ask(b"put a 2"), b"0 aborted")
        self.assertEqual(pipe.ask(b"get a"), b"0 =1")
        self.assertEqual(pipe.end(), (b"", 0))

    def test_a_reader_that_went_away(self):
        """The program ends with the next line, or the one after it."""
        self.make()
        pipe = self.pipe()
        pipe.process.stdout.close()
        for _ in range(50):
            try:
                pipe.send(b"put a 1\n")
            except BrokenPipeError:
                break
            time.sleep(0.1)
        try:
            pipe.process.stdin.close()
        except BrokenPipeError:
            pass
        self.assertEqual(pipe.process.wait(10), 2)


class OverStores:
    """What the client does with a program."""

    def test_made_once(self):
        self.make()
        store = self.open()
        store.put(b"a", b"1")
        store.close()
        with self.assertRaises(Refused) as refused:
            Store.make(self.logs, b"m", program=self.words)
        self.assertEqual(refused.exception.number, 2)
        self.assertEqual(self.open().get(b"a"), b"1")

    def test_no_store(self):
        with self.assertRaisesRegex(Closed, "was not opened .status 2."):
            Store(self.logs, program=self.words)

    def test_all_bytes(self):
        self.make()
        store = self.open()
        draw = random.Random(17)
        rows = {bytes(draw.randrange(256) for _ in range(draw.randint(1, 64))): draw.randbytes(draw.choice([0, 1, 17, 4096])) for _ in range(20)}
        store.transact(lambda tx: [tx.put(key, value) for key, value in rows.items()])
        self.assertEqual(store.get_all(*rows), list(rows.values()))
        self.assertEqual(store.close(), 0)
        with self.open().view() as view:
            self.assertEqual(view.get_all(*rows), list(rows.values()))

    def test_refused(self):
        self.make()
        store = self.open()
        rows = [
            lambda tx: tx.get(b""),
            lambda tx: tx.put(b"k" * 65, b"1"),
            lambda tx: tx.put(b"k", b"v" * 4097),
            lambda tx: tx.get_all(),
            lambda tx: tx.put(b"k", b"v" * 70000),
        ]

        def code(tx):
            for row in rows:
                with self.assertRaises(Refused) as refused:
                    row(tx)
                self.assertEqual((refused.exception.number, refused.exception.ended), (7, False))
            tx.put(b"k", b"kept")

        for row in rows:
            with self.assertRaises(Refused):
                row(store)
        store.transact(code)
        self.assertEqual(store.get(b"k"), b"kept")

    def test_timestamps_follow_one_another(self):
        self.make()
        store = self.open()
        times = [store.put(b"a", b"1").at, store.transact(add_one).at, store.erase(b"a").at]
        with store.view() as view:
            times.append(view.at)
        self.assertEqual(times, sorted(set(times)))

    def test_a_view_of_the_past(self):
        self.make()
        store = self.open()
        first = store.put(b"a", b"1").at
        store.put(b"a", b"2")
        for at, value in ((first - 1, None), (first, b"1")):
            with store.view(at) as view:
                self.assertEqual((view.at, view.get(b"a")), (at, value))
        self.assertEqual(store.get(b"a"), b"2")

    def test_keys_by_pages(self):
        """Both shards, in order, as the view has them."""
        self.make()
        store = self.open()
        rows = [b"%s%02d" % (front, number) for front in (b"a", b"z ") for number in range(25)]
        for key in reversed(rows):
            store.put(key, b"1")
        with store.view() as view:
            store.erase(rows[0])
            store.put(b"b", b"2")
            found, next = [], b"\0"
            while next is not None:
                next, keys = view.keys(next, limit=7)
                found += keys
            self.assertEqual(found, rows)
            self.assertEqual(view.keys(b"a03", b"a05"), (None, [b"a03", b"a04"]))
            for limit in (0, 1001):
                with self.assertRaises(Refused):
                    view.keys(limit=limit)
        with store.view() as view:
            self.assertEqual(view.keys(), (b"m", [*rows[1:25], b"b"]))

    def test_how_a_transaction_ended(self):
        """A client knows only what was unknown."""
        self.make()
        store = self.open()
        self.assertIsNone(store.outcome(store.put(b"a", b"1").id))
        with self.assertRaises(Refused):
            store.outcome("no id")

    def test_stats(self):
        self.make()
        store = self.open()
        store.put(b"a", b"1")
        store.put(b"b", b"1")
        self.assertIn('spanner_shards_commits{shard="0"} 2\n', store.stats())

    def test_a_view_of_the_future_is_not_served_yet(self):
        self.make()
        with self.open().view(1 << 61) as view:
            with self.assertRaises(Refused) as refused:
                view.get(b"a")
        self.assertEqual((refused.exception.number, refused.exception.ended), (9, False))

    def test_a_view_in_a_transaction(self):
        """It is another client's, and sees what is committed."""
        self.make()
        store = self.open()
        store.put(b"b", b"1")
        seen = []
        store.transact(lambda tx: (tx.put(b"c", b"2"), seen.append(store.get_all(b"b", b"c"))))
        self.assertEqual(seen[-1], [b"1", None])

    def test_threads_add(self):
        self.make()
        store = self.open(clients=8)

        def work():
            for _ in range(10):
                store.transact(add_one, tries=1000)

        threads = [threading.Thread(target=work) for _ in range(8)]
        for thread in threads:
            thread.start()
        for thread in threads:
            thread.join()
        self.assertEqual(store.get(b"a"), b"80")

    def test_an_opening_waits_for_the_folder(self):
        """For a second at most."""
        self.make()
        first = self.open()
        first.put(b"a", b"1")
        closer = threading.Timer(0.3, first.close)
        closer.start()
        self.assertEqual(self.open().get(b"a"), b"1")
        closer.join()

    def test_a_second_opening(self):
        """It is refused after a second, and taken once the first is closed."""
        self.make()
        store, start = self.open(), time.monotonic()
        with self.assertRaisesRegex(Closed, "was not opened .status 2."):
            Store(self.logs, program=self.words)
        self.assertGreater(time.monotonic() - start, 0.9)
        store.put(b"a", b"1")
        store.close()
        self.assertEqual(self.open().get(b"a"), b"1")

    def test_a_parent_that_is_killed(self):
        """Its program ends by the end of its input, and lets the folder go."""
        self.make()
        code = f"""
import sys, time
sys.path[:0] = {[os.path.dirname(HERE)]!r}
from spanner_shards import Store
store = Store({self.logs!r}, clients=2, program={self.words!r})
store.put(b"a", b"1")
print("put", flush=True)
store.transact(lambda tx: (tx.put(b"a", b"2"), time.sleep(60)))
"""
        parent = subprocess.Popen([sys.executable, "-c", code], stdout=subprocess.PIPE)
        self.assertEqual(parent.stdout.readline(), b"put\n")
        parent.kill()
        parent.communicate()
        self.assertEqual(self.open().get(b"a"), b"1")

    def test_an_interrupt_of_the_parent_leaves_the_program(self):
        """A key that interrupts a terminal's processes reaches the parent alone."""
        self.make()
        store = self.open()
        self.assertNotEqual(os.getpgid(store.process.pid), os.getpgid(0))
        with self.assertRaises(KeyboardInterrupt):
            os.kill(os.getpid(), signal.SIGINT)
            time.sleep(10)
        store.put(b"a", b"1")

    def test_ten_kills(self):
        """All money is there after each, and each move that was told."""
        self.make()
        bank = Bank(self.logs, clients=8, program=self.words)
        for kill in range(10):
            bank.serve_until_killed(random.Random(kill).random())
        bank.close()
        print(f"\nthe {type(self).__name__.lower()}: {bank}", file=sys.stderr)
        self.assertEqual((bank.kills, bank.wrong), (10, 0))
        self.assertGreater(bank.moves, 0)
        self.assertGreaterEqual(bank.audits, 21)
        self.assertEqual(sum(map(int, self.open().get_all(*ACCOUNTS))), WHOLE)


class Model(OverPipes, OverStores, Folder):
    words = FAKE


@unittest.skipUnless(program(), "the program is not built")
class Program(OverPipes, OverStores, Folder):
    words = program()


if __name__ == "__main__":
    unittest.main()
