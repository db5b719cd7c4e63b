"""The client beside answers that a program seldom gives. They are told to the model, so that no program is needed."""

import os
import signal
import subprocess
import threading
import time
import unittest

from served import FAKE, Folder
from spanner_shards import Aborted, Closed, Refused, Store, Unknown, spelled, unspelled


def add_one(tx):
    tx.put(b"a", b"%d" % (int(tx.get(b"a") or b"0") + 1))


class Told(Folder):
    """A store of the model, which is told some answers."""

    def told(self, *lines, clients=2, **given):
        self.make()
        path = os.path.join(self.room, "told")
        with open(path, "w", encoding="ascii") as told:
            told.write("".join(line + "\n" for line in lines))
        return self.open(clients, options=["--told", path, *given.pop("options", [])], **given)


class Spelling(unittest.TestCase):
    ROWS = [
        (b"plain-09~!", b"plain-09~!"),
        (b"", b""),
        (b"a b", b"a\\x20b"),
        (b"\\", b"\\x5c"),
        (b"=none\n\x00\x7f\xff", b"=none\\x0a\\x00\\x7f\\xff"),
    ]

    def test_rows(self):
        for data, word in self.ROWS:
            with self.subTest(data):
                self.assertEqual(spelled(data), word)
                self.assertEqual(unspelled(word), data)

    def test_digits_of_either_case(self):
        self.assertEqual(unspelled(b"\\x5C\\xfF"), b"\\\xff")

    def test_every_byte(self):
        data = bytes(range(256)) * 2
        self.assertEqual(unspelled(spelled(data)), data)
        self.assertRegex(spelled(data), rb"\A[!-~]+\Z")


class Ends(Told):
    def test_committed_tells_timestamp_id_and_result(self):
        store = self.told("commit committed 17 3.5")
        self.assertEqual(store.transact(lambda tx: "done"), (17, "3.5", "done"))

    def test_aborted_is_run_again(self):
        store = self.told("commit aborted", "get aborted", "put aborted")
        runs = []
        store.transact(lambda tx: (runs.append(tx.id), tx.get(b"a")))
        self.assertEqual(len(set(runs)), 3)
        store.transact(lambda tx: (runs.append(tx.id), add_one(tx)))
        self.assertEqual(len(set(runs)), 5)
        self.assertEqual(store.get(b"a"), b"1")

    def test_aborted_each_time(self):
        store = self.told(*["commit aborted"] * 3)
        runs = []
        with self.assertRaises(Aborted):
            store.transact(runs.append, tries=3)
        self.assertEqual(len(runs), 3)
        store.transact(add_one, tries=1)

    def test_unknown_has_the_id_and_is_not_run_again(self):
        store = self.told("commit unknown 3.5", "put unknown 3.6")
        runs = []
        with self.assertRaises(Unknown) as unknown:
            store.transact(runs.append)
        self.assertEqual((unknown.exception.id, len(runs)), ("3.5", 1))
        with self.assertRaises(Unknown) as unknown:
            store.put(b"a", b"1")
        self.assertEqual(unknown.exception.id, "3.6")

    def test_how_an_unknown_one_ended(self):
        store = self.told("put unknown 3.6", "outcome outcome open", "outcome outcome unknown", "outcome outcome committed 17")
        with self.assertRaises(Unknown):
            store.put(b"a", b"1")
        self.assertIsNone(store.outcome("3.6"))
        self.assertIsNone(store.outcome("3.6"))
        self.assertEqual(store.outcome("3.6"), (17, "3.6", None))
        with self.assertRaises(Aborted):
            store.outcome("3.6")

    def test_the_client_that_ran_it_is_asked(self):
        """Once it is in no use. Another one would know nothing."""
        store = self.told("put unknown 3.6", "commit unknown 3.7", clients=3)
        told = []

        def ask(id):
            try:
                told.append(store.outcome(id))
            except Aborted:
                told.append("aborted")

        with self.assertRaises(Unknown):
            store.put(b"a", b"1")
        with self.assertRaises(Unknown):
            store.transact(add_one)
        with store.view() as view:
            asking = [threading.Thread(target=ask, args=(id,)) for id in ("3.6", "3.7")]
            for thread in asking:
                thread.start()
            time.sleep(0.2)
            self.assertIsNone(view.get(b"a"))
            self.assertIsNone(store.get(b"a"))
            self.assertEqual(told, [])
        for thread in asking:
            thread.join(10)
        self.assertEqual(told, ["aborted"] * 2)
        self.assertIsNone(store.outcome("3.8"))

    def test_a_client_knows_its_last_sixteen(self):
        store = self.told(*["put unknown 3.%d" % number for number in range(17)], clients=1)
        for _ in range(17):
            with self.assertRaises(Unknown):
                store.put(b"a", b"1")
        for number in range(1, 17):
            with self.assertRaises(Aborted):
                store.outcome("3.%d" % number)

    def test_put_outside_aborted(self):
        store = self.told("put aborted", "erase aborted")
        for write in (lambda: store.put(b"a", b"1"), lambda: store.erase(b"a")):
            with self.assertRaises(Aborted):
                write()
        self.assertIsNone(store.get(b"a"))

    def test_what_the_code_raises_aborts(self):
        store = self.told(clients=1)
        with self.assertRaises(KeyError):
            store.transact(lambda tx: (tx.put(b"a", b"1"), {}["none"]))
        self.assertIsNone(store.get(b"a"))
        store.transact(add_one)

    def test_an_abort_of_another_is_raised(self):
        """What aborts a write outside of the transaction does not have the transaction run again."""
        store = self.told("put aborted")
        runs = []
        with self.assertRaises(Aborted):
            store.transact(lambda tx: (runs.append(tx), store.put(b"a", b"1")))
        self.assertEqual(len(runs), 1)


class Over(Told):
    """Once a transaction or a view is over, no line of it is sent: it would be served by itself."""

    def test_code_that_goes_on_after_an_abort(self):
        store = self.told("get aborted")

        def stubborn(tx):
            try:
                tx.get(b"a")
            except Aborted:
                pass
            for write in (lambda: tx.put(b"b", b"1"), lambda: tx.erase(b"b")):
                try:
                    write()
                except Aborted:
                    pass

        with self.assertRaises(Aborted):
            store.transact(stubborn, tries=1)
        self.assertIsNone(store.get(b"b"))

    def test_code_that_goes_on_after_a_refusal_that_ended_it(self):
        store = self.told("get ended: fault: 3 Stopped")

        def stubborn(tx):
            try:
                tx.get(b"a")
            except Refused:
                pass
            try:
                tx.put(b"b", b"1")
            except Refused:
                pass

        with self.assertRaises(Refused) as refused:
            store.transact(stubborn)
        self.assertEqual((refused.exception.number, refused.exception.ended, str(refused.exception)), (3, True, "3 Stopped"))
        self.assertIsNone(store.get(b"b"))

    def test_a_refusal_that_leaves_it_open(self):
        store = self.told("get fault: 1 Memory")

        def again(tx):
            try:
                tx.get(b"a")
            except Refused as refused:
                self.assertEqual((refused.number, refused.ended), (1, False))
            tx.put(b"a", b"1")

        store.transact(again)
        self.assertEqual(store.get(b"a"), b"1")

    def test_a_refused_commit_gives_up(self):
        for fault in ("fault: 1 Memory", "ended: fault: 3 Stopped"):
            with self.subTest(fault):
                self.setUp()
                store = self.told("commit " + fault, clients=1)
                with self.assertRaises(Refused):
                    store.transact(add_one)
                self.assertIsNone(store.get(b"a"))
                store.transact(add_one)

    def test_a_transaction_kept_beyond_its_end(self):
        store = self.told(clients=1)
        kept = []
        store.transact(lambda tx: (kept.append(tx), tx.get(b"a")))
        for use in (lambda: kept[0].put(b"a", b"1"), lambda: kept[0].get(b"a"), lambda: kept[0].erase(b"a")):
            with self.assertRaises(RuntimeError):
                use()
        self.assertIsNone(store.get(b"a"))

    def test_a_view_that_ended(self):
        store = self.told("get ended: fault: 3 Stopped", clients=1)
        with store.view() as view:
            with self.assertRaises(Refused):
                view.get(b"a")
            with self.assertRaises(Refused):
                view.get(b"a")
        with self.assertRaises(Refused):
            view.get(b"a")
        with store.view() as view:
            self.assertIsNone(view.get(b"a"))
        with self.assertRaises(RuntimeError):
            view.get(b"a")

    def test_a_view_that_is_refused(self):
        store = self.told("view fault: 8 Early", clients=1)
        with self.assertRaises(Refused) as refused:
            with store.view():
                self.fail("it was refused")
        self.assertEqual(refused.exception.number, 8)
        self.assertIsNone(store.get(b"a"))

    def test_a_transaction_that_does_not_begin(self):
        works = [lambda tx: tx.put(b"a", b"1"), lambda tx: (tx.get(b"a"), tx.put(b"a", b"1")), lambda tx: tx.id, lambda tx: None]
        store = self.told(*["begin fault: 5 RowsFull"] * len(works), clients=1)
        for work in works:
            with self.assertRaises(Refused) as refused:
                store.transact(work)
            self.assertEqual(refused.exception.number, 5)
            self.assertIsNone(store.get(b"a"))
        store.transact(add_one)
        self.assertEqual(store.get(b"a"), b"1")

    def test_a_write_that_finds_no_memory(self):
        """It ends the transaction, so the commit that went with it commits nothing."""
        store = self.told("put ended: fault: 1 Memory", clients=1)
        with self.assertRaises(Refused) as refused:
            store.transact(lambda tx: (tx.put(b"a", b"1"), tx.put(b"b", b"2")))
        self.assertEqual((refused.exception.number, refused.exception.ended), (1, True))
        self.assertEqual(store.get_all(b"a", b"b"), [None, None])

    def test_a_write_beyond_a_limit(self):
        """It is refused at once, and the others are committed."""
        store = self.told(clients=1)
        refusals = []

        def work(tx):
            for key, value in ((b"a" * 65, b"1"), (b"", b"1"), (b"a", b"1" * 4097), (b"a" * 64, b"1" * 4096)):
                try:
                    tx.put(key, value)
                except Refused as refused:
                    refusals.append(refused.number)

        store.transact(work)
        self.assertEqual(refusals, [7, 7, 7])
        self.assertEqual(store.get(b"a" * 64), b"1" * 4096)

    def test_writes_are_seen_and_taken_back(self):
        store = self.told(clients=1)
        seen = []

        def work(tx):
            tx.put(b"a", b"1")
            seen.append(tx.get(b"a"))
            tx.put(b"a", b"2")
            tx.erase(b"b")
            raise KeyError

        with self.assertRaises(KeyError):
            store.transact(work)
        self.assertEqual(seen, [b"1"])
        self.assertIsNone(store.get(b"a"))
        store.transact(lambda tx: (tx.put(b"a", b"3"), tx.erase(b"a"), tx.put(b"b", b"4")))
        self.assertEqual(store.get_all(b"a", b"b"), [None, b"4"])

    def test_an_idle_transaction(self):
        store = self.told(options=["--idle", "1000"], clients=1)
        waits = [2, 0]
        runs = []
        store.transact(lambda tx: (runs.append(tx), tx.get(b"b"), time.sleep(waits.pop(0)), add_one(tx)))
        self.assertEqual(len(runs), 2)
        self.assertEqual(store.get(b"a"), b"1")


class Past(Told):
    def test_a_view_of_the_past(self):
        store = self.told()
        first = store.put(b"a", b"1").at
        store.put(b"a", b"2")
        for at, value in ((first - 1, None), (first, b"1")):
            with store.view(at=at) as view:
                self.assertEqual((view.at, view.get(b"a")), (at, value))
        self.assertEqual(store.get(b"a"), b"2")

    def test_a_view_of_the_future_is_not_served_yet(self):
        with self.told().view(at=1 << 61) as view:
            with self.assertRaises(Refused) as refused:
                view.get(b"a")
        self.assertEqual((refused.exception.number, refused.exception.ended), (9, False))


class Answers(Told):
    """Each answer reaches the call that asked, in whatever order answers come."""

    def test_a_late_answer_of_another_client(self):
        store = self.told("get late 0.4", clients=2)
        store.put(b"a", b"1")
        store.put(b"b", b"2")
        slow = []
        thread = threading.Thread(target=lambda: slow.append(store.get(b"a")))
        thread.start()
        time.sleep(0.1)
        self.assertEqual(store.get(b"b"), b"2")
        self.assertEqual(slow, [])
        thread.join()
        self.assertEqual(slow, [b"1"])

    def test_more_threads_than_clients(self):
        store = self.told(clients=3)

        def work(number):
            for turn in range(50):
                key = b"%d-%d" % (number, turn)
                store.put(key, key)
                wrong.extend([] if store.get(key) == key else [key])
                store.transact(add_one, tries=1000)

        wrong = []
        threads = [threading.Thread(target=work, args=(number,)) for number in range(8)]
        for thread in threads:
            thread.start()
        for thread in threads:
            thread.join()
        self.assertEqual(wrong, [])
        self.assertEqual(store.get(b"a"), b"400")

    def interrupted(self, store, call):
        """An alarm interrupts a call that waits for its answer."""
        def stop(*_):
            raise InterruptedError

        before = signal.signal(signal.SIGALRM, stop)
        try:
            signal.setitimer(signal.ITIMER_REAL, 0.1)
            with self.assertRaises(InterruptedError):
                call()
        finally:
            signal.setitimer(signal.ITIMER_REAL, 0)
            signal.signal(signal.SIGALRM, before)

    def test_an_interrupted_call_leaves_its_answer_to_nobody(self):
        store = self.told("get late 0.3", "put late 0.3", clients=1)
        store.transact(lambda tx: tx.erase(b"a"))
        self.interrupted(store, lambda: store.get(b"a"))
        self.interrupted(store, lambda: store.put(b"a", b"1"))
        self.assertEqual(store.get_all(b"a", b"b"), [b"1", None])

    def test_an_interrupted_transaction_is_given_up(self):
        store = self.told("get late 0.3", clients=1)
        self.interrupted(store, lambda: store.transact(lambda tx: (tx.put(b"b", b"1"), tx.get(b"a"))))
        self.assertIsNone(store.get(b"b"))
        store.transact(add_one)


class Closes(Told):
    def test_a_kill_while_calls_wait(self):
        store = self.told("get late 60", clients=4)
        found = []

        def wait():
            try:
                store.get(b"a")
            except Closed as closed:
                found.append(closed)

        thread = threading.Thread(target=wait)
        thread.start()
        time.sleep(0.1)
        store.process.kill()
        thread.join(10)
        self.assertEqual(len(found), 1)
        with self.assertRaises(Closed):
            store.get(b"a")
        with self.assertRaises(Closed):
            store.put(b"a", b"1")
        self.assertEqual(store.close(), -9)

    def test_a_kill_while_a_commit_is_asked_for(self):
        """Nobody said how it ended."""
        store = self.told("commit die")
        ids = []
        with self.assertRaises(Unknown) as unknown:
            store.transact(lambda tx: ids.append(tx.id))
        self.assertEqual([unknown.exception.id], ids)
        with self.assertRaises(Closed):  # another transaction is told no id of an earlier one
            store.transact(lambda tx: ids.append(tx.id))
        self.assertEqual(len(ids), 1)

    def test_a_kill_while_a_write_is_asked_for(self):
        store = self.told("put die")
        with self.assertRaises(Unknown) as unknown:
            store.put(b"a", b"1")
        self.assertIsNone(unknown.exception.id)
        with self.assertRaises(Closed):
            store.put(b"a", b"1")

    def test_a_kill_within_a_transaction(self):
        store = self.told("put die")
        with self.assertRaises(Closed):
            store.transact(lambda tx: (tx.put(b"a", b"1"), tx.get(b"a")))

    def test_a_kill_while_a_write_goes_with_the_commit(self):
        """Both were asked for, so nobody knows."""
        store = self.told("put die")
        with self.assertRaises(Unknown) as unknown:
            store.transact(lambda tx: tx.put(b"a", b"1"))
        self.assertEqual(unknown.exception.id, "1.1")

    def test_an_answer_that_was_cut_off(self):
        """The front of `committed 1700 1.2` is no timestamp."""
        store = self.told("commit cut committed 17", "get cut =valu")
        with self.assertRaises(Unknown):
            store.transact(lambda tx: tx.put(b"a", b"1"))
        store = self.open(1)
        self.assertIsNone(store.get(b"a"))

    def test_close_and_again(self):
        store = self.told()
        self.assertEqual(store.close(), 0)
        self.assertEqual(store.close(), 0)
        with self.assertRaises(Closed):
            store.transact(add_one)

    def test_close_while_another_process_holds_the_pipe(self):
        """A process that was forked meanwhile may have the pipe, so that the program hears of no end of it."""
        store = self.told()
        holder = subprocess.Popen(["sleep", "30"], pass_fds=[store.process.stdin.fileno()])
        self.addCleanup(holder.wait)
        self.addCleanup(holder.kill)
        self.assertEqual(store.close(), 0)
        self.assertIsNone(holder.poll())

    def test_no_program(self):
        self.make()
        with self.assertRaises(OSError):
            Store(self.logs, program=os.path.join(self.room, "nothing"))

    def test_a_program_that_is_not_ready(self):
        for words, status in ((["true"], 0), (["false"], 1), (["sh", "-c", "echo 'fault: 2 Device'; exit 2"], 2)):
            with self.subTest(words):
                with self.assertRaisesRegex(Closed, f"was not opened .status {status}."):
                    Store(self.logs, program=words)

    def test_a_program_by_the_environment(self):
        path = os.path.join(self.room, "named")
        with open(path, "w", encoding="utf8") as named:
            named.write("#!/bin/sh\nexec '%s' '%s' \"$@\"\n" % tuple(FAKE))
        os.chmod(path, 0o755)
        before = os.environ.get("SHARDS_PROGRAM")
        os.environ["SHARDS_PROGRAM"] = path
        try:
            Store.make(self.logs, b"m")
            with Store(self.logs) as store:
                self.assertIsNone(store.get(b"a"))
            store.process.stdout.close()
        finally:
            del os.environ["SHARDS_PROGRAM"]
            if before:
                os.environ["SHARDS_PROGRAM"] = before


if __name__ == "__main__":
    unittest.main()
