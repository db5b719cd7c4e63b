#!/usr/bin/env python3
"""A bank over a store that is held open: bank.py FOLDER [KILLS].

Four tellers, each a thread, move money between 16 accounts, and an auditor adds the accounts up. After a moment the program is killed. Then it
is opened again: all money has to be there, and each move that a teller was told of. That goes on until KILLS kills (10). It makes the store if
there is none, prints what it did, and ends with status 1 if anything was wrong."""

import random
import sys
import threading
import time

from spanner_shards import Aborted, Closed, Refused, Store, Unknown

ACCOUNTS = [b"acct-%02d" % number for number in range(16)]
WHOLE = 16000
TELLERS = 4


def open_accounts(tx):
    """Puts 1,000 on each account, unless that was done."""
    if tx.get(ACCOUNTS[0]) is None:
        for account in ACCOUNTS:
            tx.put(account, b"1000")


def total(store):
    """What all accounts have at one timestamp."""
    with store.view() as view:
        return sum(map(int, view.get_all(*ACCOUNTS)))


class Teller(threading.Thread):
    """Moves money until the store is closed. Each move is numbered, and writes its number beside the accounts."""

    def __init__(self, store, number):
        super().__init__()
        self.store, self.key = store, b"teller-%d" % number
        self.sure = self.last = self.written()
        self.unknown, self.moves, self.error = set(), 0, None

    def written(self, store=None):
        """The number of the teller's last move that stands in a store."""
        return int((store or self.store).get(self.key) or b"0")

    def move(self, tx):
        giver, taker = random.sample(ACCOUNTS, 2)
        has, gets = map(int, tx.get_all(giver, taker))
        amount = random.randrange(min(has, 100) + 1)
        tx.put(giver, b"%d" % (has - amount))
        tx.put(taker, b"%d" % (gets + amount))
        tx.put(self.key, b"%d" % self.last)

    def run(self):
        try:
            while True:
                self.last += 1
                try:
                    self.store.transact(self.move)
                    self.sure, self.moves = self.last, self.moves + 1
                except Unknown:
                    self.unknown.add(self.last)
                except Aborted:
                    pass
        except Closed:
            pass
        except Exception as error:
            self.error = error

    def is_kept(self, store):
        """A store has each move that the teller was told of, and none that it never asked for."""
        written = self.written(store)
        return self.error is None and (written == self.sure or written > self.sure and written in self.unknown)


class Bank:
    """What a bank did: how often it was killed, how many moves were told, how many audits there were, and how many things were wrong."""

    def __init__(self, folder, **options):
        self.folder, self.options = folder, options
        self.kills = self.moves = self.audits = self.wrong = 0
        self.tellers = []

    def audit(self, store):
        self.audits += 1
        self.wrong += total(store) != WHOLE

    def check(self, store):
        """What stands after an opening."""
        self.audit(store)
        self.wrong += sum(not teller.is_kept(store) for teller in self.tellers)

    def serve_until_killed(self, seconds):
        """Opens the store, checks it, and lets the tellers work for so long. Then the program is killed."""
        with Store(self.folder, **self.options) as store:
            store.transact(open_accounts)
            self.check(store)
            self.tellers = [Teller(store, number) for number in range(TELLERS)]
            for teller in self.tellers:
                teller.start()
            until = time.monotonic() + seconds
            while time.monotonic() < until:
                self.audit(store)
            store.process.kill()
            for teller in self.tellers:
                teller.join()
        self.kills += 1
        self.moves += sum(teller.moves for teller in self.tellers)

    def close(self):
        """Opens the store once more, and checks it."""
        with Store(self.folder, **self.options) as store:
            self.check(store)

    def __str__(self):
        return f"kills {self.kills} moves {self.moves} audits {self.audits} wrong {self.wrong}"


def main(folder, kills="10"):
    try:
        Store.make(folder, b"acct-08")
    except Refused:
        print(f"the store in {folder} is there already")
    bank = Bank(folder, clients=8)
    for _ in range(int(kills)):
        bank.serve_until_killed(random.random())
    bank.close()
    print(bank)
    return bank.wrong > 0


if __name__ == "__main__":
    sys.exit(main(*sys.argv[1:]) if 2 <= len(sys.argv) <= 3 else __doc__)
