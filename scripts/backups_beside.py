#!/usr/bin/env python3
"""Tries backups of a store that clients work in, over the program that is built, or that SHARDS_PROGRAM names.

Six clients move money among 20 accounts on four shards. Meanwhile the store is backed up, for so many seconds (20 if nothing is said); before each
backup its number is committed. Each copy has to be judged yes, and its export has to have all money and that number. It says how many were right;
its status is 1 if one was not.
"""
import csv
import io
import os
import pathlib
import random
import subprocess
import sys
import tempfile
import threading
import time

root = pathlib.Path(__file__).resolve().parent.parent
program = os.environ.setdefault("SHARDS_PROGRAM", str(root / "crates/shards/out/shards"))
sys.path.insert(0, str(root / "clients/python"))
from spanner_shards import Store  # noqa: E402

ACCOUNTS = [b"%c-%d" % (letter, number) for letter in b"aiqx" for number in range(5)]
EACH = 100


def move_money(store, seed, is_over):
    chance = random.Random(seed)
    while not is_over.is_set():
        giver, taker = chance.sample(ACCOUNTS, 2)

        def move(tx):
            has, gets = (int(value) for value in tx.get_all(giver, taker))
            amount = chance.randint(0, has)
            tx.put(giver, b"%d" % (has - amount))
            tx.put(taker, b"%d" % (gets + amount))

        store.transact(move)


def back_up_often(store, folder, seconds):
    """Makes copies beside the clients, and gives their folders."""
    copies = []
    end = time.monotonic() + seconds
    while time.monotonic() < end:
        number = b"%d" % len(copies)
        store.transact(lambda tx: tx.put(b"number", number))
        copies.append(f"{folder}/copy-{len(copies)}")
        subprocess.run([program, "backup", f"{folder}/bank", copies[-1]], check=True)
    return copies


def is_right(copy, number):
    """Whether a copy has each transaction whole, all money, and the number that was committed before it was begun."""
    logs = [f"{copy}/shard-{shard}.log" for shard in range(4)]
    verdict = subprocess.run([program, "inspect", "/dev/null", *logs], capture_output=True, text=True).stdout
    exported = subprocess.run([program, "export", "--csv", copy], capture_output=True, text=True).stdout
    pairs = {row["key"]: row["value"] for row in csv.DictReader(io.StringIO(exported, newline=""))}
    committed = pairs.pop("number", None)
    money = sum(int(value) for value in pairs.values())
    return verdict == "yes\n" and committed == str(number) and money == EACH * len(ACCOUNTS)


def main():
    seconds = float(sys.argv[1]) if len(sys.argv) > 1 else 20
    with tempfile.TemporaryDirectory() as folder:
        subprocess.run([program, "make", f"{folder}/bank", "g", "m", "t"], check=True)
        is_over = threading.Event()
        with Store(f"{folder}/bank") as store:
            store.transact(lambda tx: [tx.put(account, b"%d" % EACH) for account in ACCOUNTS] and None)
            clients = [threading.Thread(target=move_money, args=(store, seed, is_over)) for seed in range(6)]
            for client in clients:
                client.start()
            try:
                copies = back_up_often(store, folder, seconds)
            finally:
                is_over.set()
                for client in clients:
                    client.join()
        wrong = [copy for number, copy in enumerate(copies) if not is_right(copy, number)]
    print(f"backups: {len(copies) - len(wrong)} of {len(copies)} were right")
    return 1 if wrong or not copies else 0


if __name__ == "__main__":
    sys.exit(main())
