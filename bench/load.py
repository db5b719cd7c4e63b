#!/usr/bin/env python3
"""Clients of a store under load, now and at other revisions, in turn:
bench/load.py [REVISION or PROGRAM..] [--disks D,..] [--shards N,..] [--clients N,..] [--keys N]

A row is a disk, how many shards and how many clients. Each client runs transactions that read and write two of 1,000 keys, or of KEYS, one
after the other; of 8 keys or fewer each transaction takes one. It tells how many commit a second, within how many microseconds half and 99
of 100 do, the slowest, and how many were aborted after 50 attempts, unknown or refused. Disks: `memory`; `files` under TMPDIR; `5` and `15`,
files in /dev/shm each sync of which takes so many milliseconds more. The programs are built without a proof (serving.sh); a load beside
them shows. At e0e3e57a the program `serving.rs` of da1b65fc is to be built, and its PROGRAM named."""
import argparse
import os
import pathlib
import subprocess
import tempfile

HERE = pathlib.Path(__file__).resolve().parent


def build(made, revision):
    """The program over the crates as they stand here, or stood at a revision; or the one that is named, which was built before."""
    if revision and os.path.isfile(revision):
        return pathlib.Path(revision).resolve()
    to = made / (revision or "here")
    tree = HERE.parent
    if revision:
        tree = to / "tree"
        tree.mkdir(parents=True)
        crates = subprocess.run(["git", "-C", HERE.parent, "archive", revision, "crates"], check=True, stdout=subprocess.PIPE)
        subprocess.run(["tar", "-x", "-C", tree], check=True, input=crates.stdout)
    subprocess.run([HERE / "serving.sh", tree, to], check=True)
    return to / "serving"


def turns(disk, clients):
    """How many transactions a row has."""
    per_client = {"memory": 100, "files": 25, "5": 3, "15": 2}[disk]
    return max(per_client * clients, per_client * 4)


def row(program, slow, disk, shards, clients, keys):
    """What the program tells of a row."""
    env = dict(os.environ)
    place, root = disk, os.environ.get("TMPDIR", "/tmp")
    if disk.isdigit():
        place, root = "files", "/dev/shm"
        env.update(LD_PRELOAD=str(slow), SLOW_SYNC=str(int(disk) * 1000))
    with tempfile.TemporaryDirectory(dir=root) as folder:
        words = [place, shards, clients, turns(disk, clients), keys, 100, folder]
        try:
            told = subprocess.run([program, *map(str, words)], env=env, stdout=subprocess.PIPE, text=True, timeout=120, check=False)
        except subprocess.TimeoutExpired:
            return "not ended in 120 seconds"
    return told.stdout.split(": ", 1)[-1].strip() or f"ended with {told.returncode}"


def numbers(text):
    return text.split(",")


def main():
    words = argparse.ArgumentParser()
    words.add_argument("revisions", nargs="*")
    words.add_argument("--disks", type=numbers, default=["memory", "files", "5", "15"])
    words.add_argument("--shards", type=numbers, default=["1", "2", "4"])
    words.add_argument("--clients", type=numbers, default=["1", "4", "16", "64"])
    words.add_argument("--keys", type=int, default=1000)
    asked = words.parse_args()
    made = pathlib.Path(tempfile.mkdtemp(prefix="load."))
    print(made)
    slow = made / "slow_sync.so"
    subprocess.run(["cc", "-shared", "-fPIC", "-O2", "-o", slow, HERE / "slow_sync.c"], check=True)
    programs = {name or "here": build(made, name) for name in [*asked.revisions, None]}
    for disk in asked.disks:
        for shards in asked.shards:
            for clients in map(int, asked.clients):
                for name, program in programs.items():
                    print(f"{disk} {shards} {clients} {name}: {row(program, slow, disk, shards, clients, asked.keys)}", flush=True)


if __name__ == "__main__":
    main()
