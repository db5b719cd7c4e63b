#!/usr/bin/env python3
"""Rebuilds what power cuts may leave of recorded drives, and judges it. A trace of the program's calls tells, for each moment, what the last sync
of each file left and the changes since, and what the last sync of the folder left of its names and what was done to them since. An image takes
some of the changes, cuts them short or fills them with anything, and takes some of what was done to names: so says the disk model.
In each image every record whose sync had come back has to stand in the log of its shard, under its name, `inspect` has to say yes, and
some images are driven on. Drives begin in an empty folder or go on; some are killed at a call of their opening, and the next one goes
on with what was not synced. Drives of many workers log groups of records: the sizes that were seen are told, and there has to be a group of two or
more. It wants the program built and strace; without that it says so and ends well. SECONDS (120) and IMAGES (500) bound it."""
import os
import random
import shutil
import sys
import tempfile
import time

import traced

IMAGES = int(os.environ.get("IMAGES", "500"))
SECONDS = int(os.environ.get("SECONDS", "120"))
SEED = int(os.environ.get("SEED", "1"))
MOST = int(os.environ.get("SHARDS", "0"))
WORKERS = int(os.environ.get("WORKERS", "0"))


def fail(why):
    print(f"power_cuts: {why}", file=sys.stderr)
    sys.exit(1)


class Inode:
    """A file: what its last sync left, and the changes since, each a place and bytes, or a length and None where it was cut."""

    def __init__(self):
        self.synced, self.changes = b"", []

    def seen(self, changes=None):
        image = bytearray(self.synced)
        for at, put in self.changes if changes is None else changes:
            change(image, at, put)
        return bytes(image)

    def image(self):
        """What a power cut may leave."""
        image = bytearray(self.synced)
        for at, put in self.changes:
            fate = random.choice(["old", "new", "short", "filled", "anything"])
            if fate == "old" or (put is None and fate != "new"):
                continue
            if put is not None:
                put = bytes(put)
                if fate == "short":
                    put = put[: random.randint(0, len(put))]
                elif fate == "filled":
                    put = bytes([random.choice([0, 0xA5, 0xFF])]) * len(put)
                elif fate == "anything":
                    put = os.urandom(len(put))
            change(image, at, put)
        return bytes(image)


def change(image, at, put):
    if put is None:
        del image[at:]
        return
    if len(image) < at:
        image.extend(bytes(at - len(image)))
    image[at : at + len(put)] = put


class Machine:
    """The files of one folder as the machine has them: names as they are seen, names of the last sync, and what was done to them since."""

    def __init__(self, folder):
        self.folder = folder
        self.names, self.synced, self.done = {}, {}, []
        self.fds, self.syncs = {}, {}
        self.groups = set()

    def name_of(self, path):
        path = path.decode()
        if os.path.realpath(path) == self.folder:
            return "."
        return os.path.basename(path) if os.path.realpath(os.path.dirname(path) or ".") == self.folder else None

    def take(self, call, begins):
        """Takes a call that begins or comes back."""
        fd = call.number(0) if call.name in ("pwrite64", "ftruncate", "fsync", "close") else None
        held = self.fds.get(fd)
        failed = call.result is not None and call.result < 0
        if call.name == "openat" and not begins and not failed:
            self.opened(call)
        elif call.name == "close" and begins:
            self.fds.pop(fd, None)
        elif held is None and fd is not None:
            return
        elif call.name == "pwrite64" and begins:
            held.changes.append((call.number(3), call.text(0)))
        elif call.name == "ftruncate" and begins:
            held.changes.append((call.number(1), None))
        elif call.name == "fsync" and begins:
            self.syncs[call] = len(self.done) if held == "." else len(held.changes)
        elif call.name == "fsync" and not failed:
            self.sync(held, self.syncs.pop(call))
        elif call.name in ("rename", "unlink") and not begins and not failed:
            self.named(call)

    def opened(self, call):
        name = self.name_of(call.text(0))
        if name == ".":
            self.fds[call.result] = "."
        elif name is not None:
            if "O_CREAT" in call.words and name not in self.names:
                inode = Inode()
                self.do((None, name, inode))
            self.fds[call.result] = self.names.get(name)

    def named(self, call):
        names = [self.name_of(call.text(0)), self.name_of(call.text(1)) if call.name == "rename" else None]
        self.do((names[0], names[1], None))

    def do(self, deed):
        self.done.append(deed)
        self.names = done(self.names, deed)

    def sync(self, held, count):
        if held == ".":
            for deed in self.done[:count]:
                self.synced = done(self.synced, deed)
            del self.done[:count]
        else:
            before = len(traced.records(held.synced))
            held.synced = held.seen(held.changes[:count])
            del held.changes[:count]
            # A sync after a gate was opened shows the records of one group.
            self.groups.add(len(traced.records(held.synced)) - before)

    def closed(self):
        """The program has ended: what is not synced stays so."""
        self.fds, self.syncs = {}, {}

    def write_image(self, folder):
        """Makes a folder that a power cut may leave."""
        names = self.synced
        for deed in self.done:
            if random.random() < 0.5:
                names = done(names, deed)
        for name, inode in names.items():
            with open(os.path.join(folder, name), "wb") as file:
                file.write(inode.image())


def done(names, deed):
    """Names behind what was done to them: a file was made, renamed or taken away."""
    before, after, inode = deed
    names = dict(names)
    if before is not None:
        inode = names.pop(before, None)
    if after is not None and inode is not None:
        names[after] = inode
    return names


class Round:
    """Some drives over one folder, and images of all their moments."""

    def __init__(self, room):
        self.room = room
        self.folder = os.path.realpath(os.path.join(room, "logs"))
        os.mkdir(self.folder)
        self.shards = MOST or random.choice([1, 2, 2, 3, 5, 16])
        self.workers = WORKERS or random.choice([1, 2, 4, 16, 64])
        self.settings = os.path.join(room, "settings")
        self.no_lines = os.path.join(room, "no.lines")
        open(self.no_lines, "w").close()
        self.machine = Machine(self.folder)
        self.images, self.driven = 0, 0

    def record(self, is_killed):
        traced.settings(self.settings, self.folder, self.shards, self.workers, random.choice([2, 5]), 4 * self.shards)
        trace = os.path.join(self.room, "trace")
        call, place = random.choice([("fsync", 7 * self.shards + 4), ("rename", self.shards + 1), ("openat", 6 * self.shards + 4)])
        inject = f"{call}:signal=KILL:when={random.randint(1, place)}" if is_killed else None
        answer = traced.drive(self.settings, inject=inject, trace=trace)
        if not is_killed and not answer.is_yes:
            fail(f"a drive that is recorded did not go well: {answer}")
        return trace

    def go_through(self, trace, chance):
        for call, begins in traced.events(trace):
            self.machine.take(call, begins)
            is_turn = call.name in ("rename", "unlink", "ftruncate") or (call.name == "fsync" and not begins)
            if random.random() < (chance * 4 if is_turn else chance):
                self.judge(f"{call.name} of {os.path.basename(trace)}")
        self.machine.closed()
        for name, inode in self.machine.names.items():
            with open(os.path.join(self.folder, name), "rb") as file:
                if file.read() != inode.seen():
                    fail(f"the trace tells otherwise of {name} than the file")

    def judge(self, moment):
        image = tempfile.mkdtemp(dir=self.room)
        self.machine.write_image(image)
        self.images += 1
        kept = {}
        for inode in set(self.machine.names.values()) | set(self.machine.synced.values()):
            found = traced.records(inode.synced)
            for name in [name for name, held in self.machine.names.items() if held is inode and found]:
                kept[name.removesuffix(".new")] = found
        self.compare(image, kept, moment)
        logs = traced.logs_of(image, self.shards)
        are_there = all(os.path.exists(log) for log in logs)
        if are_there:
            found = traced.verdict(image, self.shards, self.no_lines)
            if found != "yes":
                fail(f"at {moment} an image is judged {found!r}")
        if not are_there or random.random() < 0.05:
            self.drive_on(image, kept, moment)
        shutil.rmtree(image)

    def compare(self, image, kept, moment):
        for name, found in kept.items():
            there = traced.records_in(os.path.join(image, name))
            if there[: len(found)] != found:
                fail(f"at {moment} {len(found)} records of {name} were synced, and an image has {len(there)}")

    def drive_on(self, image, kept, moment):
        settings = os.path.join(self.room, "image.settings")
        traced.settings(settings, image, self.shards, 1, 2, 4 * self.shards)
        answer = traced.drive(settings)
        self.driven += 1
        if not answer.is_yes:
            fail(f"at {moment} an image is driven on with {answer}; it has {sorted(os.listdir(image))}")
        self.compare(image, kept, moment)


def main():
    traced.need_tools("power_cuts")
    random.seed(SEED)
    began, images, driven, drives, shown, groups, most = time.time(), 0, 0, 0, set(), set(), 0
    while images < IMAGES and time.time() - began < SECONDS:
        room = tempfile.mkdtemp()
        try:
            one = Round(room)
            shown.add(one.shards)
            for number in range(random.randint(1, 3)):
                trace = one.record(number == 0 and random.random() < 0.6)
                one.go_through(trace, 0.05)
                drives += 1
            images += one.images
            driven += one.driven
            groups |= one.machine.groups
            most = max(most, one.workers)
        finally:
            shutil.rmtree(room)
    if most >= 16 and max(groups) < 2:
        fail(f"drives of up to {most} workers have logged no group of two records")
    print(
        f"power_cuts: {images} images of {drives} drives over {min(shown)} to {max(shown)} shards, {driven} driven on, groups of up to "
        f"{max(groups)} records: each synced record stands, and each verdict is yes"
    )


if __name__ == "__main__":
    main()
