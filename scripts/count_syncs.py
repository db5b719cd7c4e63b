#!/usr/bin/env python3
"""Counts the calls of fsync in drives over files: two for each group of records that is logged, two for each log that is made and one for each
opening. A group is one record or more, and its gate is opened by a write of one byte. A drive of 64 workers has to log larger groups. And the folder
is synced behind the last name that is given and before the first record is logged, also by a drive that finds all logs. A second drive goes on with
the bytes that the first one left. Each file is written and synced in turn: what was written has been synced before more is. And `format` does so with
the file that it makes, and syncs the folder then. It wants the program built and strace; without that it says so and ends well."""
import os
import re
import sys
import tempfile

import traced

SHARDS = 2


def fail(why):
    print(f"count_syncs: {why}", file=sys.stderr)
    sys.exit(1)


class Opened:
    """A file as one call opened it: its path, and what was done to it in order: written or cut (w), and synced (s)."""

    def __init__(self, path):
        self.path, self.order = path, ""


# A write may be several calls, and one sync stands before the next. A sync that is left out, and made up for by two, is another order.
TURNS = re.compile("s?(w+s)*s?")


def calls_of(trace, name):
    """The calls of a trace that came back well, in order, each with the file that it opens, writes, cuts or syncs. Files have their turns."""
    calls, files, opened = [], {}, []
    for call, begins in traced.events(trace):
        if begins or call.result is None or call.result < 0:
            continue
        file = None
        if call.name == "openat":
            file = files[call.result] = Opened(call.text(0).decode())
            opened.append(file)
        elif call.name in ("fsync", "ftruncate", "pwrite64"):
            file = files[call.number(0)]
            file.order += "s" if call.name == "fsync" else "w"
        calls.append((call, file))
    for file in opened:
        if "w" in file.order and not TURNS.fullmatch(file.order):
            fail(f"{name}: {file.path} is not written and synced in turn, but {file.order}")
    return calls


def one_format(room):
    """Formats a log. Its two writes are synced, and so is its folder, once it is there."""
    folder = os.path.realpath(os.path.join(room, "made"))
    os.mkdir(folder)
    log, trace = os.path.join(folder, "shard-0.log"), os.path.join(room, "trace")
    ran = traced.run(traced.by_strace([traced.PROGRAM, "format", log], trace=trace))
    if ran.returncode or ran.stdout or ran.stderr:
        fail(f"format: status {ran.returncode}, {ran.stdout!r}, {ran.stderr!r}")
    calls = calls_of(trace, "format")
    made = next((place for place, (call, file) in enumerate(calls) if call.name == "openat" and file.path == log), len(calls))
    synced = [os.path.realpath(file.path) for call, file in calls[made:] if call.name == "fsync"]
    if folder not in synced or synced.count(log) != 2:
        fail(f"format: behind the making of {log} these are synced: {synced}")


def one_drive(room, folder, settings, name):
    """Drives, and compares the calls with the records that were added."""
    before = [traced.records_in(path) for path in traced.logs_of(folder, SHARDS)]
    made = [not os.path.exists(path) for path in traced.logs_of(folder, SHARDS)]
    trace = os.path.join(room, "trace")
    answer = traced.drive(settings, trace=trace)
    if not answer.is_yes:
        fail(f"{name} did not go well: {answer}")
    synced, order, groups = {}, [], {}
    for call, file in calls_of(trace, name):
        if call.name == "fsync":
            path = file.path
            place = "folder" if os.path.realpath(path) == folder else os.path.basename(path).removesuffix(".new")
            synced[place] = synced.get(place, 0) + 1
            order.append(place)
        elif call.name == "rename":
            order.append("name")
        elif call.name == "pwrite64" and call.number(3) > 9 and call.number(2) > 1:
            order.append("record")
        elif call.name == "pwrite64" and call.number(3) >= traced.FIRST_GATE and call.number(2) == 1:
            log = os.path.basename(file.path).removesuffix(".new")
            groups[log] = groups.get(log, 0) + 1
    for shard, path in enumerate(traced.logs_of(folder, SHARDS)):
        after = traced.records_in(path)
        if after[: len(before[shard])] != before[shard] or len(after) == len(before[shard]):
            fail(f"{name}: the log of shard {shard} does not begin with what was there, or has nothing more")
        # Two of the making, that of the opening, that of the judging, and two for each group.
        joined = groups.get(f"shard-{shard}.log", 0)
        if not 0 < joined <= len(after) - len(before[shard]):
            fail(f"{name}: {joined} groups of {len(after) - len(before[shard])} records join the log of shard {shard}")
        wanted = 2 * joined + 2 * made[shard] + 2
        if synced.get(f"shard-{shard}.log", 0) != wanted:
            fail(f"{name}: {synced.get(f'shard-{shard}.log', 0)} syncs of the log of shard {shard}, and not {wanted}")
    first = order.index("record") if "record" in order else len(order)
    last = max((place for place, what in enumerate(order[:first]) if what == "name"), default=-1)
    if "folder" not in order[last + 1 : first] or "name" in order[first:]:
        fail(f"{name}: the folder is not synced between the last name and the first record")
    records = sum(len(traced.records_in(path)) for path in traced.logs_of(folder, SHARDS)) - sum(map(len, before))
    opened = [body for body in traced.records_in(traced.logs_of(folder, SHARDS)[0]) if body[:1] == b"\x01"]
    return sum(synced.values()), len(opened), records / sum(groups.values())


def main():
    traced.need_tools("count_syncs")
    with tempfile.TemporaryDirectory() as room:
        folder = os.path.realpath(os.path.join(room, "logs"))
        os.mkdir(folder)
        settings = os.path.join(room, "settings")
        traced.settings(settings, folder, SHARDS, 2, 10, 8)
        first, runs, _ = one_drive(room, folder, settings, "a drive that makes its logs")
        second, more, _ = one_drive(room, folder, settings, "a drive that finds them")
        if (runs, more) != (1, 2):
            fail(f"the logs were opened {runs} and {more} times")
        crowded = os.path.realpath(os.path.join(room, "crowded"))
        os.mkdir(crowded)
        traced.settings(settings, crowded, SHARDS, 64, 10, 640)
        third, _, size = one_drive(room, crowded, settings, "a drive of many workers")
        if size <= 1:
            fail(f"a drive of 64 workers logs {size} records a group")
        one_format(room)
        print(
            f"count_syncs: {first}, {second} and {third} syncs, two for each group; with 64 workers a group has {size:.1f} records; "
            "the second drive went on with run 2; format synced its folder"
        )


main()
