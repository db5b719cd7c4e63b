#!/usr/bin/env python3
"""Draws a run as SVG, from a schedule and the report that `play` prints of it; or what the logs of a store hold:

    ./run play FILE > REPORT
    scripts/picture.py FILE REPORT > PICTURE.svg
    scripts/picture.py [--last N] LOG.. > PICTURE.svg

Sessions and shards are lines, from the top down, an event a row. Messages are arrows, from the event that put them out to each that they are
delivered in. Beside a shard stand the records of its log, each at the event that logged it. A dark bar is a commit wait, from the decision to
its settling, and a light one a promise, until its outcome. The legend tells this too.

Of logs (shard 0, 1 and so on, as `inspect` takes them) the last N records of each are drawn, 12 if nothing is said. Which record of one log
came before which of another one no log tells: a promise stands above the decision, and the decision above the outcomes; the rest goes by
timestamps. A picture is drawn for a page of 880 pixels: its letters have 12 there, with up to two sessions and two shards.
"""
import html
import os
import subprocess
import sys

# The size of letters, and lengths in pixels: a row, what stands above the rows, and the columns of times, of words, of sessions and of shards.
FONT, ROW, TOP, TIMES, SAYS, LANE, SHARD = 12, 32, 60, 62, 190, 66, 230
# How many letters of a record and of words stand on one line, and how wide a letter of a record is.
WRAP, LETTER = 27, 7.25
KINDS = {
    "prepare": ("prepare", "abort"),
    "commit": ("commit", "abort"),
    "vote": ("commit", "abort"),
    "outcome": ("outcome",),
    "giveup": ("abort",),
    "ask": ("abort",),
}


class Event:
    """An event of a schedule, with what the report says of it."""

    def __init__(self, number, line):
        self.number, words = number, line.split()
        self.time, self.words, self.text = words[0], words[1:], " ".join(words[1:])
        self.reply, self.puts, self.record, self.message, self.lane = "", [], None, None, None

    def inner(self):
        """What a shard was to do: the words behind `crash S N C` and `fail S N`."""
        skip = {"crash": 4, "fail": 3}.get(self.words[0], 0)
        return self.words[skip:] if len(self.words) > skip else self.words


def read(schedule, report):
    """The events with their replies, the messages by number, and the logs by shard."""
    shards, events = 0, []
    for line in schedule:
        words = line.split()
        if words and words[0] == "shards":
            shards = int(words[1])
        elif words and words[0] not in ("split", "stride"):
            events.append(Event(len(events), line))
    messages, logs, at, log = {}, {}, None, None
    for line in report:
        words = line.split()
        if words[0] == "event":
            at = events[int(words[1])]
            at.reply = " ".join(words[2:])
        elif words[0] == "put":
            message = (words[2] + " " + words[3], words[4:], at)
            messages[int(words[1])] = message
            at.puts.append(message)
        elif words[0] == "log":
            log = logs.setdefault(int(words[1]), [])
        elif words[0] in ("lines", "verdict"):
            log = None
        elif log is not None:
            log.append(words)
    return shards, events, messages, logs


def place(events, messages):
    """The lane of each event: where it happens."""
    for event in events:
        words = event.inner()
        if words[0] == "deliver":
            event.message = messages.get(int(words[1]))
            event.lane = event.message[0] if event.message else None
        elif words[0] in ("begin", "read", "write", "erase", "close", "quit"):
            event.lane = "session " + words[1]
        elif words[0] == "look" and len(words) == 4:
            event.lane = "shard " + words[1]
        else:
            event.lane = "shard " + event.words[1]


def is_kept(event):
    """Whether the record of an event that was cut off by a crash is in the log behind it."""
    if event.words[0] != "crash" or len(event.words) < 5:
        return event.reply.startswith("ok")
    call, fate = int(event.words[2]), event.words[3]
    return call >= 4 or (call >= 2 and fate == "new")


def logs_it(event, record, votes):
    """Whether the event is the one that logged the record."""
    words, kind = event.inner(), record[0]
    if words[0] == "open":
        return kind == "opened"
    if words[0] == "advance":
        return kind == "ceiling"
    if words[0] == "forget":
        return kind == "horizon" and record[1] == words[2]
    if words[0] == "settle":
        return kind == "outcome" and record[1] == words[2]
    if words[0] == "resume":
        return kind in ("prepare", "commit")
    if words[0] != "deliver" or not event.message:
        return False
    body = event.message[1]
    txn = body[2] if body[0] in ("vote", "outcome", "ask") else body[1]
    if kind not in KINDS.get(body[0], ()) or record[1] != txn:
        return False
    if kind == "commit":
        others = [part for part in record[3].split(",") if "shard " + part != event.lane]
        if body[0] == "commit":
            return not others
        votes.setdefault(txn, set()).add(body[1])
        return all(part in votes[txn] for part in others)
    return True


def match(events, logs):
    """Each record goes to the event that logged it."""
    for shard, log in logs.items():
        rest, votes = log[1:], {}
        for event in events:
            if rest and event.lane == f"shard {shard}" and is_kept(event) and logs_it(event, rest[0], votes):
                event.record = rest.pop(0)


def wrapped(words):
    """A text on one line or two."""
    if len(words) <= WRAP:
        return [words]
    cut = words.rfind(" ", 0, WRAP + 1)
    if cut < 0:
        cut = words.rfind(",", 0, WRAP)
    return [words[:cut + 1].strip(), words[cut + 1:]] if cut > 0 else [words]


class Picture:
    def __init__(self, lanes, rows, legend):
        self.x, x = {}, TIMES + SAYS + 34
        for lane in lanes:
            self.x[lane] = x
            x += SHARD if lane.startswith("shard") else LANE
        self.width, self.rows = max(x, 600), rows
        self.height = TOP + ROW * rows + 24 + 22 * len(legend)
        self.below, self.above = [], []
        for number, (mark, words) in enumerate(legend):
            y = TOP + ROW * rows + 30 + 22 * number
            self.above.append(mark(20, y))
            self.text(48, y + 4, words)

    def y(self, row):
        return TOP + ROW * row + 16

    def line(self, x1, y1, x2, y2, style):
        self.below.append(line_at(x1, y1, x2, y2, style))

    def text(self, x, y, words, style=""):
        self.above.append(f'<text x="{x}" y="{y}" {style}>{html.escape(words)}</text>')

    def label(self, x, y, words, style=""):
        """A text of one line or two, over what it covers."""
        lines = wrapped(words)
        first = y - (len(lines) - 1) * 7
        width = max(len(line) for line in lines) * LETTER + 2
        self.above.append(f'<rect x="{x - 2}" y="{first - 11}" width="{width:.0f}" height="{15 * len(lines)}" fill="#fff"/>')
        for number, line in enumerate(lines):
            self.text(x, first + 14 * number, line, style)

    def bar(self, lane, first, last, shade):
        y = self.y(first)
        self.below.append(bar_at(self.x[lane], y, self.y(last) - y, shade))

    def svg(self):
        return "\n".join([
            f'<svg xmlns="http://www.w3.org/2000/svg" viewBox="0 0 {self.width} {self.height}" font-family="sans-serif" font-size="{FONT}">',
            "<style>.time{fill:#666}.record{font-family:monospace}.no{fill:#b00}</style>",
            '<defs><marker id="head" markerWidth="8" markerHeight="8" refX="7" refY="3" orient="auto">'
            '<path d="M0,0 L7,3 L0,6 z" fill="#06c"/></marker></defs>',
            f'<rect width="{self.width}" height="{self.height}" fill="#fff"/>',
        ] + self.below + self.above + ["</svg>"])


def line_at(x1, y1, x2, y2, style):
    return f'<line x1="{x1}" y1="{y1}" x2="{x2}" y2="{y2}" {style}/>'


def bar_at(x, y, height, shade):
    return f'<rect x="{x - 6}" y="{y}" width="12" height="{height}" rx="3" fill="{shade}"/>'


def dot_at(x, y, shade):
    return f'<circle cx="{x}" cy="{y}" r="4.5" fill="{shade}" stroke="#fff" stroke-width="2"/>'


def cross_at(x, y):
    style = 'stroke="#b00" stroke-width="2"'
    return line_at(x - 6, y - 6, x + 6, y + 6, style) + line_at(x - 6, y + 6, x + 6, y - 6, style)


ARROW, LOST, DOWN = 'stroke="#06c" marker-end="url(#head)"', 'stroke="#06c" stroke-dasharray="2 3"', 'stroke="#b00" stroke-dasharray="2 4"'
WAIT, PROMISE = "#345", "#9bd"
BARS = [
    (lambda x, y: bar_at(x, y - 8, 16, WAIT), "commit wait: from the decision until the clock has passed its timestamp"),
    (lambda x, y: bar_at(x, y - 8, 16, PROMISE), "promise: from the vote until the shard knows the outcome"),
]
MARKS = [
    (lambda x, y: dot_at(x, y, "#222"), "an event; a red one was refused"),
    (lambda x, y: line_at(x - 12, y, x + 12, y, ARROW), "a message, from the event that sends it to the one that takes it"),
    (lambda x, y: line_at(x - 12, y, x + 12, y, LOST), "a message that nobody takes here"),
] + BARS
CRASHES = [
    (cross_at, "a crash"),
    (lambda x, y: line_at(x, y - 10, x, y + 10, DOWN), "the shard is down"),
]


def draw(shards, events, messages, logs):
    sessions = []
    for event in events:
        if event.lane and event.lane.startswith("session") and event.lane not in sessions:
            sessions.append(event.lane)
    crashes = CRASHES if any(event.words[0] == "crash" for event in events) else []
    picture = Picture(sessions + [f"shard {n}" for n in range(shards)], len(events), MARKS + crashes)
    head(picture, "event")
    for shard, log in logs.items():
        if log:
            picture.label(picture.x[f"shard {shard}"] + 14, 50, " ".join(log[0]), 'class="record"')
    bars(picture, events)
    for event in events:
        arrows(picture, event, events)
    for event in events:
        dot(picture, event)
    return picture.svg()


def head(picture, says):
    """The words above the columns, and a line for each session and each shard."""
    picture.text(8, 24, "\u00b5s", 'class="time"')
    picture.text(TIMES, 24, says, 'class="time"')
    for lane, x in picture.x.items():
        picture.text(x, 24, lane, 'text-anchor="middle" font-weight="bold"')
        picture.line(x, 32, x, TOP + ROW * picture.rows + 8, 'stroke="#999"')


def bars(picture, events):
    """Promises, commit waits, and the time in which a shard is down."""
    begun, down = {}, {}
    for event in events:
        if event.words[0] == "crash":
            down[event.lane] = event.number
        elif event.inner()[0] == "open" and event.reply.startswith("ok") and event.lane in down:
            row = down.pop(event.lane)
            picture.line(picture.x[event.lane], picture.y(row), picture.x[event.lane], picture.y(event.number), 'stroke="#fff" stroke-width="4"')
            picture.line(picture.x[event.lane], picture.y(row), picture.x[event.lane], picture.y(event.number), DOWN)
        if not event.record:
            continue
        kind, key = event.record[0], (event.lane, event.record[1])
        if kind in ("prepare", "commit"):
            begun[key] = (event.number, kind)
        elif kind == "outcome" and key in begun:
            row, kind = begun.pop(key)
            picture.bar(event.lane, row, event.number, WAIT if kind == "commit" else PROMISE)
    for (lane, _), (row, kind) in begun.items():
        picture.bar(lane, row, picture.rows, WAIT if kind == "commit" else PROMISE)


def arrows(picture, event, events):
    for to, body, put in event.puts:
        x1, y1 = picture.x[event.lane], picture.y(event.number)
        ends = [other for other in events if other.message and other.message[1] is body]
        for end in ends:
            picture.line(x1, y1, picture.x[to], picture.y(end.number), ARROW)
        if to in picture.x and not ends:
            towards = x1 + (24 if picture.x[to] > x1 else -24)
            picture.line(x1, y1, towards, y1 + 12, LOST)


def dot(picture, event):
    y = picture.y(event.number)
    picture.text(8, y + 4, event.time, 'class="time"')
    says = event.text
    if event.message:
        says = f"{event.message[1][0]} comes" + (f", at {' '.join(event.words[-2:])}" if event.lane.startswith("shard") else "")
    bad = event.reply.startswith("refused") or event.reply == "crashed"
    if event.reply not in ("ok", ""):
        says += "  " + event.reply
    picture.label(TIMES, y + 4, says, 'class="no"' if bad else "")
    if event.lane not in picture.x:
        return
    x = picture.x[event.lane]
    picture.above.append(cross_at(x, y) if event.words[0] == "crash" else dot_at(x, y, "#b00" if bad else "#222"))
    if event.record:
        picture.label(x + 14, y + 4, " ".join(event.record), 'class="record"')


class Kept:
    """A record of a log: its shard, its place there, its words, and what it tells of a transaction."""

    def __init__(self, shard, place, words):
        self.shard, self.place, self.words = shard, place, words
        self.kind, self.txn, self.row = words[0], None, 0
        if self.kind in ("prepare", "commit", "abort", "outcome", "settled", "closed"):
            self.txn = words[1]

    def at(self):
        """Its timestamp, or none."""
        place = {"ceiling": 1, "prepare": 3, "commit": 2, "outcome": 3, "horizon": 1, "base": 2, "version": 1, "settled": 2, "closed": 4}.get(self.kind)
        return self.words[place] if place and place < len(self.words) and self.words[place].isdigit() else ""


def dumped(path, shard, last):
    """The last records of a log."""
    run = os.path.join(os.path.dirname(os.path.dirname(os.path.abspath(__file__))), "run")
    lines = subprocess.run([run, "dump", "--", path], stdout=subprocess.PIPE, check=True, text=True).stdout.splitlines()
    records = [Kept(shard, place, line.split()[1:]) for place, line in enumerate(lines[:-1])]
    return records[-last:]


def may_go(record, left):
    """Whether no record that is left has to stand above this one."""
    above = {"commit": ("prepare",), "outcome": ("prepare", "commit"), "abort": ("prepare",)}.get(record.kind, ())
    return not any(other.txn == record.txn and other.kind in above for log in left for other in log if other is not record)


def merged(logs):
    """The records of all logs, in an order that each log and each transaction keeps."""
    left, rows, reached = [list(log) for log in logs], [], [0] * len(logs)
    while any(left):
        heads = [log[0] for log in left if log]
        free = [head for head in heads if may_go(head, left)] or heads
        record = min(free, key=lambda head: (int(head.at() or reached[head.shard]), head.shard))
        reached[record.shard] = max(reached[record.shard], int(record.at() or 0))
        left[record.shard].pop(0)
        record.row = len(rows)
        rows.append(record)
    return rows


def draw_logs(logs):
    rows = merged(logs)
    marks = [(lambda x, y: dot_at(x, y, "#222"), "a record of the log"), MARKS[1]] + BARS
    picture = Picture([f"shard {n}" for n in range(len(logs))], len(rows), marks)
    head(picture, "record")
    begun = {}
    for record in rows:
        lane, y = f"shard {record.shard}", picture.y(record.row)
        if record.kind in ("prepare", "commit"):
            begun[(lane, record.txn)] = record
        elif (lane, record.txn) in begun:
            first = begun.pop((lane, record.txn))
            picture.bar(lane, first.row, record.row, WAIT if first.kind == "commit" else PROMISE)
        for other in rows:
            votes = record.kind == "prepare" and other.kind == "commit" and int(record.words[2]) == other.shard
            tells = record.kind == "commit" and other.kind == "outcome" and other.shard != record.shard
            if other.txn == record.txn and other.row > record.row and (votes or tells):
                picture.line(picture.x[lane], y, picture.x[f"shard {other.shard}"], picture.y(other.row), ARROW)
    for (lane, _), first in begun.items():
        picture.bar(lane, first.row, len(rows), WAIT if first.kind == "commit" else PROMISE)
    for record in rows:
        x, y = picture.x[f"shard {record.shard}"], picture.y(record.row)
        picture.text(8, y + 4, record.at()[-7:], 'class="time"')
        picture.label(TIMES, y + 4, " ".join(record.words[:2]))
        picture.above.append(dot_at(x, y, "#222"))
        picture.label(x + 14, y + 4, " ".join(short(word) for word in record.words), 'class="record"')
    return picture.svg()


def short(word):
    """A timestamp of a real store by its last seven digits."""
    return word[-7:] if word.isdigit() and len(word) > 12 else word


def is_log(path):
    with open(path, "rb") as file:
        return file.read(6) == b"SPNLOG"


def main():
    words, last = sys.argv[1:], 12
    if words[:1] == ["--last"] and len(words) > 2 and words[1].isdigit():
        last, words = int(words[1]), words[2:]
    if words and all(os.path.isfile(word) and is_log(word) for word in words):
        print(draw_logs([dumped(path, shard, last) for shard, path in enumerate(words)]))
        return
    if len(words) != 2:
        sys.exit("usage: scripts/picture.py SCHEDULE REPORT > PICTURE.svg\n       scripts/picture.py [--last N] LOG.. > PICTURE.svg")
    with open(words[0]) as schedule, open(words[1]) as report:
        shards, events, messages, logs = read(schedule.read().splitlines(), report.read().splitlines())
    place(events, messages)
    match(events, logs)
    print(draw(shards, events, messages, logs))


if __name__ == "__main__":
    main()
