"""Judges a history of a store from outside: what its clients did and were told, and the versions that its logs hold in the end.

`breaches` names each rule that the history breaks. It knows nothing of the store but what is promised to those who use it."""

import bisect
import collections
import copy
import dataclasses


@dataclasses.dataclass
class Attempt:
    """A transaction that ran once. Each value has a tag that is written once, so a read names its writer."""
    client: int
    life: int  # which start of the program
    began: float  # seconds, before its first line was sent
    reads: dict = dataclasses.field(default_factory=dict)  # of each key that it read the tag, or None for no value
    writes: dict = dataclasses.field(default_factory=dict)  # of each key that it wrote the tag, or None for an erasure
    id: str = None
    end: str = "unknown"  # or committed, or aborted
    at: int = None
    ended: float = None  # seconds, after its end was told; None if it never was


@dataclasses.dataclass
class View:
    """A snapshot: what it read of keys at its timestamp, as tags."""
    client: int
    life: int
    began: float
    at: int
    reads: dict
    ended: float


@dataclasses.dataclass
class History:
    """What clients saw, and of each key the versions in the logs: timestamp, id (None in a renewed log) and tag (None of an erasure), in order."""
    attempts: list
    views: list
    versions: dict
    runs: list  # the number of ids of each life


def newest(versions, below):
    """The tag of the newest version whose timestamp is below this one."""
    place = bisect.bisect_left(versions, below, key=lambda version: version[0])
    return versions[place - 1][2] if place else None


def _placed(history, say):
    """Where each attempt stands in the logs: for each key that it wrote, the timestamps of its versions."""
    by_tag = {(key, tag): attempt for attempt in history.attempts for key, tag in attempt.writes.items() if tag}
    by_id = {attempt.id: attempt for attempt in history.attempts if attempt.id}
    erased = {(key, attempt.at): attempt for attempt in history.attempts for key, tag in attempt.writes.items() if not tag and attempt.at}
    placed = collections.defaultdict(lambda: collections.defaultdict(list))
    for key, versions in history.versions.items():
        for (at, txn, tag), (after, *_) in zip(versions, versions[1:] + [(None,)]):
            if at == after:
                say("twice", f"{key} has two versions at {at}")
            writer = by_tag.get((key, tag)) if tag else by_id.get(txn) or erased.get((key, at))
            if writer is None and (tag or txn):
                say("nowhere", f"nobody wrote {tag} to {key} at {at}")
            elif writer is not None:
                placed[id(writer)][key].append(at)
                if txn and txn != writer.id:
                    say("id", f"{key} at {at} is of {txn}, and {writer.id} wrote it")
    return placed


def _standing(history, say):
    """The attempts that stand, each with its timestamp. Who committed stands at the timestamp told, who aborted nowhere, another whole or nowhere."""
    placed, standing = _placed(history, say), []
    for attempt in history.attempts:
        places = placed[id(attempt)]
        found = {at for ats in places.values() for at in ats}
        if attempt.end == "aborted" and found:
            say("aborted", f"{attempt.id} was told aborted, and stands at {found}")
        elif attempt.end == "committed":
            wrong = [key for key in attempt.writes if places.get(key) != [attempt.at]]
            if wrong:
                say("lost", f"{attempt.id} committed at {attempt.at}, and {wrong} have {places}")
            standing.append((attempt.at, attempt))
        elif attempt.end == "unknown" and found:
            whole = {key for key, tag in attempt.writes.items() if tag or key in places}
            if len(found) > 1 or any(len(places.get(key, [])) != 1 for key in whole):
                say("torn", f"{attempt.id} is unknown, and stands in part: {dict(places)} of {list(attempt.writes)}")
            standing.append((min(found), attempt))
    return standing


def _judge_ids(history, say):
    counts = collections.Counter(attempt.id for attempt in history.attempts if attempt.id)
    for txn in [txn for txn, count in counts.items() if count > 1]:
        say("id", f"{txn} was given twice")
    for earlier, later in zip(history.runs, history.runs[1:]):
        if later <= earlier:
            say("run", f"run {later} comes after run {earlier}")
    for attempt in history.attempts:
        if attempt.id and int(attempt.id.partition(".")[0]) != history.runs[attempt.life]:
            say("run", f"{attempt.id} was given in a life of run {history.runs[attempt.life]}")


def _judge_reads(history, standing, say):
    for at, attempt in standing:
        for key, tag in attempt.reads.items():
            right = newest(history.versions.get(key, []), at)
            if tag != right:
                say("read", f"{attempt.id} at {at} read {tag} of {key}, which was {right}")
    for view in history.views:
        for key, tag in view.reads.items():
            right = newest(history.versions.get(key, []), view.at + 1)
            if tag != right:
                say("view", f"a view at {view.at} shows {tag} of {key}, which was {right}")


class _Greatest:
    """The greatest timestamp of what had ended before a moment."""

    def __init__(self, ends):
        ends = sorted(ends)
        self.moments, self.greatest, most = [moment for moment, _ in ends], [], 0
        for _, at in ends:
            most = max(most, at)
            self.greatest.append(most)

    def before(self, moment):
        place = bisect.bisect_left(self.moments, moment)
        return self.greatest[place - 1] if place else 0


def _judge_time(history, standing, say):
    acknowledged = _Greatest([(attempt.ended, at) for at, attempt in standing if attempt.end == "committed"])
    viewed = _Greatest([(view.ended, view.at) for view in history.views])
    for at, attempt in standing:
        if at <= max(acknowledged.before(attempt.began), viewed.before(attempt.began)):
            say("time", f"{attempt.id} stands at {at}, and what had ended before it began does not lie below that")
    for view in history.views:
        if view.at < max(acknowledged.before(view.began), viewed.before(view.began)):
            say("viewtime", f"a view stands at {view.at}, below what had ended before it was opened")


def _edges(history, standing):
    """The order that must hold among what stands and views, by what was read, by who wrote over it, and by real time; no timestamp is looked at."""
    stands = {id(attempt) for _, attempt in standing}
    nodes = [attempt for attempt in history.attempts if id(attempt) in stands] + history.views
    writer, over = {}, {}
    for number, node in enumerate(nodes):
        for key, tag in getattr(node, "writes", {}).items():
            writer[key, tag] = number
            if node.reads.get(key):
                over.setdefault((key, node.reads[key]), []).append(number)
    after = [set() for _ in range(2 * len(nodes))]
    for number, node in enumerate(nodes):
        for key, tag in node.reads.items():
            if tag and (key, tag) in writer:
                after[writer[key, tag]].add(number)
                after[number].update(over.get((key, tag), []))
        after[number].discard(number)
    # The moments at which something ended stand in a chain: each end leads to its moment, and the last moment before a beginning to it.
    ended = sorted((node.ended, number) for number, node in enumerate(nodes) if node.ended is not None)
    moments = [moment for moment, _ in ended]
    for place, (_, number) in enumerate(ended):
        after[number].add(len(nodes) + place)
        if place + 1 < len(ended):
            after[len(nodes) + place].add(len(nodes) + place + 1)
    for number, node in enumerate(nodes):
        place = bisect.bisect_left(moments, node.began)
        if place:
            after[len(nodes) + place - 1].add(number)
    return after


def _has_cycle(after):
    """Whether the edges have a cycle: what can be taken away in order, by counts of what leads to it, leaves nothing if there is none."""
    counts = collections.Counter(later for nodes in after for later in nodes)
    free, gone = [number for number in range(len(after)) if not counts[number]], 0
    while free:
        number, gone = free.pop(), gone + 1
        for later in after[number]:
            counts[later] -= 1
            if not counts[later]:
                free.append(later)
    return gone < len(after)


def breaches(history):
    """What the history breaks: pairs of a rule's name and what was found."""
    found = []

    def say(rule, words):
        found.append((rule, words))

    standing = _standing(history, say)
    _judge_ids(history, say)
    _judge_reads(history, standing, say)
    _judge_time(history, standing, say)
    if _has_cycle(_edges(history, standing)):
        say("cycle", "by reads, writes and real time alone some transactions and views have no order")
    return found


# ---- Planted faults: each changes a copy of a history, and says whether it found a place to.

def _two_of(draw, items):
    return draw.sample(items, 2) if len(items) > 1 else None


def _committed(history, fits=lambda attempt: True):
    return [attempt for attempt in history.attempts if attempt.end == "committed" and fits(attempt)]


def _drop(history, attempt, keys):
    for key in keys:
        history.versions[key] = [version for version in history.versions[key] if version[0] != attempt.at]


def swap_reads(history, draw):
    pairs = [(attempt, key, other) for attempt in _committed(history) for key in attempt.reads for other in attempt.reads
             if attempt.reads[key] != attempt.reads[other]]
    if pairs:
        attempt, key, other = draw.choice(pairs)
        attempt.reads[key], attempt.reads[other] = attempt.reads[other], attempt.reads[key]
    return bool(pairs)


def lose_a_commit(history, draw):
    attempt = draw.choice(_committed(history, lambda it: it.writes))
    _drop(history, attempt, attempt.writes)
    return True


def lose_the_last_before_a_kill(history, draw):
    lives = [life for life in range(len(history.runs) - 1) if _committed(history, lambda it: it.life == life and it.writes)]
    if lives:
        life = draw.choice(lives)
        last = max(_committed(history, lambda it: it.life == life and it.writes), key=lambda it: it.at)
        _drop(history, last, last.writes)
    return bool(lives)


def tear(history, draw):
    attempt = draw.choice(_committed(history, lambda it: len(it.writes) > 1))
    _drop(history, attempt, list(attempt.writes)[:1])
    return True


def tear_an_unknown(history, draw):
    attempt = draw.choice(_committed(history, lambda it: sum(map(bool, it.writes.values())) > 1))
    _drop(history, attempt, [next(key for key, tag in attempt.writes.items() if tag)])
    attempt.end = "unknown"
    return True


def tell_aborted(history, draw):
    draw.choice(_committed(history, lambda it: any(it.writes.values()))).end = "aborted"
    return True


def _retime(history, attempt, at):
    for key in attempt.writes:
        versions = [(at if version[0] == attempt.at else version[0], *version[1:]) for version in history.versions[key]]
        history.versions[key] = sorted(versions, key=lambda version: version[0])
    attempt.at = at


def _read_and_written_over(history):
    """Committed attempts, each with the timestamp at which somebody wrote over what it had read of one of them."""
    writer = {(key, tag): attempt for attempt in _committed(history) for key, tag in attempt.writes.items() if tag}
    return [(writer[key, other.reads[key]], other.at) for other in _committed(history) for key in other.writes
            if (key, other.reads.get(key)) in writer]


def stand_after_the_next(history, draw):
    attempt, after = draw.choice(_read_and_written_over(history))
    _retime(history, attempt, after + 1)
    return True


def stand_with_the_next(history, draw):
    attempt, after = draw.choice(_read_and_written_over(history))
    _retime(history, attempt, after)
    return True


def stand_too_low(history, draw):
    late = sorted(_committed(history, lambda it: it.writes), key=lambda it: it.began)[1:]
    ends = _Greatest([(it.ended, it.at) for it in _committed(history)])
    fits = [it for it in late if ends.before(it.began)]
    attempt = draw.choice(fits)
    _retime(history, attempt, ends.before(attempt.began) - 1)
    return True


def show_half(history, draw):
    places = [(view, key, tag) for view in history.views for key, tag in view.reads.items() if len(history.versions.get(key, [])) > 1]
    view, key, tag = draw.choice(places)
    view.reads[key] = draw.choice([version[2] for version in history.versions[key] if version[2] != tag] or [b"another"])
    return True


def view_the_past(history, draw):
    ends = _Greatest([(it.ended, it.at) for it in _committed(history)])
    view = draw.choice([view for view in history.views if ends.before(view.began)])
    view.at = ends.before(view.began) - 1
    view.reads = {key: newest(history.versions.get(key, []), view.at + 1) for key in view.reads}
    return True


def view_goes_back(history, draw):
    pairs = [(one, other) for one in history.views for other in history.views
             if one.client == other.client and one.life == other.life and one.ended < other.began]
    one, other = draw.choice(pairs)
    other.at, other.reads = one.at - 1, {key: newest(history.versions.get(key, []), one.at) for key in other.reads}
    return True


def give_an_id_twice(history, draw):
    one, other = _two_of(draw, [it for it in history.attempts if it.id])
    one.id = other.id
    return True


def go_on_with_old_ids(history, draw):
    if len(history.runs) > 1:
        history.runs[-1] = history.runs[0]
    return len(history.runs) > 1


def lose_an_update(history, draw):
    places = [(attempt, key) for attempt in _committed(history) for key in attempt.writes
              if attempt.reads.get(key) and any(version[2] == attempt.reads[key] for version in history.versions[key][1:])]
    attempt, key = draw.choice(places)
    tags = [version[2] for version in history.versions[key]]
    attempt.reads[key] = tags[tags.index(attempt.reads[key]) - 1]
    return True


def read_stale(history, draw):
    places = [(attempt, key) for attempt in _committed(history) for key in attempt.reads if key not in attempt.writes and attempt.reads[key]]
    attempt, key = draw.choice(places)
    attempt.reads[key] = None
    return True


def show_what_nobody_wrote(history, draw):
    key = draw.choice([key for key, versions in history.versions.items() if versions])
    place = draw.randrange(len(history.versions[key]))
    history.versions[key][place] = (*history.versions[key][place][:2], b"nobody")
    return True


PLANTED = [
    swap_reads, lose_a_commit, lose_the_last_before_a_kill, tear, tear_an_unknown, tell_aborted, stand_after_the_next, stand_with_the_next, stand_too_low,
    show_half, view_the_past, view_goes_back, give_an_id_twice, go_on_with_old_ids, lose_an_update, read_stale, show_what_nobody_wrote,
]


def planted(history, draw):
    """Plants each fault into a copy of the history. Gives how many were planted, and the names of those that no rule finds."""
    count, missed = 0, []
    for plant in PLANTED:
        other = copy.deepcopy(history)
        try:
            is_planted = plant(other, draw)
        except (IndexError, TypeError, StopIteration):
            is_planted = False  # no place for it in this history
        if is_planted:
            count += 1
            if not breaches(other):
                missed.append(plant.__name__)
    return count, missed
