"""A store of Spanner shards, which its program holds open and serves over lines. Standard library alone; README.md shows its use.
Keys and values are bytes. Threads may share a store: each call takes one of its clients, and waits while all are in use."""

import collections, contextlib, functools, os, queue, re, subprocess, threading, time  # noqa: E401

# A transaction stands at the timestamp `at`, in microseconds. `result` is what its code returned.
Committed = collections.namedtuple("Committed", "at id result", defaults=[None])


class Refused(Exception):
    """The store refused what was asked: the number and the words of a fault. `ended` says whether the transaction or view is over."""
    def __init__(self, words, ended=False):
        super().__init__(words)
        self.number, self.ended = int(re.match("[0-9]*", words).group() or 0), ended


class Unknown(Exception):
    """Nobody said how the transaction ended: it stands whole at one timestamp, or nowhere. `id` is its id, if that was told."""
    id = property(lambda self: self.args[0])


class Aborted(Exception): """The transaction stands nowhere: it was aborted, at each try."""  # noqa: E701


class Closed(Exception): """The store is closed, or its program has ended, and what was asked for changed nothing."""  # noqa: E701


def spelled(data):
    """The word that spells some bytes."""
    return re.sub(rb"[^!-\[\]-~]", lambda found: b"\\x%02x" % found.group()[0], data)


def unspelled(word):
    """The bytes that a word spells."""
    return re.sub(rb"\\x([0-9a-fA-F]{2})", lambda found: bytes([int(found.group(1), 16)]), word)


def _program(program):
    """The words that start the program: as told, as SHARDS_PROGRAM says, or `run` of the repository that has this file."""
    program = program or os.environ.get("SHARDS_PROGRAM") or os.path.join(os.path.realpath(__file__ + "/../../.."), "run")
    return [program] if isinstance(program, (str, os.PathLike)) else list(program)


def _read(answer):
    """What an answer tells, or raises."""
    first, *words = answer.split(b" ")
    values = [unspelled(word[1:]) if word.startswith(b"=") else None for word in [first, *words]]
    if first in (b"fault:", b"ended:"):
        raise Refused(answer.partition(b"fault: ")[2].decode("ascii", "replace"), first == b"ended:")
    if first in (b"aborted", b"unknown"):
        raise Unknown(words[0].decode()) if words else Aborted("aborted")
    if first == b"committed":
        return Committed(int(words[0]), words[1].decode())
    return (values[1], values[2:]) if first == b"page" else values if first == b"none" or first[:1] == b"=" else b" ".join(words).decode()


class _Client:
    """One client of the program. Each of its lines gets one answer, in order. It is one call's at a time."""
    def __init__(self, store, number):
        self.store, self.number = store, b"%d " % number
        self.waiting, self.doubts = collections.deque(), collections.deque(maxlen=16)  # where answers go; the last ids that were `unknown`
        self.held, self.end, self.id = [], None, None  # lines that go with the next; the line that ends what is open; a transaction's id

    def ask(self, *words):
        """Asks for a line, with those that are held, and waits for its answer, also beside one that nobody waits for any more."""
        lines, self.held = [*self.held, words], []
        places = [queue.SimpleQueue() for _ in lines]
        self.store._send(self, [b" ".join([verb, *map(spelled, data)]) for verb, *data in lines], places)
        for answer in reversed([place.get() for place in reversed(places)]):  # the last one alone is waited for
            if answer is None:
                raise Unknown(self.id) if words[0] == b"commit" or words[0] in (b"put", b"erase") and not self.end else Closed(self.store.folder)
            first, _, rest = answer.partition(b" ")
            if first in (b"committed", b"unknown", b"aborted", b"ended", b"ended:"):
                self.end = self.id = None  # nothing is open
            self.id = rest.decode() if first == b"begun" else self.id
            self.doubts.extend([rest.decode()] * (first == b"unknown"))
            told = _read(answer)
        return told

    def close(self):
        """Ends what may be open. If nothing is, the program answers the same."""
        with contextlib.suppress(Aborted, Closed, Refused):
            self.end and self.ask(self.end)


class _Calls:
    def get(self, key):
        """The value of a key, or `None`."""
        return self.get_all(key)[0]

    def get_all(self, *keys):
        """The values of some keys, asked for at once: `None` for each that has none."""
        return self._ask(b"get", *keys)

    def put(self, key, value):
        """Puts a value. Outside of a transaction this commits one, and tells it as `Committed`."""
        return self._ask(b"put", key, value)

    def erase(self, key):
        """Takes the value away, as `put`."""
        return self._ask(b"erase", key)


class _Open(contextlib.AbstractContextManager):
    """A transaction or a view, until it is over. Then no line is sent: the program would serve it by itself."""
    def __init__(self, client, *first):
        self._client, self._over, client.end, client.id = client, None, self._end, None
        self.at = int(client.ask(*first)) if first else None

    def _ask(self, *words):
        if self._over:
            raise self._over
        try:
            return self._client.ask(*words)
        except (Aborted, Refused) as error:
            self._over = error if getattr(error, "ended", True) else None
            raise

    def __exit__(self, *_): self._over = self._over or RuntimeError("this transaction or view is over")  # noqa: E704


class Transaction(_Open, _Calls):
    """A transaction, which begins with the first that is asked of it. `id` is its id. It sees what it has put."""
    _end, id, _writes = b"abort", functools.cached_property(lambda self: self._client.id or self._ask(b"begin")), 0

    def _ask(self, *words):
        # A read goes with the line that begins. A write waits for what came before: if that was refused, it would be a transaction of its own. Then it
        # goes with the next line, also with `commit`, if it keeps the limits: want of memory alone refuses it, and ends the transaction.
        is_write = words[0] in (b"put", b"erase")
        self._writes += is_write
        if words[0] == b"get" and not self._client.id:
            self._client.held = [[b"begin"]]
        elif words[0] != b"begin" and self.id and is_write and self._client.held:
            super()._ask(*self._client.held.pop())
        is_held = is_write and not self._over and self._writes <= 128 and 0 < len(words[1]) <= 64 and len(words[-1]) <= 4096
        return self._client.held.append(words) if is_held else super()._ask(*words)


class View(_Open, _Calls):
    """What stood at one timestamp, `at`, in microseconds. A write in it is refused."""
    _end = b"end"

    def keys(self, first=b"\0", end=b"", limit=1000):
        """A page of the keys from the first on, and before the end unless that is empty: at most `limit`, 1 to 1,000, and maybe none."""
        return self._ask(b"keys", first, end, b"%d" % limit)


class Store(_Calls, contextlib.AbstractContextManager):
    """A store in a folder, open for so many clients (1 to 64). `options` are further words of the program, as ("--idle", "5000")."""
    def __init__(self, folder, clients=64, options=(), program=None):
        self.folder, self._lock, self._is_closed, self._freed = os.fspath(folder), threading.Lock(), False, threading.Condition()
        words = [*_program(program), "serve", self.folder, "--clients", str(clients), *options]
        self.process = subprocess.Popen(words, stdin=subprocess.PIPE, stdout=subprocess.PIPE, start_new_session=True)
        if not self.process.stdout.readline().startswith(b"ready"):
            self.process.communicate()
            raise Closed(f"{self.folder} was not opened (status {self.process.returncode}): standard error has the reason")
        self._clients, self._free = (made := [_Client(self, number) for number in range(clients)]), made[:]
        threading.Thread(target=self._hear, daemon=True).start()

    @staticmethod
    def make(folder, *splits, program=None):
        """Makes an empty store, of one shard more than there are splits. If there is one already, that is refused."""
        made = subprocess.run([*_program(program), "make", os.fspath(folder), *map(spelled, splits)], stdin=subprocess.DEVNULL, capture_output=True)
        if made.returncode:
            raise Refused(made.stderr.decode("utf8", "replace").strip().rpartition("fault: ")[2])

    def _send(self, client, lines, places):
        # A program that has ended answers no more. An interrupt within leaves the store closed, since lines and answers may not match then.
        with self._lock, contextlib.suppress(OSError):
            if self._is_closed:
                raise Closed(self.folder)
            self._is_closed = True
            client.waiting.extend(places)
            self.process.stdin.write(b"".join([client.number + line + b"\n" for line in lines]))
            self.process.stdin.flush()
            self._is_closed = False

    def _hear(self):
        """Puts each answer where it is waited for, until there are no more. A line that was cut off is none."""
        try:
            for line in self.process.stdout:
                number, _, answer = line.partition(b" ")
                if answer.endswith(b"\n"):
                    self._clients[int(number)].waiting.popleft().put(answer[:-1])
        finally:
            with self._lock, self.process.stdout:
                self._is_closed = True
                for place in [place for client in self._clients for place in client.waiting]:
                    place.put(None)

    @contextlib.contextmanager
    def _client(self, wanted=()):
        with self._freed:
            client = self._freed.wait_for(lambda: [one for one in self._free if one in wanted] if wanted else self._free)[-1]
            self._free.remove(client)
        try:
            client.close()
            with contextlib.closing(client):
                yield client
        finally:
            with self._freed:
                self._free.append(client)
                self._freed.notify_all()

    def _ask(self, *words):
        with self._client() as client:
            return client.ask(*words)

    def transact(self, fn, tries=50):
        """Runs `fn(tx)` and commits what it did; up to `tries` times, while that is aborted. What `fn` raises aborts it, and is raised."""
        with self._client() as client:
            for attempt in range(tries):
                with Transaction(client) as tx:
                    try:
                        result = fn(tx)
                        return tx._ask(b"commit")._replace(result=result)
                    except Aborted as aborted:
                        if aborted is not tx._over:
                            raise
                time.sleep(os.urandom(1)[0] / 256 * min(attempt, 20) / 1000)
            raise Aborted(f"aborted at each of {tries} tries")

    @contextlib.contextmanager
    def view(self, at=None):
        """A view of the present, or of a time in microseconds: all that it answers stood then."""
        with self._client() as client, View(client, b"view", *([] if at is None else [b"%d" % at])) as view:
            yield view

    def outcome(self, id):
        """How a transaction ended that was `Unknown`: `Committed`, or it raises `Aborted`. If nobody can tell yet it is `None`: ask again."""
        with self._client([client for client in self._clients if id in client.doubts]) as client:
            how, _, at = client.ask(b"outcome", id.encode()).partition(" ")
        if how == "aborted":
            raise Aborted(id)
        return Committed(int(at), id) if at else None

    def stats(self):
        """The numbers of the store, as Prometheus reads them."""
        return self._ask(b"stats")[0].decode()

    def close(self):
        """Ends the program, which first answers what was asked, and gives up what is open. Returns its exit status."""
        with contextlib.suppress(Closed):
            self._send(self._clients[0], [b"quit"], [queue.SimpleQueue()])
        with self._lock, contextlib.suppress(OSError):
            self._is_closed = True
            self.process.stdin.close()
        return self.process.wait()

    def __exit__(self, *_): self.close()  # noqa: E704
