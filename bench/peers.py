#!/usr/bin/env python3
"""Times other stores on the same disk: peers.py [OPTION..] [PROGRAM] prints a table, with drives of the built program beside them.

A transaction reads two of 1,000 keys and writes both, and is durable before it is answered. Each store is tried with 1, 4, 16 and 64
clients, each a process of its own, for some seconds. Of the program, two shards with logs in files are driven: its transactions read
and write one or two keys, a third of them over both shards, and behind each comes a look, which is in the turn and not in the
transaction's time.

  postgres 2   PostgreSQL, two databases, a key in each: prepared transactions, then commits of both
  postgres 1   PostgreSQL, both keys in one database
  sqlite       SQLite, write-ahead log, synchronous FULL
  etcd         one member, by its gateway for JSON: a read of both keys, and a write of both if neither has changed since

Servers listen on 127.0.0.1 alone, have their data in a new folder under TMPDIR, and are stopped by their own process at the end. One
that is not installed is named and passed over. Needed are libpq for PostgreSQL, and Python's own sqlite3.

  --seconds N        how long each row takes (3)
  --clients A,B,..   of 1, 4, 16, 64
  --stores A,B,..    of postgres2, postgres1, sqlite, etcd, drive
"""
import base64
import contextlib
import ctypes
import ctypes.util
import getopt
import glob
import http.client
import json
import multiprocessing
import os
import pwd
import random
import shutil
import signal
import socket
import sqlite3
import subprocess
import sys
import tempfile
import time

import drive

KEYS = 1_000
HEAD = ["Store", "Clients", "Commits a second", "Half within, us", "99 of 100 within, us"]


class Absent(Exception):
    """A store that is not installed."""


def two_keys(draw):
    """Two keys, in ascending order."""
    return sorted(draw.sample(range(KEYS), 2))


def free_port():
    """A port that nobody listens on."""
    with socket.socket() as probe:
        probe.bind(("127.0.0.1", 0))
        return probe.getsockname()[1]


def await_port(port, process):
    """Waits until somebody listens on a port."""
    for _ in range(300):
        with contextlib.suppress(OSError), socket.create_connection(("127.0.0.1", port), 1):
            return
        if process.poll() is not None:
            break
        time.sleep(0.1)
    raise Absent("it does not start")


@contextlib.contextmanager
def server(command, port, user=None, stop=signal.SIGTERM):
    """A server, until the end of the block."""
    with subprocess.Popen(command, stdout=subprocess.DEVNULL, stderr=subprocess.DEVNULL, user=user) as process:
        try:
            await_port(port, process)
            yield
        finally:
            process.send_signal(stop)


class Postgres:
    """A connection of libpq, by ctypes, so that no other library is needed."""

    library = None

    def __init__(self, port, base):
        pq = Postgres.library
        pq.PQconnectdb.restype = pq.PQexec.restype = ctypes.c_void_p
        pq.PQgetvalue.restype = pq.PQerrorMessage.restype = ctypes.c_char_p
        self.pq = pq
        self.link = ctypes.c_void_p(pq.PQconnectdb(f"host=127.0.0.1 port={port} dbname={base} user=bench".encode()))
        if pq.PQstatus(self.link) != 0:
            raise OSError(pq.PQerrorMessage(self.link).decode())

    def do(self, text):
        """The first value of the answer to a command."""
        found = ctypes.c_void_p(self.pq.PQexec(self.link, text.encode()))
        status = self.pq.PQresultStatus(found)
        value = self.pq.PQgetvalue(found, 0, 0) if status == 2 and self.pq.PQntuples(found) else None
        self.pq.PQclear(found)
        if status not in (1, 2):
            raise OSError(self.pq.PQerrorMessage(self.link).decode())
        return value

    def add(self, key):
        """Reads a key, and writes the number that follows."""
        value = int(self.do(f"select v from t where k = {key} for update"))
        self.do(f"update t set v = {value + 1} where k = {key}")


def postgres_two(port, number):
    """A client's transaction over two databases."""
    bases = [Postgres(port, base) for base in ("one", "two")]
    count = 0

    def transact(draw):
        nonlocal count
        count += 1
        name = f"c{number}n{count}"
        for base, key in zip(bases, two_keys(draw)):
            base.do("begin")
            base.add(key)
        for place, base in enumerate(bases):
            base.do(f"prepare transaction '{name}b{place}'")
        for place, base in enumerate(bases):
            base.do(f"commit prepared '{name}b{place}'")
        return True

    return transact


def postgres_one(port, _number):
    """A client's transaction over two keys of one database."""
    base = Postgres(port, "one")

    def transact(draw):
        base.do("begin")
        for key in two_keys(draw):
            base.add(key)
        base.do("commit")
        return True

    return transact


@contextlib.contextmanager
def postgres(top):
    """A server of PostgreSQL with two databases. What its clients need."""
    found = sorted(glob.glob("/usr/lib/postgresql/*/bin/initdb")) or [path for path in [shutil.which("initdb")] if path]
    library = ctypes.util.find_library("pq")
    if not found or not library:
        raise Absent("it is not installed, or libpq is not")
    Postgres.library = ctypes.CDLL(library)
    folder, port = os.path.join(top, "postgres"), free_port()
    os.mkdir(folder)
    user = None
    if os.getuid() == 0:
        user = "postgres" if "postgres" in [entry.pw_name for entry in pwd.getpwall()] else "nobody"
        os.chmod(top, 0o711)
        shutil.chown(folder, user)
    bins = os.path.dirname(found[-1])
    subprocess.run([f"{bins}/initdb", "-D", folder, "-U", "bench", "-A", "trust"], check=True, stdout=subprocess.DEVNULL, user=user, cwd="/")
    command = [f"{bins}/postgres", "-D", folder, "-p", str(port), "-h", "127.0.0.1", "-k", ""]
    command += ["-c", "max_prepared_transactions=200", "-c", "max_connections=200"]
    with server(command, port, user, signal.SIGINT):
        for _ in range(50):
            with contextlib.suppress(OSError):
                first = Postgres(port, "postgres")
                break
            time.sleep(0.1)
        for base in ("one", "two"):
            first.do(f"create database {base}")
            made = Postgres(port, base)
            made.do("create table t (k int primary key, v int not null) with (fillfactor = 50)")
            made.do(f"insert into t select n, 0 from generate_series(0, {KEYS - 1}) n")
        yield port


def sqlite_client(file, _number):
    """A client's transaction."""
    base = sqlite3.connect(file, isolation_level=None, timeout=60)
    base.execute("pragma journal_mode = wal")
    base.execute("pragma synchronous = full")

    def transact(draw):
        base.execute("begin immediate")
        for key in two_keys(draw):
            (value,) = base.execute("select v from t where k = ?", (key,)).fetchone()
            base.execute("update t set v = ? where k = ?", (value + 1, key))
        base.execute("commit")
        return True

    return transact


@contextlib.contextmanager
def sqlite(top):
    """A file of SQLite."""
    file = os.path.join(top, "sqlite.db")
    with contextlib.closing(sqlite3.connect(file)) as base:
        base.execute("pragma journal_mode = wal")
        base.execute("create table t (k integer primary key, v integer not null)")
        base.executemany("insert into t values (?, 0)", [(key,) for key in range(KEYS)])
        base.commit()
    yield file


def spelled(text):
    return base64.b64encode(text.encode()).decode()


def etcd_client(port, _number):
    """A client's transaction, tried once: it counts where no other changed a key meanwhile."""
    link = http.client.HTTPConnection("127.0.0.1", port)

    def ask(request):
        link.request("POST", "/v3/kv/txn", json.dumps(request))
        return json.loads(link.getresponse().read())

    def transact(draw):
        keys = [spelled(f"k{key:04}") for key in two_keys(draw)]
        read = ask({"success": [{"requestRange": {"key": key}} for key in keys]})
        compare, write = [], []
        for key, answer in zip(keys, read["responses"]):
            pair = answer["response_range"].get("kvs", [{}])[0]
            value = int(base64.b64decode(pair.get("value", spelled("0"))))
            compare.append({"key": key, "target": "MOD", "result": "EQUAL", "modRevision": pair.get("mod_revision", "0")})
            write.append({"requestPut": {"key": key, "value": spelled(str(value + 1))}})
        return ask({"compare": compare, "success": write}).get("succeeded", False)

    return transact


@contextlib.contextmanager
def etcd(top):
    """A server of etcd, of one member."""
    program = shutil.which("etcd")
    if not program:
        raise Absent("it is not installed")
    port, peer = free_port(), free_port()
    clients, peers = f"http://127.0.0.1:{port}", f"http://127.0.0.1:{peer}"
    command = [program, "--data-dir", os.path.join(top, "etcd"), "--listen-client-urls", clients, "--advertise-client-urls", clients]
    command += ["--listen-peer-urls", peers, "--initial-advertise-peer-urls", peers, "--initial-cluster", f"default={peers}"]
    with server(command, port):
        yield port


def work(client, place, number, begin, seconds, told):
    """What a client does: transactions, until so many seconds have passed, and how long each that committed took."""
    times = []
    try:
        transact = client(place, number)
        draw = random.Random(number)
        begin.wait(60)
        end = time.monotonic() + seconds
        while time.monotonic() < end:
            start = time.monotonic()
            if transact(draw):
                times.append(time.monotonic() - start)
    finally:
        told.put(times)


def row(name, client, place, clients, seconds):
    """A store's row of the table."""
    begin, told = multiprocessing.Barrier(clients), multiprocessing.Queue()
    processes = [multiprocessing.Process(target=work, args=(client, place, number, begin, seconds, told)) for number in range(clients)]
    for process in processes:
        process.start()
    times = sorted(sum((told.get() for _ in processes), []))
    for process in processes:
        process.join()
    if not times:
        return [name, clients, "-", "-", "-"]
    half, most = times[len(times) // 2], times[len(times) * 99 // 100]
    return [name, clients, round(len(times) / seconds), round(half * 1e6), round(most * 1e6)]


STORES = {
    "postgres2": ("PostgreSQL, two databases", postgres, postgres_two),
    "postgres1": ("PostgreSQL, one database", postgres, postgres_one),
    "sqlite": ("SQLite", sqlite, sqlite_client),
    "etcd": ("etcd", etcd, etcd_client),
}


def driven(program, workers, top):
    """The row of a drive of two shards."""
    folder = tempfile.mkdtemp(dir=top)
    cells = drive.row(program, "", "files", 2, workers, 1_000, 100_000, folder, {})
    shown = dict(zip(drive.HEAD, cells))
    return ["this store, two shards", workers, *(shown[word] for word in HEAD[2:])]


def main(words):
    given, programs = getopt.getopt(words, "", ["seconds=", "clients=", "stores="])
    told = {"--seconds": "3", "--clients": "1,4,16,64", "--stores": "postgres2,postgres1,sqlite,etcd,drive", **dict(given)}
    clients = [int(word) for word in told["--clients"].split(",")]
    drive.print_row(HEAD)
    drive.print_row("---" for _ in HEAD)
    with tempfile.TemporaryDirectory() as top:
        for word in told["--stores"].split(","):
            if word == "drive":
                for workers in clients if programs else []:
                    drive.print_row(driven(os.path.abspath(programs[0]), workers, top))
                continue
            name, store, client = STORES[word]
            within = tempfile.mkdtemp(dir=top)
            os.chmod(top, 0o711)
            try:
                with store(within) as place:
                    for number in clients:
                        drive.print_row(row(name, client, place, number, float(told["--seconds"])))
            except Absent as absent:
                drive.print_row([f"{name}: {absent}", "-", "-", "-", "-"])
        drive.print_ideal(drive.device(top))


if __name__ == "__main__":
    main(sys.argv[1:])
