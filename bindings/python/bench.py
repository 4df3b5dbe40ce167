"""Measures calls from Python: N stores, N fetches and N increments of 16-byte keys and 8-byte values. It measures boddurci with ctypes and
with the extension, the submodules of dbm in this Python, and sqlite3. BODDURCI_LIBRARY names the shared object.

usage: bench.py N [ROUNDS]     prints the nanoseconds of processor time of each call, the minimum of all rounds

The stores take turns in each round.
"""

import importlib
import os
import pathlib
import sqlite3
import sys
import tempfile
import time

sys.path.insert(0, str(pathlib.Path(__file__).resolve().parent))
TOP = pathlib.Path(__file__).resolve().parent.parent.parent


def module(name):
    """Returns a module, or None if this Python does not have it."""
    try:
        return importlib.import_module(name)
    except ImportError:
        return None


def ours():
    """Returns boddurci with ctypes only, and boddurci with the extension if it is built."""
    sys.modules["_boddurci"] = None
    by_ctypes = importlib.import_module("boddurci")
    del sys.modules["_boddurci"], sys.modules["boddurci"]
    quick = importlib.import_module("boddurci")
    return by_ctypes, quick if quick._extension else None


BY_CTYPES, QUICK = ours()
OTHERS = {"dbm.gnu": (module("dbm.gnu"), "nf"), "dbm.ndbm": (module("dbm.ndbm"), "n"), "dbm.dumb": (module("dbm.dumb"), "n")}


class Plain:
    """A store that is a mapping. An increment is a fetch, an addition and a store."""

    def __init__(self, db):
        self.db = db

    def add(self, key):
        self.db[key] = (int.from_bytes(self.db[key], "little") + 1).to_bytes(8, "little")


class Counting(Plain):
    """A database of boddurci. An increment is a run of a program."""

    def __init__(self, db):
        super().__init__(db)
        self.counter = db.program((TOP / "examples/counter.s").read_text())

    def add(self, key):
        self.db.run(self.counter, key, blank=8, now=0)


class Sqlite:
    """A table of sqlite3, in one transaction."""

    def __init__(self, path):
        self.base = sqlite3.connect(path, isolation_level=None)
        self.base.execute("pragma synchronous = off")
        self.base.execute("create table pairs (key blob primary key, value blob) without rowid")
        self.base.execute("begin")

    def __setitem__(self, key, value):
        self.base.execute("insert or replace into pairs values (?, ?)", (key, value))

    def __getitem__(self, key):
        return self.base.execute("select value from pairs where key = ?", (key,)).fetchone()[0]

    def close(self):
        self.base.execute("commit")
        self.base.close()


def measured(store, keys):
    """Returns the seconds of processor time of all stores, fetches and increments."""
    times = [time.process_time()]
    for number, key in enumerate(keys):
        store.db[key] = number.to_bytes(8, "little")
    times.append(time.process_time())
    for key in keys:
        store.db[key]
    times.append(time.process_time())
    for key in keys:
        store.add(key)
    times.append(time.process_time())
    assert store.db[keys[7]] == (8).to_bytes(8, "little")
    store.db.close()
    return [after - before for before, after in zip(times, times[1:])]


def stores(folder):
    yield "boddurci, ctypes", Counting(BY_CTYPES.open(folder / "ctypes", "n"))
    if QUICK:
        yield "boddurci, extension", Counting(QUICK.open(folder / "extension", "n"))
    for name, (other, flags) in OTHERS.items():
        if other:
            yield name, Plain(other.open(str(folder / name), flags))
    yield "sqlite3", Plain(Sqlite(folder / "sqlite"))


def main():
    count, rounds = int(sys.argv[1]), int(sys.argv[2]) if len(sys.argv) > 2 else 5
    keys = [b"key%013d" % (number * 2654435761 % 2**32) for number in range(count)]
    found = {}
    for _ in range(rounds):
        with tempfile.TemporaryDirectory(dir="/dev/shm" if os.access("/dev/shm", os.W_OK) else None) as name:
            for kind, store in stores(pathlib.Path(name)):
                found.setdefault(kind, []).append(measured(store, keys))
    print(f"{'':20} {'store':>9} {'fetch':>9} {'increment':>9}")
    for kind, times in found.items():
        print(f"{kind:20}", *(f"{min(it) / count * 1e9:9.0f}" for it in zip(*times)))
    for kind in ([] if QUICK else ["extension"]) + [name for name, (other, _) in OTHERS.items() if not other]:
        print(f"bench.py: this Python has no {kind}")


if __name__ == "__main__":
    main()
