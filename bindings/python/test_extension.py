"""Tests of `_boddurci`, the extension of boddurci.py. The extension has the same results as the methods in Python, for random and for
unusual calls. It passes calls that are not plain to these methods, and leaks no reference. test_boddurci.py has the other tests, which run
with and without the extension."""

import inspect
import os
import pathlib
import random
import sys
import tempfile
import threading
import time
import types
import unittest
from unittest import mock

sys.path.insert(0, str(pathlib.Path(__file__).resolve().parent))
import boddurci

TOP = pathlib.Path(__file__).resolve().parent.parent.parent
COUNTER = (TOP / "examples/counter.s").read_text()
LEASE = (TOP / "examples/lease.s").read_text()
NEEDS = unittest.skipUnless(boddurci._extension or os.environ.get("BODDURCI_WAY") == "extension", "the extension is not built")


class Long(bytes):
    """A subclass of bytes that returns a wrong length."""

    def __len__(self):
        return 1 << 20


def outcome(call, *words, **named):
    """Returns the value that a call returned, or the exception that it raised with all its attributes."""
    try:
        value = call(*words, **named)
    except Exception as fault:
        return type(fault), str(fault), getattr(fault, "at", "none"), [str(it) for it in fault.args]
    return type(value), value


class InFolder(unittest.TestCase):
    def setUp(self):
        self.room = tempfile.TemporaryDirectory(prefix="boddurci-")
        self.addCleanup(self.room.cleanup)

    def opened(self, kind=None, name="db", flag="c"):
        """Opens a database of the given class, with the extension or in Python only."""
        with mock.patch.object(boddurci, "Database", kind or boddurci.Database):
            db = boddurci.open(os.path.join(self.room.name, name), flag)
        self.addCleanup(db.close)
        return db


class Left(unittest.TestCase):
    def test_an_extension_that_does_not_fit_is_left(self):
        version = boddurci._call.version().decode()
        for form, version in ((boddurci._FORM, "1.0.0"), (boddurci._FORM + 1, version)):
            with mock.patch.dict(sys.modules, {"_boddurci": types.SimpleNamespace(FORM=form, VERSION=version)}):
                self.assertIsNone(boddurci._of_extension())
        for stranger in None, types:
            with mock.patch.dict(sys.modules, {"_boddurci": stranger}):
                self.assertIsNone(boddurci._of_extension())
        project = pathlib.Path(boddurci.__file__).with_name("pyproject.toml")
        self.assertIn(f'version = "{version}"', project.read_text())


@NEEDS
class Beside(InFolder):
    """A test that makes each call on a database with the extension and on one without it."""

    def setUp(self):
        super().setUp()
        self.both = self.opened(name="quick"), self.opened(boddurci._Database, "plain")
        self.programs = [[db.program(text) for text in (COUNTER, LEASE)] for db in self.both]

    def same(self, call):
        """Makes a call on both databases, and compares the results. The arguments of the call are a database and its programs."""
        quick, plain = (outcome(call, *it) for it in zip(self.both, self.programs))
        self.assertEqual(quick, plain)

    def calls(self, rng):
        """Returns a random call, mostly a plain one."""
        key, arg, number = rng.randrange(60), rng.randrange(30), rng.choice((None, 0, 8, 16, 1000, 5000))
        strange = (1, None, 8.0, "\udc80", bytearray(b"5"), memoryview(b"7"), memoryview(b"abcd")[::2], Long(b"9"), [b"1"], b"k" * 1100)
        odd = (-1, 2**64, 2**64 - 1, "8", 8.0, True, b"8")
        key = rng.choice(strange) if rng.random() < 0.1 else str(key) if rng.random() < 0.3 else b"%d" % key
        value = rng.choice(strange) if rng.random() < 0.1 else bytes(rng.choices(range(256), k=int(rng.expovariate(1) * 60)))
        arg = rng.choice(strange) if rng.random() < 0.1 else bytes(arg)
        blank, now = (rng.choice(odd) if rng.random() < 0.1 else it for it in (number, 1000))
        which, is_odd = rng.randrange(3), rng.random() < 0.1
        owner, amount, seconds = (rng.choice(odd) if rng.random() < 0.1 else it for it in (rng.randrange(3), rng.randint(-3, 5), 20))
        later = 1000 + rng.randrange(100)

        def program(programs):
            odd = None, boddurci.Program(0), boddurci.Program(2**33, programs[0]._of)
            return odd[which] if is_odd else programs[which % 2]

        return (
            lambda db, _: db[key],
            lambda db, _: db.get(key),
            lambda db, _: db.get(key, value),
            lambda db, _: db.get(key, default=value),
            lambda db, _: key in db,
            lambda db, _: db.__setitem__(key, value),
            lambda db, _: db.__setitem__(key, value),
            lambda db, _: db.__delitem__(key),
            lambda db, _: db.pop(key, b"none"),
            lambda db, _: db.setdefault(key, value),
            lambda db, programs: db.run(program(programs), key, arg, blank, now),
            lambda db, programs: db.run(program(programs), key, blank=8, now=now),
            lambda db, programs: db.run(program(programs), key=key, arg=arg, blank=blank, now=now),
            lambda db, programs: db.run(program(programs), key, blank=blank, now=now),
            lambda db, _: db.counter(key, ceiling=1000).add(amount),
            lambda db, _: db.counter(key).get(),
            lambda db, _: db.lease(key).acquire(owner, seconds, later),
            lambda db, _: db.lease(key).release(owner, now),
            lambda db, _: db.fenced_lease(key).acquire(owner, seconds, now=later),
            lambda db, _: db.semaphore(key, 2).acquire() if which else db.semaphore(key, amount).release(),
            lambda db, _: db.rate_limit(key, 3, seconds).admit(later),
        )

    def test_random_calls(self):
        rng = random.Random(7)
        for count in range(int(os.environ.get("BODDURCI_CALLS", "100000")) // 10):
            self.same(rng.choice(self.calls(rng)))
            if count % 1000 == 0:
                self.same(lambda db, _: sorted(db.items()))
        self.same(lambda db, _: sorted(db.items()))

    def test_words(self):
        """Tests arguments that a call does not accept, and some that it accepts."""
        for call in (
            lambda db, programs: db.run(),
            lambda db, programs: db.run(programs[0]),
            lambda db, programs: db.run(programs[0], b"a", b"", 8, 0, 1),
            lambda db, programs: db.run(programs[0], b"a", blank=8, later=1),
            lambda db, programs: db.run(programs[0], b"a", key=b"b", blank=8),
            lambda db, programs: db.run(key=b"a", program=programs[0], blank=8),
            lambda db, programs: db.run(programs[0], b"a", arg=None),
            lambda db, programs: db.get(),
            lambda db, programs: db.get(b"a", 1, 2),
            lambda db, programs: db.get(key=b"a"),
            lambda db, programs: db.get(b"no", other=1),
            lambda db, programs: db.__getitem__(),
        ):
            quick, plain = (outcome(call, *it) for it in zip(self.both, self.programs))
            self.assertEqual(quick[0], plain[0])
            if quick[0] is not TypeError:
                self.assertEqual(quick, plain)

    def test_closed_and_read_only(self):
        for db in self.both:
            db[b"1"] = b"one"
            db.close()
        rng = random.Random(8)
        for _ in range(300):
            self.same(rng.choice(self.calls(rng)))
        self.both = self.opened(name="quick", flag="r"), self.opened(boddurci._Database, "plain", "r")
        for _ in range(600):
            self.same(rng.choice(self.calls(rng)))

    def test_in_a_child(self):
        rng = random.Random(9)
        calls = [rng.choice(self.calls(rng)) for _ in range(300)]
        child = os.fork()
        if child == 0:
            status = 1
            try:
                for call in calls:
                    self.same(call)
                status = 0 if outcome(lambda: self.both[0][b"1"])[1] == "the database was opened by another process" else 2
            finally:
                os._exit(status)
        self.assertEqual(os.waitpid(child, 0)[1], 0)
        for call in calls:
            self.same(call)

    def test_description(self):
        for name in ("run", "get"):
            quick, plain = getattr(boddurci.Database, name), getattr(boddurci._Database, name)
            self.assertEqual(str(inspect.signature(quick)).replace("self, /,", "self,"), str(inspect.signature(plain)))
        self.assertEqual(inspect.cleandoc(boddurci.Database.run.__doc__), inspect.cleandoc(boddurci._Database.run.__doc__))


@NEEDS
class Extension(InFolder):
    def test_it_is_taken(self):
        """No plain call uses ctypes."""
        db = self.opened()
        counter = db.program(COUNTER)
        with mock.patch.multiple(boddurci._call, fetch=None, store=None, delete=None, run=None):
            db["a"] = b"0"
            db["a"] = b"1"
            self.assertEqual((db[b"a"], db.get(b"no", 1), b"a" in db), (b"1", 1, True))
            del db[b"a"]
            self.assertEqual(db.run(counter, b"a", blank=8), boddurci.Ran(1, 0))
            with self.assertRaises(KeyError):
                db.run(counter, b"no")
            with self.assertRaises(TypeError):
                db[bytearray(b"a")]

    def test_it_is_bound_once(self):
        """Only the first interpreter of a process uses the extension, since a second `bind` returns None."""
        import _boddurci

        self.assertIsNone(_boddurci.bind())

    def test_a_call_waits_for_the_lock(self):
        db, stored = self.opened(), threading.Event()

        def work():
            db[b"a"] = b"other"
            stored.set()

        thread = threading.Thread(target=work)
        with db._lock:
            thread.start()
            self.assertFalse(stored.wait(0.2))
            db[b"a"] = b"own"
            with mock.patch.object(boddurci._call, "fetch", None):
                self.assertEqual(db[b"a"], b"own")
        thread.join()
        with mock.patch.object(boddurci._call, "fetch", None):
            self.assertEqual(db[b"a"], b"other")

    def test_a_save_has_calls_take_the_mutex(self):
        db, stores = self.opened(), []
        store, save = boddurci._call.store, boddurci._call.save

        def stored(*words):
            stores.append(words)
            return store(*words)

        def saved(*words):
            db[b"a"] = b"meanwhile"
            return save(*words)

        with mock.patch.multiple(boddurci._call, store=staticmethod(stored), save=staticmethod(saved)):
            db[b"a"] = b"before"
            self.assertEqual(len(stores), 0)
            db.sync()
            self.assertEqual(len(stores), 1)
            db[b"b"] = b"after"
            self.assertEqual(len(stores), 1)
            self.assertEqual(db[b"a"], b"meanwhile")

    def test_lists_beside_a_thread(self):
        """A list of all pairs is consistent, although it is read in several steps while a thread stores."""
        db, is_over = self.opened(), threading.Event()
        db.update({b"%d" % i: b"x" for i in range(2500)})

        def work():
            while not is_over.is_set():
                for at in range(50):
                    db[b"%d" % at] = b"y"
                    del db[b"%d" % (at + 50)]
                    db[b"%d" % (at + 50)] = b"x"

        interval = sys.getswitchinterval()
        sys.setswitchinterval(1e-6)
        thread = threading.Thread(target=work)
        thread.start()
        try:
            for _ in range(100):
                self.assertIn(len(db.keys()), (2499, 2500))
                db.setdefault(b"%d" % random.randrange(50, 100), b"x")
        finally:
            is_over.set()
            thread.join()
            sys.setswitchinterval(interval)

    def test_a_close_beside_threads(self):
        """A store before the end of a `close` is saved, and a later store is refused."""
        db, told = self.opened(), []

        def work(own):
            count = 0
            try:
                while True:
                    db[b"%d" % own] = b"%d" % count
                    count += 1
            except boddurci.error as fault:
                told.append((own, count - 1, str(fault)))

        threads = [threading.Thread(target=work, args=(own,)) for own in range(4)]
        for it in threads:
            it.start()
        time.sleep(0.1)
        db.close()
        for it in threads:
            it.join()
        db = self.opened(flag="r")
        for own, count, fault in told:
            self.assertEqual((int(db[b"%d" % own]), fault), (count, "the database is closed"))

    def test_a_class_with_its_own_look(self):
        class Upper(boddurci.Database):
            def __getitem__(self, key):
                return super().__getitem__(key).upper()

        db = self.opened(Upper)
        db[b"a"] = b"x"
        self.assertEqual((db[b"a"], db.get(b"a"), db.get(b"no"), db.pop(b"a")), (b"X", b"X", None, b"X"))

    def test_another_clock(self):
        db = self.opened()
        lease, ask = db.program(LEASE), (7).to_bytes(8, "little") + (60).to_bytes(8, "little")
        self.assertAlmostEqual(db.run(lease, b"it", ask, blank=16).word, time.time() + 60, delta=30)
        with mock.patch("time.time", lambda: 5000.9):
            self.assertEqual(db.run(lease, b"other", ask, blank=16), (1, 5060))

    def test_private_attributes(self):
        db = self.opened()
        with self.assertRaises(TypeError):
            db._lock = threading.RLock()
        with self.assertRaises(TypeError):
            db._db = "a"
        with self.assertRaises(TypeError):
            boddurci._extension[1]()
        bare = boddurci.Database.__new__(boddurci.Database)
        with self.assertRaises(AttributeError):
            bare[b"a"]
        self.assertIsNone(bare._db)

    def test_references(self):
        db = self.opened()
        program, lease, key, value = db.program(COUNTER), db.program(LEASE), b"a key of its own", b"a value of its own"
        things = program, key, value, db, boddurci.Ran, KeyError

        def all_calls():
            db[key] = value
            for call in (
                lambda: (db[key], db.get(key), key in db, db["a"], db.get("b", value), db.get(key, default=value)),
                lambda: (db.run(program, key, b"", 8, 0), db.run(program, key=key, blank=8), db.run(program, "c", blank=8)),
                lambda: db.run(lease, b"lease", bytes([1] * 16), 16, 2**50),
                lambda: db.run(program, b"no"),
                lambda: db.run(program, key, blank=value),
                lambda: db.run(program, key, later=value),
                lambda: db.__setitem__(key, bytes(2000)),
                lambda: db.__setitem__(key, program),
                lambda: db.__delitem__(key),
                lambda: db.__delitem__(key),
                lambda: db[program],
                lambda: program in db,
            ):
                outcome(call)

        all_calls()
        blocks, before = sys.getallocatedblocks(), [sys.getrefcount(it) for it in things]
        for _ in range(1000):
            all_calls()
        for it, then, now in zip(things, before, [sys.getrefcount(it) for it in things]):
            self.assertLess(abs(now - then), 100, it)
        self.assertLess(sys.getallocatedblocks() - blocks, 500)


if __name__ == "__main__":
    unittest.main()
