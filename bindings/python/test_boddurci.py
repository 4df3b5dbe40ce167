"""Tests of boddurci.py: databases as mappings, programs, stock programs, threads, the cases of CPython's own tests of dbm modules, and
random calls whose results are compared with those of a dict. BODDURCI_LIBRARY names the shared object. BODDURCI_CALLS is the number of
random calls, by default 100,000. BODDURCI_WAY is "ctypes", or "extension", which must be built then. By default, the tests use the
extension if it is built."""

import ctypes
import dbm
import errno
import fcntl
import os
import pathlib
import random
import resource
import shutil
import signal
import stat
import struct
import subprocess
import sys
import tempfile
import threading
import time
import unittest
import unittest.mock

sys.path.insert(0, str(pathlib.Path(__file__).resolve().parent))
WAY = os.environ.get("BODDURCI_WAY")
if WAY == "ctypes":
    sys.modules["_boddurci"] = None
import boddurci

TOP = pathlib.Path(__file__).resolve().parent.parent.parent

try:
    from test.test_dbm import AnyDBMTestCase
except ImportError:
    AnyDBMTestCase = None


class InFolder(unittest.TestCase):
    def setUp(self):
        self.room = tempfile.TemporaryDirectory(prefix="boddurci-")
        self.addCleanup(self.room.cleanup)
        self.base = os.path.join(self.room.name, "db")


class Mapping(InFolder):
    @unittest.skipUnless(WAY, "any way")
    def test_way(self):
        self.assertEqual("extension" if boddurci._extension else "ctypes", WAY)

    def test_lengths(self):
        """No call reads past the bytes of an object whose class, a subclass of bytes, returns a wrong length."""

        class Long(bytes):
            def __len__(self):
                return 1000

        class Itself(Long):
            def __bytes__(self):
                return self

        class Word(str):
            def encode(self, *_):
                return Long(b"other")

        with boddurci.open(self.base, "c") as db:
            for kind, plain in ((Long, b"key"), (Itself, b"key"), (Word, "key")):
                db[kind(plain)] = kind(plain)
                self.assertEqual((db.items(), db[kind(plain)]), ([(b"key", b"key")], b"key"))
            with self.assertRaises(boddurci.ProgramError):
                db.program(Itself(b"\0"))

    def test_no_handle(self):
        """A call of the library with NULL as its handle returns the status of a closed handle."""
        for name in ("limit", "fetch", "store", "delete", "count", "submit", "submit_stock", "run", "first", "next"):
            call = getattr(boddurci._call, name)
            nothing = [None if kind in (ctypes.c_char_p, ctypes.c_void_p) else 0 for kind in call.argtypes]
            self.assertEqual(call(*nothing), boddurci._IS_CLOSED, name)
        self.assertIsNone(boddurci._call.take(None))
        self.assertEqual(boddurci._call.save(None, None), boddurci._IS_CLOSED)
        self.assertEqual(boddurci._call.save_with(None, boddurci._INSIST, None), boddurci._IS_CLOSED)
        boddurci._call.give(None)
        boddurci._call.close_files(None)

    def test_exception_in_a_block(self):
        """If an exception ends a `with` block, the changes since the last save are dropped, and the locks are released."""
        with boddurci.open(self.base, "c") as db:
            db[b"kept"] = b"1"
        for kind in (ValueError, KeyboardInterrupt, SystemExit, boddurci.error):
            with self.assertRaises(kind):
                with boddurci.open(self.base, "w", wait=False) as db:
                    db[b"synced"] = kind.__name__
                    db.sync()
                    db[b"kept"] = b"2"
                    del db[b"synced"]
                    db[b"more"] = b""
                    raise kind("in a block")
            with self.assertRaisesRegex(boddurci.error, "closed"):
                db[b"kept"]
            with boddurci.open(self.base, wait=False) as db:
                self.assertEqual(sorted(db.items()), [(b"kept", b"1"), (b"synced", kind.__name__.encode())])
        with self.assertRaises(ValueError), boddurci.open(self.base, "n") as db:
            db[b"a"] = b""
            raise ValueError
        with self.assertRaises(ValueError), boddurci.open(self.base) as db:
            self.assertEqual(len(db), 0)
            raise ValueError
        with self.assertRaises(ValueError), boddurci.open(self.base, "w") as db:
            db[b"a"] = b"closed by the block itself"
            db.close()
            raise ValueError
        with boddurci.open(self.base) as db:
            self.assertEqual(db.items(), [(b"a", b"closed by the block itself")])

    def test_exception_in_a_process(self):
        """If the exception also ends the interpreter, the dropped changes are not saved at exit."""
        text = """if True:
            import boddurci, sys
            with boddurci.open(sys.argv[1], "c") as db:
                db[b"a"] = b"1"
                db.sync()
                db[b"a"] = b"2"
                {}
            """
        env = {**os.environ, "PYTHONPATH": os.pathsep.join(sys.path)}
        for ends, status in (("sys.exit(3)", 3), ("raise ValueError", 1), ("import os, signal; os.kill(os.getpid(), signal.SIGINT)", -signal.SIGINT)):
            ran = subprocess.run([sys.executable, "-c", text.format(ends), self.base], env=env, capture_output=True, text=True)
            self.assertEqual(ran.returncode, status, ran)
            self.assertNotIn("Warning", ran.stderr)
            with boddurci.open(self.base, wait=False) as db:
                self.assertEqual(db.items(), [(b"a", b"1")])

    def test_pairs(self):
        with boddurci.open(self.base, "c") as db:
            db[b"ab"] = b"xyz"
            db["é"] = "ü"
            self.assertEqual(db[b"ab"], b"xyz")
            self.assertEqual(db["é".encode()], "ü".encode())
            self.assertIn(b"ab", db)
            self.assertNotIn(b"no", db)
            self.assertEqual(len(db), 2)
            self.assertEqual(sorted(db), [b"ab", "é".encode()])
            self.assertEqual(dict(db.items())[b"ab"], b"xyz")
            self.assertEqual(db.setdefault(b"new"), b"")
            self.assertEqual(db.pop(b"new"), b"")
            with self.assertRaises(KeyError):
                del db[b"new"]
            with self.assertRaises(KeyError):
                db[b"new"]
            with self.assertRaises(TypeError):
                db[1] = b""
            with self.assertRaises(boddurci.error):
                db[b"big"] = b"x" * 1006
            db[b"big"] = b"x" * 1005
        with boddurci.open(self.base) as db:
            self.assertEqual(len(db[b"big"]), 1005)
            with self.assertRaises(boddurci.error):
                db[b"a"] = b""
        with self.assertRaises(boddurci.error):
            db[b"ab"]
        db.close()

    def test_wide(self):
        with boddurci.open(self.base, "n", wide=True, unsigned_keys=True) as db:
            db[b"\xff"] = b"x" * 8007
        with boddurci.open(self.base, wide=True, unsigned_keys=True) as db:
            self.assertEqual(db[b"\xff"], b"x" * 8007)
            db_files = os.path.getsize(self.base + ".pag")
        self.assertEqual(db_files % 8192, 0)

    def test_wide_pages_of_files_with_small_ones(self):
        with boddurci.open(self.base, "n") as db:
            db[b"key"] = b"value"
        os.truncate(self.base + ".pag", 8192)
        for flag in "rw":
            with self.assertRaisesRegex(boddurci.error, "look small"):
                boddurci.open(self.base, flag, wide=True)
        try:
            boddurci.open(self.base, wide=True, any_size=True).close()
        except boddurci.error as fault:
            self.assertNotIn("look small", str(fault))
        with boddurci.open(self.base) as db:
            self.assertEqual(db.items(), [(b"key", b"value")])

    def test_open(self):
        for flag in "rw":
            with self.assertRaises(OSError):
                boddurci.open(self.base, flag)
        with self.assertRaises(ValueError):
            boddurci.open(self.base, "x")
        os.umask(old := os.umask(0))
        with boddurci.open(self.base, "c", 0o640) as db:
            db[b"a"] = b"b"
            with self.assertRaises(boddurci.error):
                boddurci.open(self.base, "w", wait=False)
        self.assertEqual(stat.S_IMODE(os.stat(self.base + ".pag").st_mode), 0o640 & ~old)
        with boddurci.open(self.base, "n") as db:
            self.assertEqual(len(db), 0)
        pathlib.Path(self.base + ".pag").write_bytes(b"no pages")
        with self.assertRaisesRegex(boddurci.error, "PagLength"):
            boddurci.open(self.base)

    def test_names(self):
        for name in ("a\0b", b"\0"):
            with self.assertRaisesRegex(ValueError, "zero byte"):
                boddurci.open(os.path.join(os.fsencode(self.room.name), os.fsencode(name)), "c")
        for name in ("", ".", "..", "/", "a/", "a/.", "a/.."):
            with self.assertRaisesRegex(boddurci.error, "the name is empty"):
                boddurci.open(name, "c")
        self.assertEqual(os.listdir(self.room.name), [])

    def test_an_opening_that_fails_saves_nothing(self):
        with boddurci.open(self.base, "c") as db:
            db[b"a"] = b"1"
        with self.assertRaises(TypeError):
            boddurci.open(self.base, "n", "rw")
        with boddurci.open(self.base, "w", wait=False) as db:
            self.assertEqual(db[b"a"], b"1")

    def test_time(self):
        boddurci.open(self.base, "c").close()
        with open(self.base + ".lock", "rb") as lock:
            fcntl.flock(lock, fcntl.LOCK_EX)
            start = time.monotonic()
            with self.assertRaisesRegex(boddurci.Locked, "uses the files"):
                boddurci.open(self.base, "w", timeout=0.2)
            self.assertGreaterEqual(time.monotonic() - start, 0.19)
            with self.assertRaises(ValueError):
                boddurci.open(self.base, "w", timeout=-1)
            self.addCleanup(signal.signal, signal.SIGALRM, signal.signal(signal.SIGALRM, self.heard))
            for timeout in (None, 60):
                self.count = 0
                signal.setitimer(signal.ITIMER_REAL, 0.1, 0.1)
                with self.assertRaises(KeyboardInterrupt):
                    boddurci.open(self.base, "w", timeout=timeout)

    def test_a_thread_that_opens_twice_is_told_so(self):
        with boddurci.open(self.base, "c") as db:
            db[b"a"] = b"1"
            for flag in "w", "c":
                for more in {}, {"wait": False}, {"timeout": 60}:
                    with self.assertRaisesRegex(boddurci.error, "this thread has it open already"):
                        boddurci.open(self.base, flag, **more)
            # Another thread waits for the lock, as another process does.
            seen = []
            other = threading.Thread(target=lambda: seen.append(boddurci.open(self.base, "w")[b"a"]))
            other.start()
            time.sleep(0.1)
            self.assertEqual(seen, [])
        other.join()
        self.assertEqual(seen, [b"1"])

    def test_a_thread_reads_beside_its_own_database(self):
        with boddurci.open(self.base, "c") as db:
            for value in b"1", b"2", b"3":
                db[b"a"] = value
                db.sync()
                db[b"a"] = b"not saved"
                with boddurci.open(self.base, "r", wait=False) as reader:
                    self.assertEqual(reader.items(), [(b"a", value)])

    def test_a_handler_that_raises_as_it_opens_leaves_no_lock(self):
        """The signal is sent to another thread, so the wait for the lock continues, and the handler runs after the base is open."""
        with boddurci.open(self.base, "c") as db:
            db[b"a"] = b"1"
        self.addCleanup(signal.signal, signal.SIGUSR1, signal.signal(signal.SIGUSR1, self.raises))
        for flag in "w", "n":
            with open(self.base + ".lock", "rb") as lock:
                fcntl.flock(lock, fcntl.LOCK_EX)
                thread = threading.Thread(target=self.signal_and_unlock, args=(lock,))
                thread.start()
                with self.assertRaises(KeyboardInterrupt):
                    boddurci.open(self.base, flag)
                thread.join()
                fcntl.flock(lock, fcntl.LOCK_EX | fcntl.LOCK_NB)
            with boddurci.open(self.base, "w", wait=False) as db:
                self.assertEqual(db.items(), [(b"a", b"1")])

    def signal_and_unlock(self, lock):
        time.sleep(0.5)
        signal.pthread_kill(threading.get_ident(), signal.SIGUSR1)
        fcntl.flock(lock, fcntl.LOCK_UN)

    def raises(self, *_):
        raise KeyboardInterrupt

    def test_signals_at_any_moment_leave_no_lock(self):
        with boddurci.open(self.base, "c") as db:
            db[b"a"] = b"1"
        self.addCleanup(signal.signal, signal.SIGALRM, signal.signal(signal.SIGALRM, self.raises))
        rolls = random.Random(1)
        with open(self.base + ".lock", "rb") as lock:
            for _ in range(500):
                try:
                    signal.setitimer(signal.ITIMER_REAL, rolls.uniform(1e-6, 5e-4))
                    boddurci.open(self.base, "w", wait=False).close()
                    time.sleep(1)
                except KeyboardInterrupt:
                    pass
                fcntl.flock(lock, fcntl.LOCK_EX | fcntl.LOCK_NB)
                fcntl.flock(lock, fcntl.LOCK_UN)

    def worker(self, script):
        """Starts a process that runs these lines."""
        env = {**os.environ, "PYTHONPATH": os.pathsep.join(sys.path)}
        words = [sys.executable, "-c", "import boddurci, sys, time\n" + script, self.base]
        return subprocess.Popen(words, env=env, stdin=subprocess.PIPE, stdout=subprocess.PIPE, text=True)

    def test_four_workers(self):
        """Only one of four workers gets the database. After 5 seconds the other workers get an error that names its process."""
        script = """
start = time.monotonic()
try:
    db = boddurci.open(sys.argv[1], "c")
except boddurci.Locked as fault:
    print(time.monotonic() - start, fault, flush=True)
else:
    print("open", flush=True)
    sys.stdin.read()
"""
        workers = [self.worker(script) for _ in range(4)]
        told = {worker.pid: worker.stdout.readline() for worker in workers}
        working = [pid for pid, line in told.items() if line == "open\n"]
        for worker in workers:
            worker.communicate()
        self.assertEqual(len(working), 1)
        for pid, line in told.items():
            if pid not in working:
                seconds, _, text = line.partition(" ")
                self.assertRegex(text, rf"^process {working[0]} \(.*\) has the database open to be written: '{self.base}'$")
                self.assertTrue(4.9 < float(seconds) < 15, seconds)

    def test_a_reader_has_each_save_of_a_service_at_once(self):
        script = """
db = boddurci.open(sys.argv[1], "c")
for line in iter(sys.stdin.readline, ""):
    db[b"a"] = line.strip()
    db.sync()
    print("saved", flush=True)
"""
        with self.worker(script) as service:
            for value in range(20):
                service.stdin.write(f"{value}\n")
                service.stdin.flush()
                self.assertEqual(service.stdout.readline(), "saved\n")
                with boddurci.open(self.base, wait=False) as db:
                    self.assertEqual(db[b"a"], str(value).encode())
            service.stdin.close()

    def heard(self, *_):
        """A signal handler that raises at the second signal, which ends the wait."""
        self.count += 1
        if self.count == 2:
            signal.setitimer(signal.ITIMER_REAL, 0)
            raise KeyboardInterrupt

    def test_what_is_not_saved_is_not_there(self):
        db = boddurci.open(self.base, "c")
        db[b"a"] = b"1"
        db.sync()
        db[b"a"] = b"2"
        with open(self.base + ".pag", "rb") as pages:
            self.assertIn(b"1a", pages.read())
        db.clear()
        db.close()
        with boddurci.open(self.base) as db:
            self.assertEqual(db.keys(), [])


    def test_iteration(self):
        with boddurci.open(self.base, "c") as db:
            db.update({b"%d" % i: b"x" for i in range(2500)})
            self.assertEqual(sorted(db), sorted(db.keys()))
            self.assertEqual(sorted(db), sorted(b"%d" % i for i in range(2500)))
            self.assertEqual(set(db.values()), {b"x"})
            turns = iter(db)
            next(turns)
            db[b"new"] = b"y"
            with self.assertRaisesRegex(RuntimeError, "changed during iteration"):
                list(turns)
            # Nested iterations are independent of each other.
            self.assertEqual(len([1 for _, _ in zip(db, db)]), 2501)

    def test_a_fault_names_the_file(self):
        with self.assertRaises(OSError) as caught:
            boddurci.open(os.path.join(self.base, "db"), "w")
        self.assertEqual((caught.exception.errno, caught.exception.filename), (errno.ENOENT, os.path.join(self.base, "db")))
        with open(self.base + ".pag", "wb") as pages:
            pages.write(b"x" * 1024)
        with self.assertRaises(OSError) as caught:
            boddurci.open(self.base, "w")
        self.assertEqual((caught.exception.errno, caught.exception.filename), (None, self.base))
        self.assertIn(self.base, str(caught.exception))

    def test_what_is_lost_is_warned_of(self):
        db = boddurci.open(self.base, "c")
        db[b"a"] = b"1"
        os.rename(self.base + ".lock", self.base + ".away")
        with self.assertWarnsRegex(RuntimeWarning, "db': the changes that were not saved are lost: BASE.lock is another file"):
            del db
        os.rename(self.base + ".away", self.base + ".lock")
        with boddurci.open(self.base, "w", wait=False) as db:
            self.assertEqual(len(db), 0)

    def test_a_warning_escapes_the_name(self):
        name = self.base + "\n\x1b[31m\u202e"
        db = boddurci.open(name, "c")
        db[b"a"] = b"1"
        os.rename(name + ".lock", self.base + ".away")
        with self.assertWarns(RuntimeWarning) as caught:
            del db
        told = str(caught.warning)
        self.assertTrue(told.isprintable(), ascii(told))
        self.assertIn(r"db\n\x1b[31m\u202e': the changes", told)


class Ends(InFolder):
    """Tests of databases that are open when the interpreter exits."""

    SCRIPT = """
import boddurci, os, sys, threading, time
db = boddurci.open(sys.argv[1], "c")
db[b"a"] = sys.argv[2].encode()
other = boddurci.open(sys.argv[1] + ".other", "c")
other[b"a"] = b"other"

def work():
    own = db, other
    while True:
        time.sleep(1)

threading.Thread(target=work, daemon=True).start()
if len(sys.argv) > 3:
    os.rename(sys.argv[1] + ".lock", sys.argv[1] + ".away")
"""

    def ended(self, *words):
        env = {**os.environ, "PYTHONPATH": os.pathsep.join(sys.path)}
        words = [sys.executable, "-c", self.SCRIPT, self.base, *words]
        return subprocess.run(words, env=env, check=True, timeout=60, capture_output=True, text=True).stderr

    def values(self):
        for name in self.base, self.base + ".other":
            with boddurci.open(name, wait=False) as db:
                yield db[b"a"]

    def test_a_global_beside_a_daemon_thread_is_saved(self):
        self.assertEqual(self.ended("1"), "")
        self.assertEqual(list(self.values()), [b"1", b"other"])

    def test_what_cannot_be_saved_is_warned_of_by_name(self):
        self.ended("1")
        warned = self.ended("2", "moved")
        self.assertRegex(warned, "RuntimeWarning: '.*/db': the changes that were not saved are lost: BASE.lock is another file")
        os.rename(self.base + ".away", self.base + ".lock")
        self.assertEqual(list(self.values()), [b"1", b"other"])


class Library(InFolder):
    """Tests which file is loaded. The file next to the module is a library. The file that BODDURCI_LIBRARY names is not a library, so
    loading it fails."""

    def setUp(self):
        super().setUp()
        self.folder = pathlib.Path(self.room.name)
        self.folder.chmod(0o755)
        shutil.copy(boddurci.__file__, self.folder / "boddurci.py")
        shutil.copy(boddurci._path_of_library(), self.folder / "libboddurci.so")
        (self.folder / "other.so").write_text("no library")

    def loads(self, *options, named="other.so", group=None):
        """Returns the error text of a process that imports the module; it is empty on success."""
        script = f"import sys; sys.path.insert(0, {str(self.folder)!r}); import boddurci"
        env = {"PATH": os.environ["PATH"], "BODDURCI_LIBRARY": os.path.join(self.folder, named)}
        words = [sys.executable, *options, "-c", script]
        ran = subprocess.run(words, env=env, cwd=self.folder, capture_output=True, text=True, preexec_fn=group)
        return ran.stderr.strip().rpartition("\n")[2]

    def test_the_environment(self):
        self.assertRegex(self.loads(), "ImportError: .*other.so cannot be loaded")
        for option in "-I", "-E":
            self.assertEqual(self.loads(option), "")

    @unittest.skipUnless(hasattr(os, "geteuid") and os.geteuid() == 0, "not root")
    def test_rights_of_another(self):
        self.assertEqual(self.loads(group=lambda: os.setregid(-1, 65534)), "")

    def test_no_relative_name(self):
        with unittest.mock.patch.dict(os.environ, {"BODDURCI_LIBRARY": "./libboddurci.so"}):
            with self.assertRaisesRegex(ImportError, "give the absolute path"):
                boddurci._path_of_library()

    def test_no_missing_file(self):
        self.assertRegex(self.loads(named="missing.so"), "ImportError: BODDURCI_LIBRARY is '.*/missing.so', which is missing")
        self.assertEqual(self.loads("-E", named="missing.so"), "")

    def test_no_library_of_the_working_folder(self):
        (self.folder / "module").mkdir()
        (self.folder / "boddurci.py").rename(self.folder / "module/boddurci.py")
        script = f"import sys; sys.path.insert(0, {str(self.folder / 'module')!r}); import boddurci; print(boddurci._path_of_library())"
        ran = subprocess.run([sys.executable, "-I", "-c", script], cwd=self.folder, capture_output=True, text=True)
        self.assertNotIn(str(self.folder), ran.stdout)
        self.assertTrue(ran.stdout == "libboddurci.so.2\n" or "libboddurci.so.2 cannot be loaded" in ran.stderr, ran)


class Saves(InFolder):
    def test_in_place(self):
        with boddurci.open(self.base, "c") as db:
            db[b"a"] = b"1"
        os.link(self.base + ".pag", self.base + ".other")
        with boddurci.open(self.base, "w") as db:
            db[b"a"] = b"2"
        self.assertTrue(os.path.samefile(self.base + ".pag", self.base + ".other"))
        os.utime(self.base + ".pag", (1000, 1000))
        with boddurci.open(self.base, "w") as db:
            db[b"a"] = b"2"
        self.assertEqual(os.stat(self.base + ".pag").st_mtime, 1000)

    def test_no_room(self):
        db = boddurci.open(self.base, "c")
        db[b"a"] = b"1"
        db.sync()
        db.update({b"%d" % i: b"x" * 900 for i in range(100)})
        limits = resource.getrlimit(resource.RLIMIT_FSIZE)
        resource.setrlimit(resource.RLIMIT_FSIZE, (20000, limits[1]))
        try:
            with self.assertRaisesRegex(boddurci.error, "BASE.(redo|pag) cannot be written"):
                db.sync()
        finally:
            resource.setrlimit(resource.RLIMIT_FSIZE, limits)
        os.rename(self.base + ".lock", self.base + ".away")
        with boddurci.open(self.base) as reader:
            self.assertEqual(reader.items(), [(b"a", b"1")])
        os.rename(self.base + ".away", self.base + ".lock")
        db.close()
        with boddurci.open(self.base) as reader:
            self.assertEqual(len(reader), 101)

    def test_too_long(self):
        """The last of these keys is refused, since its page would be past the greatest length of .pag. The other keys are saved."""
        keys = [b"far180463", b"far413", b"far192442", b"far4056234"]
        db = boddurci.open(self.base, "c")
        for key in keys[:3]:
            db[key] = b"x" * 900
        with self.assertRaisesRegex(boddurci.error, "too long: FILE\\.pag would exceed the limit, 1 GiB if none is given"):
            db[keys[3]] = b"x" * 900
        self.assertEqual(sorted(db.keys()), sorted(keys[:3]))
        db.sync()
        self.assertEqual(os.path.getsize(self.base + ".pag"), 1 << 30)
        del db[keys[0]]
        db[keys[3]] = b"x" * 900
        del db[keys[2]], db[keys[3]]
        db.close()
        with boddurci.open(self.base) as reader:
            self.assertEqual(reader.keys(), [keys[1]])

    def test_limit(self):
        """With the second key, .pag would be 1 MiB long. With a lower limit the key is refused, and nothing changes in memory or on the
        disk."""
        keys, value = [b"far180463", b"far413"], b"x" * 900
        for limit, fault in ((-1, ValueError), (2**64, ValueError), ("1", TypeError)):
            with self.assertRaises(fault):
                boddurci.open(self.base, "c", limit=limit)
        self.assertEqual(os.listdir(self.room.name), [])
        with boddurci.open(self.base, "c", limit=256 << 10) as db:
            db[keys[0]] = value
            db.sync()
            before = pathlib.Path(self.base + ".pag").read_bytes()
            with self.assertRaisesRegex(boddurci.error, "too long: FILE\\.pag would exceed the limit"):
                db[keys[1]] = value
            with self.assertRaisesRegex(boddurci.error, "too long"):
                db.run(db.program((TOP / "examples/counter.s").read_text()), keys[1], blank=900)
            self.assertEqual(db.items(), [(keys[0], value)])
        self.assertEqual(pathlib.Path(self.base + ".pag").read_bytes(), before)
        # A page past the limit stays, and its pairs can be replaced.
        with boddurci.open(self.base, "w", limit=0) as db:
            db[keys[0]] = value[1:]
        for limit in (1 << 20, 2**63):
            with boddurci.open(self.base, "w", limit=limit) as db:
                db[keys[1]] = value
                self.assertEqual(len(db), 2)
                del db[keys[1]]

    def test_no_room_for_a_page(self):
        db = boddurci.open(self.base, "c")
        db.update({b"%d" % i: b"x" * 900 for i in range(100)})
        db.sync()
        before = [pathlib.Path(self.base + ending).read_bytes() for ending in (".pag", ".dir")]
        db.update({b"%d" % i: b"y" for i in range(0, 100, 20)})
        limits = resource.getrlimit(resource.RLIMIT_FSIZE)
        resource.setrlimit(resource.RLIMIT_FSIZE, (20000, limits[1]))
        try:
            with self.assertRaisesRegex(boddurci.error, "BASE.(redo|pag) cannot be written") as caught:
                db.sync()
        finally:
            resource.setrlimit(resource.RLIMIT_FSIZE, limits)
        self.assertEqual(caught.exception.errno, errno.EFBIG)
        self.assertEqual([pathlib.Path(self.base + ending).read_bytes() for ending in (".pag", ".dir")], before)
        db.close()
        with boddurci.open(self.base) as reader:
            self.assertEqual(reader[b"20"], b"y")

    def test_a_save_that_is_kept_in_the_redo_file_is_warned_of(self):
        save = boddurci._call.save
        self.addCleanup(setattr, boddurci._call, "save", staticmethod(save))

        def pending(base, fault):
            status = save(base, fault)
            fault._obj.system, fault._obj.text = errno.ENOSPC, b"the save is kept in BASE.redo"
            return status

        with boddurci.open(self.base, "c") as db:
            db[b"a"] = b"1"
            boddurci._call.save = staticmethod(pending)
            with self.assertWarnsRegex(RuntimeWarning, "the save is kept in BASE.redo"):
                db.sync()
            boddurci._call.save = staticmethod(save)
        with boddurci.open(self.base) as db:
            self.assertEqual(db[b"a"], b"1")

    def test_cut_off(self):
        with boddurci.open(self.base, "c") as db:
            db[b"a"] = b"1"
        redo = pathlib.Path(self.base + ".redo")
        old = b"".join(os.path.getsize(self.base + ending).to_bytes(4, "little") for ending in (".pag", ".dir"))
        redo.write_bytes(b"\1sdbmred2" + bytes(8) + old + bytes(4))
        with boddurci.open(self.base) as db:
            self.assertEqual(len(db), 0)
        self.assertTrue(redo.exists())
        with boddurci.open(self.base, "w") as db:
            self.assertEqual(len(db), 0)
        self.assertEqual(redo.read_bytes()[:1], b"\0")
        for left in (b"\1plan", b"\1sdbmred2\0\4" + bytes(6) + b"\0\x08" + bytes(10)):
            redo.write_bytes(left)
            for flag in "rw":
                with self.assertRaisesRegex(boddurci.error, "BASE.redo is marked, and is not of these files"):
                    boddurci.open(self.base, flag)
            self.assertEqual(redo.read_bytes(), left)

    def test_strangers(self):
        with boddurci.open(self.base, "c") as db:
            db[b"a"] = b"1"
        os.unlink(self.base + ".redo")
        os.symlink("elsewhere", self.base + ".redo")
        with self.assertRaisesRegex(boddurci.error, "db.redo is a symbolic link, and is not taken"):
            boddurci.open(self.base)

    def test_moved(self):
        with boddurci.open(self.base, "c") as db:
            db[b"a"] = b"1"
            os.rename(self.base + ".lock", self.base + ".away")
            with self.assertRaisesRegex(boddurci.error, "BASE.lock is another file"):
                db.sync()
            os.rename(self.base + ".away", self.base + ".lock")

    def beside(self, script, *words):
        """Runs Perl's own SDBM_File on the files, which ignores the locks. Waits first, so that it runs in a later clock tick than the last
        save."""
        if not shutil.which("perl") or subprocess.run(["perl", "-MSDBM_File", "-e", "1"], capture_output=True).returncode:
            self.skipTest("Perl has no SDBM_File")
        time.sleep(0.05)
        tie = 'tie %h, "SDBM_File", shift, O_RDWR, 0666 or die; '
        words = ["perl", "-MSDBM_File", "-MFcntl", "-e", tie + script, self.base, *words]
        return subprocess.run(words, capture_output=True, text=True, check=True).stdout

    def test_changed_by_perl(self):
        """A save does not overwrite data that Perl has stored while the database was open, unless `insist` is true. This holds whether or
        not the database has changes."""
        db = boddurci.open(self.base, "c")
        db[b"a"] = b"1"
        db.sync()
        self.beside("$h{$_} = $_ for 1 .. 2000")
        for changes in range(3):
            files = [pathlib.Path(self.base + ending).read_bytes() for ending in (".pag", ".dir")]
            with self.assertRaisesRegex(boddurci.ChangedError, "another program has changed the files: BASE.pag has [0-9]+ bytes, and had 1024") as told:
                db.sync() if changes < 2 else db.close()
            self.assertEqual(told.exception.filename, self.base)
            self.assertIsInstance(told.exception, boddurci.error)
            self.assertEqual([pathlib.Path(self.base + ending).read_bytes() for ending in (".pag", ".dir")], files)
            db[b"b"] = b"2"
        self.assertEqual(self.beside("print scalar keys %h"), "2001")
        self.assertEqual(db.items(), [(b"a", b"1"), (b"b", b"2")])
        db.sync(insist=True)
        self.assertEqual(self.beside('print join " ", sort keys %h'), "a b")
        db[b"c"] = b"3"
        db.close()
        self.assertEqual(self.beside('print join " ", sort keys %h'), "a b c")

    def test_one_key_changed_by_perl(self):
        """Tests writes that do not change the length of the file: to a page that the database has changed too, and to a page that it has
        not changed."""
        for own in (True, False):
            with boddurci.open(self.base, "n") as db:
                db.update({b"%d" % i: b"x" * 20 for i in range(1000)})
                db.sync()
                self.beside('$h{7} = "p" x 20')
                if own:
                    db[b"7"] = b"y" * 20
                with self.assertRaisesRegex(boddurci.ChangedError, "BASE.pag was written" if own else "page [0-9]+ of BASE.pag has other bytes"):
                    db.sync()
                self.assertEqual(self.beside("print $h{7}"), "p" * 20)
                db.sync(insist=True)
                self.assertEqual(self.beside("print $h{7}"), ("y" if own else "x") * 20)

    def test_no_change(self):
        """A new mode, link or time of a file is not a change of its data, so a save succeeds. Pairs that Perl wrote before the database was
        opened stay."""
        with boddurci.open(self.base, "c") as db:
            db[b"a"] = b"1"
        self.beside("$h{perl} = 1")
        with boddurci.open(self.base, "w") as db:
            self.assertEqual(db[b"perl"], b"1")
            os.chmod(self.base + ".pag", 0o640)
            db.sync()
            os.link(self.base + ".pag", self.base + ".link")
            db[b"b"] = b"2"
            db.sync()
            time.sleep(0.02)  # a save cannot notice a new time within its own clock tick
            os.utime(self.base + ".pag")
            db.sync()
            db[b"c"] = b"3"
        self.assertEqual(self.beside('print join " ", sort keys %h'), "a b c perl")

    def test_a_time_that_is_put_back(self):
        """If a program writes a file and sets its time back, the comparison of pages finds the change."""
        with boddurci.open(self.base, "c") as db:
            db[b"a"] = b"1"
            db.sync()
            before = os.stat(self.base + ".pag")
            self.beside('$h{a} = "2"')
            os.utime(self.base + ".pag", ns=(before.st_atime_ns, before.st_mtime_ns))
            with self.assertRaisesRegex(boddurci.ChangedError, "page 0 of BASE.pag has other bytes"):
                db.sync()
            db.sync(insist=True)
        self.assertEqual(self.beside("print $h{a}"), "1")

    def test_what_another_program_wrote_is_read_anew(self):
        """After a ChangedError, the data of the other program stays, even if the process is killed or the database object is destroyed."""
        script = "import boddurci, os, subprocess, sys, time; db = boddurci.open(sys.argv[1], 'c'); db[b'a'] = b'1'; db.sync(); time.sleep(0.05); "
        script += "subprocess.run(sys.argv[3:], check=True); db[b'a'] = b'3'\n"
        script += "try: db.sync()\nexcept boddurci.ChangedError: os.kill(os.getpid(), 9) if sys.argv[2] == 'kill' else None\n"
        if not shutil.which("perl") or subprocess.run(["perl", "-MSDBM_File", "-e", "1"], capture_output=True).returncode:
            self.skipTest("Perl has no SDBM_File")
        perl = ["perl", "-MSDBM_File", "-MFcntl", "-e", 'tie %h, "SDBM_File", shift, O_RDWR, 0666 or die; $h{a} = "2"', self.base]
        for how in ("kill", "end"):
            env = {**os.environ, "PYTHONPATH": os.pathsep.join(sys.path)}
            ran = subprocess.run([sys.executable, "-c", script, self.base, how, *perl], env=env, capture_output=True, text=True, timeout=60)
            self.assertEqual(ran.returncode, -9 if how == "kill" else 0, ran.stderr)
            if how == "end":
                self.assertIn("the changes that were not saved are lost: another program has changed the files", ran.stderr)
            with boddurci.open(self.base, "w", wait=False) as db:
                self.assertEqual(db[b"a"], b"2")

    def test_a_slow_save_keeps_no_thread_waiting(self):
        save = boddurci._call.save
        self.addCleanup(setattr, boddurci._call, "save", staticmethod(save))
        begun = threading.Event()

        def slow(*words):
            begun.set()
            time.sleep(1)
            return save(*words)

        boddurci._call.save = staticmethod(slow)
        with boddurci.open(self.base, "c") as db:
            begun.clear()
            thread = threading.Thread(target=db.sync)
            thread.start()
            begun.wait()
            start = time.monotonic()
            db[b"a"] = b"1"
            self.assertEqual(db[b"a"], b"1")
            self.assertLess(time.monotonic() - start, 0.5)
            thread.join()
        with boddurci.open(self.base) as db:
            self.assertEqual(db[b"a"], b"1")


class Children(InFolder):
    def in_child(self, work):
        """Calls `work` in a forked child, which exits by os._exit, and returns its result."""
        reading, writing = os.pipe()
        child = os.fork()
        if child == 0:
            os.close(reading)
            told = "nothing"
            try:
                told = work()
            finally:
                os.write(writing, str(told).encode())
                os._exit(0)
        os.close(writing)
        with os.fdopen(reading) as pipe:
            told = pipe.read()
        os.waitpid(child, 0)
        return told

    def refused(self, db, program):
        """Makes calls on a database of the parent, and returns the number of refused calls."""
        calls = (
            lambda: db[b"a"],
            lambda: db.update({b"a": b"child"}),
            lambda: db.pop(b"a"),
            lambda: len(db),
            lambda: db.keys(),
            lambda: b"a" in db,
            lambda: db.sync(),
            lambda: db.program("mov r0, 0\nexit\n"),
            lambda: db.run(program, b"a", blank=8),
        )
        count = 0
        for call in calls:
            try:
                call()
            except boddurci.error as fault:
                count += "opened by another process" in str(fault)
        db.close()
        return count

    def test_refused(self):
        with boddurci.open(self.base, "c") as db:
            db[b"a"] = b"1"
            program = db.program((TOP / "examples/counter.s").read_text())
            self.assertEqual(self.in_child(lambda: self.refused(db, program)), "9")
            with open(self.base + ".writer", "rb") as lock, self.assertRaises(BlockingIOError):
                fcntl.flock(lock, fcntl.LOCK_EX | fcntl.LOCK_NB)
            db[b"a"] = b"2"
        with boddurci.open(self.base, wait=False) as db:
            self.assertEqual(db[b"a"], b"2")

    def test_exception_in_a_block(self):
        """An exception in a child closes the object of the child, and leaves the database to the parent."""

        def fails(db):
            try:
                with db:
                    raise ValueError
            except ValueError:
                return "ValueError"

        with boddurci.open(self.base, "c") as db:
            db[b"a"] = b"1"
            self.assertEqual(self.in_child(lambda: fails(db)), "ValueError")
            self.assertEqual(db[b"a"], b"1")
        with boddurci.open(self.base, wait=False) as db:
            self.assertEqual(db[b"a"], b"1")

    def test_ends(self):
        """The end of a child does not overwrite a later save of its parent."""
        script = """
import boddurci, os, sys
db = boddurci.open(sys.argv[1], "c")
db[b"a"] = b"old"
reading, writing = os.pipe()
if not os.fork():
    os.close(writing)
    os.read(reading, 1)
    if len(sys.argv) > 2:
        del db
    sys.exit()
db[b"a"] = b"new"
db.close()
os.close(writing)
os.wait()
"""
        for words in ([], ["del"]):
            words = [sys.executable, "-c", script, self.base, *words]
            env = {**os.environ, "PYTHONPATH": os.pathsep.join(sys.path)}
            subprocess.run(words, env=env, check=True, timeout=60)
            with boddurci.open(self.base, wait=False) as db:
                self.assertEqual(db[b"a"], b"new")

    def test_with_a_thread_at_work(self):
        with boddurci.open(self.base, "c") as db:
            is_over = threading.Event()

            def work():
                while not is_over.is_set():
                    db[b"a"] = b"1"
                    db.sync()

            # With this interval, forks happen during calls of the thread.
            interval = sys.getswitchinterval()
            sys.setswitchinterval(1e-6)
            thread = threading.Thread(target=work)
            thread.start()
            for _ in range(40):
                self.assertEqual(self.in_child(lambda: self.refused(db, None)), "9")
            is_over.set()
            thread.join()
            sys.setswitchinterval(interval)


class Programs(InFolder):
    def test_counter(self):
        text = (TOP / "examples/counter.s").read_text()
        with boddurci.open(self.base, "c") as db:
            counter = db.program(text)
            self.assertEqual(db.program(text), counter)
            with self.assertRaises(KeyError):
                db.run(counter, b"hits")
            for _ in range(300):
                self.assertEqual(db.run(counter, b"hits", blank=8), (1, 0))
            self.assertEqual(int.from_bytes(db[b"hits"], "little"), 300)
            for numbers in ({"now": -1}, {"now": 2**64}, {"now": 2**64 + 5}, {"blank": -1}, {"blank": 2**64}):
                with self.assertRaisesRegex(ValueError, f"{next(iter(numbers))} is a number from 0 to"):
                    db.run(counter, b"hits", **numbers)
            self.assertEqual(db.run(counter, b"hits", now=2**64 - 1), (1, 0))

    def test_time_and_argument(self):
        lease = (TOP / "examples/lease.s").read_text()
        ask = (7).to_bytes(8, "little") + (60).to_bytes(8, "little")
        other = (8).to_bytes(8, "little") + (60).to_bytes(8, "little")
        with boddurci.open(self.base, "c") as db:
            program = db.program(lease)
            self.assertEqual(db.run(program, b"it", ask, blank=16, now=1000), (1, 1060))
            self.assertEqual(db.run(program, b"it", other, blank=16, now=1059), (0, 1060))
            self.assertEqual(db.run(program, b"it", other, blank=16, now=1060), (1, 1120))
            self.assertEqual(db.run(program, b"it", ask, blank=16).end, 1)

    def test_refused(self):
        with boddurci.open(self.base, "c") as db:
            with self.assertRaises(boddurci.ProgramError) as caught:
                db.program("mov r0, 0\nhop\n")
            self.assertEqual((str(caught.exception), caught.exception.at), ("line 2: Mnemonic", 2))
            with self.assertRaises(boddurci.ProgramError) as caught:
                db.program("mov r0, 0\n")
            self.assertEqual((str(caught.exception), caught.exception.at), ("Verify(FallsOff(0))", 0))
            with self.assertRaises(boddurci.ProgramError) as caught:
                db.program(b"\0")
            self.assertEqual((str(caught.exception), caught.exception.at), ("Decode(Length)", None))
            with self.assertRaises(boddurci.ProgramError):
                db.run(boddurci.Program(0), b"a", blank=8)

    def test_of_another(self):
        text = (TOP / "examples/counter.s").read_text()
        with boddurci.open(self.base, "c") as db, boddurci.open(self.base + "2", "c") as other:
            counter = db.program(text)
            self.assertNotEqual(counter, other.program(text))
            with self.assertRaisesRegex(boddurci.ProgramError, "not accepted by this database"):
                other.run(counter, b"a", blank=8)
            self.assertEqual(len(other), 0)

    def test_threads(self):
        with boddurci.open(self.base, "c") as db:
            counter = db.program((TOP / "examples/counter.s").read_text())

            def work(own):
                for _ in range(500):
                    db.run(counter, b"all", blank=8)
                    db.run(counter, own, blank=8)
                    self.assertEqual(len(db[own]), 8)

            threads = [threading.Thread(target=work, args=(b"%d" % i,)) for i in range(4)]
            for it in threads:
                it.start()
            for _ in range(5):
                db.sync()
            for it in threads:
                it.join()
            self.assertEqual(int.from_bytes(db[b"all"], "little"), 2000)


NAMES = ("counter", "bounded_add", "bounded_counter", "compare_and_set", "sequence")
NAMES += ("lease", "fenced_lease", "rate_limit", "semaphore", "token_bucket")
MOST = 2**64 - 1


def packed(*numbers):
    return struct.pack(f"<{len(numbers)}Q", *numbers)


class Stocks(InFolder):
    """Tests of the stock programs, by name and through their classes."""

    def setUp(self):
        super().setUp()
        self.db = boddurci.open(self.base, "c")
        self.addCleanup(self.db.close)

    def test_names(self):
        for name in NAMES:
            program = self.db.stock(name)
            self.assertEqual(program, self.db.program((TOP / f"examples/{name}.s").read_text()))
            self.assertEqual(self.db.stock(name), program)
        self.assertEqual(self.db.run(self.db.stock("lease"), b"door", packed(7, 30), 16, 1000), (1, 1030))
        for name in ("", "Lease", "lease ", "lease.s", "lease\0", "\0lease", "@lease", "mu\u00df", "x" * 2000):
            with self.assertRaises(boddurci.ProgramError) as caught:
                self.db.stock(name)
            self.assertIsNone(caught.exception.at)
            for each in NAMES:
                self.assertRegex(str(caught.exception), rf"\b{each}\b")
        for name in (None, 7, b"lease"):
            with self.assertRaises(TypeError):
                self.db.stock(name)
        with boddurci.open(self.base + "2", "c") as other:
            self.assertNotEqual(other.stock("lease"), self.db.stock("lease"))
            with self.assertRaisesRegex(boddurci.ProgramError, "not accepted by this database"):
                other.run(self.db.stock("lease"), b"door", blank=16)

    def test_counter(self):
        hits = self.db.counter("hits")
        self.assertEqual((hits.get(), b"hits" in self.db), (0, False))
        self.assertEqual([hits.add(5), hits.add(-3), hits.add(), hits.add(0), hits.get()], [5, 2, 3, 3, 3])
        self.assertEqual(self.db[b"hits"], packed(3))
        self.db[b"hits"] = packed(MOST - 1) + b"tail"
        self.assertEqual((hits.add(1), hits.get()), (MOST, MOST))
        self.assertEqual(hits.add(-(2**63)), 2**63 - 1)
        self.assertEqual(hits.add(2**63 - 1), MOST - 1)
        self.assertEqual(self.db[b"hits"], packed(MOST - 1) + b"tail")

    def test_counter_at_its_bounds(self):
        self.db[b"hits"] = packed(MOST)
        with self.assertRaisesRegex(OverflowError, f"b'hits': {MOST} plus 1 is outside 0 to {MOST}$"):
            self.db.counter("hits").add(1)
        self.assertEqual(self.db[b"hits"], packed(MOST))
        for amount in (-1, -(2**63)):
            with self.assertRaises(OverflowError):
                self.db.counter("none").add(amount)
        self.assertNotIn(b"none", self.db)
        seats = self.db.counter("seats", floor=2, ceiling=10)
        with self.assertRaisesRegex(OverflowError, "0 plus 1 is outside 2 to 10"):
            seats.add(1)
        self.assertEqual([seats.add(2), seats.add(8)], [2, 10])
        for amount in (1, -9, 2**63 - 1, -(2**63)):
            with self.assertRaisesRegex(OverflowError, f"10 plus {amount} is outside 2 to 10"):
                seats.add(amount)
            self.assertEqual(seats.get(), 10)
        self.assertEqual(seats.add(-8), 2)

    def test_counter_in_threads(self):
        def work():
            hits = self.db.counter("hits")
            for _ in range(500):
                hits.add(3)
                hits.add(-1)

        threads = [threading.Thread(target=work) for _ in range(4)]
        for it in threads:
            it.start()
        for _ in range(5):
            self.db.sync()
        for it in threads:
            it.join()
        self.assertEqual(self.db.counter("hits").get(), 4000)

    def test_lease(self):
        door = self.db.lease("door")
        self.assertEqual(door.acquire(7, 30, now=1000), 1030)
        self.assertEqual(self.db[b"door"], packed(7, 1030))
        self.assertIsNone(door.acquire(8, 30, now=1029))
        self.assertEqual(door.acquire(7, 60, now=1010), 1070)
        self.assertEqual(door.acquire(7, 5, now=1020), 1025)
        self.assertIsNone(door.acquire(8, 30, now=1024))
        self.assertEqual(door.acquire(8, 30, now=1025), 1055)
        self.assertIs(door.release(7, now=1026), False)
        self.assertEqual(self.db[b"door"], packed(8, 1055))
        self.assertIs(door.release(8, now=1026), True)
        self.assertNotIn(b"door", self.db)
        self.assertIs(door.release(8, now=1026), False)
        self.assertNotIn(b"door", self.db)
        # A lease that has ended has no holder.
        self.assertEqual(door.acquire(7, 1, now=2000), 2001)
        self.assertIs(door.release(7, now=2001), False)
        self.assertNotIn(b"door", self.db)
        self.assertEqual(door.acquire(0, MOST, now=5), MOST)
        self.assertIsNone(door.acquire(1, 1, now=MOST - 1))
        self.assertEqual(door.acquire(MOST, 1, now=MOST), MOST)

    def test_lease_by_the_clock(self):
        door = self.db.lease("door")
        with unittest.mock.patch("time.time", lambda: 5000.9):
            self.assertEqual(door.acquire(7, 30), 5030)
            self.assertIsNone(door.acquire(8, 30))
        with unittest.mock.patch("time.time", lambda: 5029.9):
            self.assertIsNone(door.acquire(8, 30))
            self.assertIs(door.release(8), False)
        with unittest.mock.patch("time.time", lambda: 5030.0):
            self.assertEqual(door.acquire(8, 30), 5060)
            self.assertIs(door.release(8), True)
        self.assertAlmostEqual(door.acquire(7, 30), time.time() + 30, delta=20)

    def test_fenced_lease(self):
        door = self.db.fenced_lease("door")
        self.assertIs(door.release(7, now=1), False)
        self.assertNotIn(b"door", self.db)
        self.assertEqual(door.acquire(7, 30, now=1000), boddurci.Grant(end=1030, token=1))
        self.assertEqual(door.acquire(7, 5, now=1010), (1015, 1))
        self.assertIsNone(door.acquire(8, 30, now=1014))
        self.assertEqual(door.acquire(8, 30, now=1015), (1045, 2))
        self.assertIs(door.release(7, now=1016), False)
        self.assertIs(door.release(8, now=1016), True)
        self.assertEqual(self.db[b"door"], packed(8, 0, 2))
        self.assertEqual(door.acquire(8, MOST, now=1016), (MOST, 3))
        self.db[b"door"] = packed(8, 1020, MOST)
        self.assertEqual(door.acquire(8, 5, now=1019), (1024, MOST))
        with self.assertRaisesRegex(OverflowError, "all tokens of b'door' are used up"):
            door.acquire(8, 5, now=1024)
        self.assertEqual(self.db[b"door"], packed(8, 1024, MOST))

    def test_leases_never_overlap(self):
        """Tests random calls of three owners at times that never fall. A lease is granted if and only if no other owner holds it, and each
        new owner gets a greater token."""
        rng = random.Random(3)
        for lease in (self.db.lease("door"), self.db.fenced_lease("gate")):
            now, ends, token = 0, {}, 0
            for _ in range(3000):
                now, owner = now + rng.choice((0, 0, 1, 3)), rng.randrange(3)
                is_own = now < ends.get(owner, 0)
                if rng.random() < 0.2:
                    self.assertIs(lease.release(owner, now), is_own)
                    ends.pop(owner, None)
                    continue
                seconds, is_barred = rng.randrange(1, 9), any(now < ends[other] for other in ends if other != owner)
                told = lease.acquire(owner, seconds, now)
                self.assertEqual(told is None, is_barred)
                if told is not None:
                    ends[owner], token = now + seconds, token if is_own else token + 1
                    is_fenced = isinstance(lease, boddurci.FencedLease)
                    self.assertEqual(told, (ends[owner], token) if is_fenced else ends[owner])

    def test_semaphore(self):
        pool = self.db.semaphore("pool", 2)
        self.assertIs(pool.release(), False)
        self.assertNotIn(b"pool", self.db)
        self.assertEqual([pool.acquire() for _ in range(4)], [True, True, False, False])
        self.assertEqual(self.db[b"pool"], packed(2))
        self.assertIs(self.db.semaphore("pool", 3).acquire(), True)
        self.assertEqual([pool.release() for _ in range(4)], [True, True, True, False])
        self.assertEqual(self.db[b"pool"], packed(0))

    def test_rate_limit(self):
        calls = self.db.rate_limit("ann", 3, 10)
        self.assertEqual([calls.admit(now) for now in (100, 100, 101, 102, 109)], [True, True, True, False, False])
        self.assertEqual(self.db[b"ann"], packed(100, 3))
        self.assertEqual([calls.admit(now) for now in (110, 119, 119, 119, 120)], [True, True, True, False, True])
        # A time before the beginning of the window begins a new window.
        self.assertIs(calls.admit(50), True)
        self.assertEqual(self.db[b"ann"], packed(50, 1))
        once = self.db.rate_limit("bob", 1, 3600)
        with unittest.mock.patch("time.time", lambda: 5000.9):
            self.assertEqual([once.admit(), once.admit()], [True, False])
        with unittest.mock.patch("time.time", lambda: 8600.0):
            self.assertIs(once.admit(), True)

    def test_times_are_those_of_the_runs(self):
        """A thread that waits for the lock reads the time after it gets the lock, so times do not fall."""
        clock = [100]
        gate = self.db.fenced_lease("gate")
        gate.acquire(7, 1000, now=50)
        for key, record, call in (
            (b"ann", packed(105, 2), lambda: self.db.rate_limit("ann", 3, 60).admit()),
            (b"door", packed(7, 135), lambda: self.db.lease("door").acquire(7, 30)),
            (b"gate", packed(7, 135, 1), lambda: gate.acquire(7, 30)),
        ):
            with unittest.mock.patch("time.time", lambda: clock[0]):
                clock[0] = 100
                late = threading.Thread(target=call)
                with self.db._lock:
                    late.start()
                    time.sleep(0.2)
                    clock[0] = 105
                    call()
                late.join()
            self.assertEqual(self.db[key], record)

    def test_keys_that_are_too_long(self):
        db, key = self.db, b"k" * 1001
        for call in (db.counter(key).add, db.semaphore(key, 1).acquire, db.rate_limit(key, 1, 60).admit,
                     lambda: db.lease(key).acquire(7, 30), lambda: db.fenced_lease(key).acquire(7, 30)):
            with self.assertRaises(boddurci.error):
                call()
        self.assertEqual(len(db), 0)

    def calls(self, key=b"it"):
        """Returns the methods of the classes for one key, each with the length of its record."""
        db, counter = self.db, self.db.counter(key)
        return (
            (8, counter.get),
            (8, lambda: counter.add(1)),
            (8, lambda: counter.add(-1)),
            (16, lambda: db.lease(key).acquire(7, 30)),
            (16, lambda: db.lease(key).release(7)),
            (24, lambda: db.fenced_lease(key).acquire(7, 30)),
            (24, lambda: db.fenced_lease(key).release(7)),
            (8, db.semaphore(key, 1).acquire),
            (8, db.semaphore(key, 1).release),
            (16, db.rate_limit(key, 1, 60).admit),
        )

    def test_records_of_other_lengths(self):
        for length, call in self.calls():
            for short in (0, 1, length - 1):
                self.db[b"it"] = b"\1" * short
                with self.assertRaisesRegex(boddurci.RecordError, f"b'it' is too short: [a-z_]+ takes {length} bytes or more"):
                    call()
                self.assertEqual(self.db[b"it"], b"\1" * short)
            self.db[b"it"] = packed(1, 0, 0) + b"tail"
            call()
            self.assertTrue(self.db.get(b"it", b"tail").endswith(b"tail"))
        self.assertTrue(issubclass(boddurci.RecordError, (boddurci.error, ValueError)))

    def test_arguments(self):
        db, door = self.db, self.db.lease("door")
        fenced, calls, pool = db.fenced_lease("door"), db.rate_limit("door", 1, 1), db.semaphore("door", 1)
        numbers = {
            "amount": (db.counter("door").add, -(2**63), 2**63 - 1),
            "floor": (lambda n: db.counter("door", floor=n, ceiling=9), 0, 9),
            "ceiling": (lambda n: db.counter("door", ceiling=n), 0, MOST),
            "owner": (lambda n: (door.acquire(n, 1, 1), fenced.acquire(n, 1, 1)), 0, MOST),
            "seconds": (lambda n: (door.acquire(7, n, 1), fenced.acquire(7, n, 1), db.rate_limit("door", 1, n)), 1, MOST),
            "now": (lambda n: (door.acquire(7, 1, n), fenced.acquire(7, 1, n), calls.admit(n)), 0, MOST),
            "size": (lambda n: db.semaphore("door", n), 1, MOST),
            "count": (lambda n: db.rate_limit("door", n, 1), 1, MOST),
        }
        for name, (call, least, most) in numbers.items():
            for number in (least - 1, most + 1, -(2**200), 2**200):
                with self.assertRaisesRegex(ValueError, f"^{name} is a number from {least} to {most}$"):
                    call(number)
            for strange in ("7", b"7", 7.0, [7], True):
                with self.assertRaisesRegex(TypeError, f"^{name} is an int, not {type(strange).__name__}$"):
                    call(strange)
        for call in (lambda: door.release(-1), lambda: door.release(7, now=MOST + 1), lambda: fenced.release(MOST + 1)):
            with self.assertRaises(ValueError):
                call()
        for call in (lambda: door.acquire(None, 1), lambda: door.release("ann"), lambda: door.acquire(7, 1, now=1.5)):
            with self.assertRaises(TypeError):
                call()
        for call in (lambda: db.counter(7), lambda: db.lease(None), lambda: db.semaphore("door")):
            with self.assertRaises(TypeError):
                call()
        self.assertEqual(db.keys(), [])
        self.assertIs(pool.release(), False)

    def test_read_only_and_closed(self):
        self.db.counter("hits").add(4)
        self.db.close()
        self.db = boddurci.open(self.base)
        self.assertEqual(self.db.counter("hits").get(), 4)
        calls = [call for _, call in self.calls(b"hits")]
        hits = self.db.counter("hits")
        for call in (lambda: hits.add(1), calls[3], calls[7], calls[9]):
            with self.assertRaisesRegex(boddurci.error, "read only"):
                call()
        self.db.close()
        for call in (hits.get, *calls, lambda: self.db.stock("lease"), lambda: self.db.lease("door")):
            with self.assertRaisesRegex(boddurci.error, "the database is closed"):
                call()

    def test_in_turn_with_perl(self):
        """Python and Perl change the same records in turn."""
        if not shutil.which("perl") or subprocess.run(["perl", "-MFFI::Platypus", "-e", "1"], capture_output=True).returncode:
            self.skipTest("Perl has no FFI::Platypus")
        script = """
            tie my %db, "Boddurci", shift, "w";
            my ($db, $owner, $now) = (tied %db, @ARGV);
            my @told = ($db->counter("hits")->add(-2), $db->lease("door")->acquire($owner, 30, now => $now) // "none");
            push @told, join("/", $db->fenced_lease("gate")->acquire($owner, 30, now => $now)) || "none";
            push @told, map { $_ ? 1 : 0 } $db->semaphore("pool", 3)->acquire, $db->rate_limit("ann", 3, 60)->admit(now => $now);
            print "@told";
        """

        def in_perl(owner, now):
            words = ["perl", f"-I{TOP / 'bindings/perl'}", "-MBoddurci", "-e", script, self.base, str(owner), str(now)]
            return subprocess.run(words, capture_output=True, text=True, check=True).stdout

        def here(owner, now):
            with boddurci.open(self.base, "w") as db:
                leases = [lease.acquire(owner, 30, now) for lease in (db.lease("door"), db.fenced_lease("gate"))]
                return db.counter("hits").add(10), *leases, db.semaphore("pool", 3).acquire(), db.rate_limit("ann", 3, 60).admit(now)

        self.db.close()
        self.assertEqual(here(1, 1000), (10, 1030, (1030, 1), True, True))
        self.assertEqual(in_perl(2, 1029), "8 none none 1 1")
        self.assertEqual(in_perl(2, 1030), "6 1060 1060/2 1 1")
        self.assertEqual(here(1, 1059), (16, None, None, False, False))
        self.assertEqual(here(1, 1060), (26, 1090, (1090, 3), False, True))
        self.assertEqual(in_perl(1, 1061), "24 1091 1091/3 0 1")


class BesideADict(InFolder):
    def test_random_calls(self):
        calls, rng, model = int(os.environ.get("BODDURCI_CALLS", "100000")), random.Random(1), {}
        db = boddurci.open(self.base, "c")
        counter = db.program((TOP / "examples/counter.s").read_text())
        for call in range(calls):
            key = b"%d" % int(rng.expovariate(1) * 3000)
            what = rng.random()
            if what < 0.4:
                db[key] = model[key] = rng.randbytes(int(rng.expovariate(1) * 30) % 900)
            elif what < 0.6:
                self.assertEqual(db.get(key), model.get(key))
            elif what < 0.75:
                self.assertEqual(db.pop(key, None), model.pop(key, None))
            elif what < 0.95:
                old = model.get(key, bytes(8))
                if len(old) >= 8:
                    model[key] = ((int.from_bytes(old[:8], "little") + 1) % 2**64).to_bytes(8, "little") + old[8:]
                self.assertEqual(db.run(counter, key, blank=8).end, 1 if len(old) >= 8 else 4)
            elif call % 1000 == 0:
                self.assertEqual(len(db), len(model))
            elif call % 3000 == 1:
                self.assertEqual(dict(db.items()), model)
            elif what > 0.9999:
                db.close()
                db = boddurci.open(self.base, "w")
                counter = db.program((TOP / "examples/counter.s").read_text())
        db.close()
        with boddurci.open(self.base) as db:
            self.assertEqual(dict(db.items()), model)
        self.reads_in_perl(model)

    def reads_in_perl(self, model):
        if not shutil.which("perl") or subprocess.run(["perl", "-MSDBM_File", "-e", "1"], capture_output=True).returncode:
            return
        script = 'tie %h, "SDBM_File", $ARGV[0], O_RDONLY, 0666 or die; print unpack("H*", $_), " ", unpack("H*", $h{$_}), "\\n" for keys %h'
        ran = subprocess.run(["perl", "-MSDBM_File", "-MFcntl", "-e", script, self.base], capture_output=True, text=True, check=True)
        told = dict(tuple(bytes.fromhex(it) for it in line.split(" ")) for line in ran.stdout.splitlines())
        self.assertEqual(told, model)


if AnyDBMTestCase:

    class AsDbm(AnyDBMTestCase, unittest.TestCase):
        """The cases of CPython's tests of dbm modules."""

        module = boddurci
        _dict = dict(AnyDBMTestCase._dict)

        def setUp(self):
            before, opened = os.getcwd(), dbm.open
            room = tempfile.TemporaryDirectory(prefix="boddurci-")
            self.addCleanup(room.cleanup)
            self.addCleanup(os.chdir, before)
            self.addCleanup(setattr, dbm, "open", opened)
            os.chdir(room.name)
            dbm.open = boddurci.open
            super().setUp()


class Shared(InFolder):
    """Tests of shared databases. tests/shared has the tests of the library itself."""

    def shared(self, flag="c", **more):
        db = boddurci.open(self.base, flag, shared=True, **more)
        self.addCleanup(db.close)
        return db

    def test_mapping(self):
        db, other = self.shared(), self.shared("w")
        db[b"a"] = b"b"
        self.assertEqual((other[b"a"], b"a" in other, b"x" in other, len(other)), (b"b", True, False, 1))
        other["c"] = "long" * 100
        self.assertEqual(db.get(b"c"), b"long" * 100)
        self.assertEqual((sorted(db), sorted(db.keys()), sorted(map(len, db.values()))), ([b"a", b"c"], [b"a", b"c"], [1, 400]))
        self.assertEqual(sorted(db.items())[0], (b"a", b"b"))
        self.assertEqual((db.setdefault(b"a", b"x"), db.setdefault(b"d", b"x"), other[b"d"]), (b"b", b"x", b"x"))
        del db[b"a"]
        for missing in (lambda: db[b"a"], lambda: other.pop(b"a"), lambda: db.__delitem__(b"a")):
            self.assertRaises(KeyError, missing)
        db.clear()
        self.assertEqual((len(other), list(other)), (0, []))
        self.assertRaisesRegex(boddurci.error, "too many bytes", db.__setitem__, b"a", bytes(2000))
        db.flush(), db.sync()

    def test_without_flushes(self):
        """Other processes see each change at once. After a flush, the data files have it."""
        self.assertRaises(ValueError, boddurci.open, self.base, "c", flush=False)
        db, other = self.shared(flush=False), self.shared()
        for number in range(30):
            db[b"a"] = b"%d" % number
            hits = db.counter(b"hits").add()
            with boddurci.open(self.base) as reader:
                self.assertEqual((reader[b"a"], other[b"a"], hits), (b"%d" % number, b"%d" % number, number + 1))
        words = "import boddurci, os, sys; db = boddurci.open(sys.argv[1], 'w', shared=True, flush=False)"
        words += "; db[b'a'] = b'killed'; os.kill(os.getpid(), 9)"
        env = {**os.environ, "PYTHONPATH": str(pathlib.Path(boddurci.__file__).parent)}
        self.assertEqual(subprocess.run([sys.executable, "-c", words, self.base], env=env).returncode, -9)
        self.assertEqual((other[b"a"], db[b"a"], sorted(db)), (b"killed", b"killed", [b"a", b"hits"]))
        db[b"b"] = b"value of b"
        db.flush(), db.sync(), other.flush()
        self.assertIn(b"value of b", pathlib.Path(self.base + ".pag").read_bytes())
        db[b"b"] = b"the last value"
        db.close()
        self.assertIn(b"the last value", pathlib.Path(self.base + ".pag").read_bytes())
        self.assertRaisesRegex(boddurci.error, "closed", db.flush)

    def test_exception_in_a_block(self):
        """Each change is durable by itself, so an exception in a `with` block drops no change."""
        with self.assertRaises(ValueError), self.shared() as db:
            db[b"a"] = b"1"
            raise ValueError
        self.assertEqual(self.shared("r")[b"a"], b"1")

    def test_programs(self):
        db = self.shared()
        hits, doors = db.counter(b"hits"), db.semaphore(b"door", 1)
        self.assertEqual((hits.get(), hits.add(), hits.add(5), hits.get()), (0, 1, 6, 6))
        self.assertRaises(OverflowError, db.counter(b"hits", ceiling=7).add, 2)
        self.assertEqual((self.shared().counter(b"hits").add(-4), hits.get(), db[b"hits"]), (2, 2, b"\2" + bytes(7)))
        db[b"short"] = b"1234567"
        self.assertRaises(boddurci.RecordError, db.counter(b"short").add)
        self.assertEqual(db[b"short"], b"1234567")
        self.assertEqual((doors.acquire(), doors.acquire(), doors.release(), doors.release()), (True, False, True, False))
        self.assertTrue(db.lease(b"lease").acquire(7, 30) and not db.lease(b"lease").acquire(8, 30) and db.lease(b"lease").release(7))
        # The library reads the clock, under the locks.
        with unittest.mock.patch("time.time", return_value=1):
            end = db.lease(b"timed").acquire(7, 30)
            self.assertTrue(db.rate_limit(b"limited", 1, 30).admit())
        self.assertTrue(abs(end - 30 - time.time()) < 20)
        self.assertTrue(abs(int.from_bytes(db[b"limited"][:8], "little") - time.time()) < 20)
        self.assertEqual((db.lease(b"own").acquire(7, 30, now=5), db.lease(b"own").release(7, now=6), b"own" in db), (35, True, False))
        seven = db.program("mov r0, 7\nexit\n")
        self.assertEqual(db.run(seven, b"a", blank=8).end, 7)
        self.assertRaises(KeyError, db.run, seven, b"a")
        self.assertRaises(boddurci.ProgramError, self.shared().run, seven, b"a", blank=8)
        self.assertRaises(boddurci.ProgramError, db.program, "mov r0\n")
        self.assertRaises(boddurci.ProgramError, db.program, bytes(8))
        self.assertRaisesRegex(boddurci.ProgramError, "the names are", db.stock, "nothing")

    def test_forks_and_threads(self):
        db = self.shared()
        hits = db.counter(b"hits")
        children = []
        for _ in range(3):
            child = os.fork()
            if child == 0:
                try:
                    for _ in range(20):
                        hits.add()
                finally:
                    os._exit(0)
            children.append(child)
        threads = [threading.Thread(target=lambda: [hits.add() for _ in range(20)]) for _ in range(3)]
        for thread in threads:
            thread.start()
        for thread in threads:
            thread.join()
        for child in children:
            os.waitpid(child, 0)
        self.assertEqual(hits.get(), 120)

    def test_beside_an_owner(self):
        db = self.shared(timeout=0.3)
        db[b"a"] = b"1"
        words = "import boddurci, sys; db = boddurci.open(sys.argv[1], 'w'); db[b'a'] = b'2'; db.sync(); print(); sys.stdin.read()"
        env = {**os.environ, "PYTHONPATH": str(pathlib.Path(boddurci.__file__).parent)}
        pipe = subprocess.PIPE
        with subprocess.Popen([sys.executable, "-c", words, self.base], stdin=pipe, stdout=pipe, text=True, env=env) as owner:
            owner.stdout.readline()
            self.assertRaises(boddurci.Locked, db.__setitem__, b"a", b"3")
            self.assertEqual(db[b"a"], b"2")
            owner.stdin.close()
        db[b"a"] = b"3"
        with boddurci.open(self.base) as reader:
            self.assertEqual(reader[b"a"], b"3")

    def test_faults(self):
        self.assertRaises(boddurci.error, boddurci.open, self.base, "w", shared=True)
        self.assertRaises(ValueError, boddurci.open, self.base, "n", shared=True)
        self.assertRaises(ValueError, boddurci.open, self.base, "c", shared=True, limit=1)
        db = self.shared()
        reader = self.shared("r")
        self.assertRaisesRegex(boddurci.error, "read only", reader.__setitem__, b"a", b"b")
        self.assertNotIn(b"a", reader)
        db.close()
        db.close()
        self.assertRaisesRegex(boddurci.error, "closed", db.__getitem__, b"a")
        self.assertRaisesRegex(boddurci.error, "closed", len, db)

    def test_folder(self):
        was = os.getcwd()
        self.addCleanup(os.chdir, was)
        os.chdir(self.room.name)
        db = boddurci.open("db", "c", shared=True)
        self.addCleanup(db.close)
        os.chdir("/")
        db[b"a"] = b"b"
        self.assertEqual(list(db), [b"a"])


if __name__ == "__main__":
    unittest.main()
