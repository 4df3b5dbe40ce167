"""Boddurci for Python: a key-value store in the two files of an sdbm database. Small verified programs run on its records.

    import boddurci
    with boddurci.open("visits", "c") as db:
        db[b"ab"] = b"xyz"
        db.counter(b"hits").add(5)
        end = db.lease(b"door").acquire(owner=7, seconds=30)
        histogram = db.program(open("examples/histogram.s").read())
        db.run(histogram, b"sizes", arg=b"\\3", blank=64)

The methods `counter`, `lease`, `fenced_lease`, `semaphore` and `rate_limit` of a database run stock programs. Each of these programs has a
proved law (docs/PROGRAMS.md), for keys that no other program and no store changes.

`open` can replace `dbm.open`: keys and values are bytes, and a str is encoded as UTF-8. An open database is in memory. `sync` and `close`
write its files. After a crash during `sync` or `close`, the files have either the old database or the new one.

Only one process at a time can have a database open for writing. Another `open` waits for that process, 5 seconds by default, and then
raises Locked. An `open` for reading does not wait, and reads the last save. If a program that ignores the locks, such as Perl's SDBM_File,
has changed the files meanwhile, `sync` and `close` raise ChangedError and write nothing. With `open(.., shared=True)`, several processes
can change one database. Each call is then one durable step, and forked children may use the object. With `flush=False` as well, a change
returns before it is durable: a crash of the machine may lose the last changes, and a killed process loses none.

At its end, a `with` block saves and closes its database. After an exception it closes the database without a save: the changes since the
last `sync` are dropped, and the files are unchanged. A database that is not closed is saved and closed when its object is destroyed, or at
the latest when the interpreter exits. If that fails, a RuntimeWarning names the database.

Threads may share a database. A signal handler that interrupts a call may not use the database, but may raise. In a child of the process
that opened the database, every call except `close` raises an error, and nothing is saved; only a shared database may be used in a child.

The module needs the shared object that `./dbm --build-library` makes. If BODDURCI_LIBRARY is set, it is the absolute path of the file to
load. Otherwise the module loads libboddurci.so next to this file, or else from out/boddurci of the repository, or else the one that the
system finds. The module ignores BODDURCI_LIBRARY in `python -I` and `python -E`, and if the effective user or group is not the real one. It
calls the library with ctypes. If the extension `_boddurci` is built (`pip install bindings/python`), fetch, store, delete and run use the
extension, which is several times as fast and has the same results.

The store is proved, and so is the order of the calls that write a save (docs/PROOFS.md). This module, and the C code that opens, locks and
writes the files, are tested and not proved.
"""

import atexit
import contextlib
import ctypes
import operator
import os
import pathlib
import struct
import sys
import threading
import time
import warnings
import weakref
from collections import deque
from collections.abc import MutableMapping
from typing import NamedTuple

__all__ = ["ChangedError", "Counter", "Database", "FencedLease", "Grant", "Lease", "Locked", "Program", "ProgramError", "Ran", "RateLimit"]
__all__ += ["RecordError", "Semaphore", "SharedDatabase", "error", "open"]

# The statuses of boddurci.h and boddurci_files.h, and this module's texts for some statuses. The library has a text for each status.
_DONE, _MISSING, _REFUSED, _BAD_TEXT, _CHANGED, _IS_CLOSED, _NO_STOCK, _LOCKED, _FORKED, _INTERRUPTED = 0, 1, 5, 6, 8, 16, 24, 33, 39, 41
_EXISTS, _SHORT_ROOM, _BAD_FILES, _FILE_FAILED = 2, 4, 7, 32
_WORDS = {
    2: "the key exists",
    3: "crowded: no room for the pair, however often its page is split",
    16: "the database is closed",
    18: "key and value have too many bytes together",
    19: "the argument has more than 1,024 bytes",
    20: "no program has the number",
    22: "too long: FILE.pag would exceed the limit, 1 GiB if none is given; nothing was changed, and the database can be saved",
    39: "the database was opened by another process",
}

# The flags of boddurci_files.h.
_WIDE, _UNSIGNED_KEYS, _READ_ONLY, _NO_WAIT, _MUST_EXIST, _EMPTY, _ANY_SIZE, _INSIST = 1, 2, 4, 8, 16, 32, 64, 128
_NO_FLUSH = 256

_VALUE_MOST = 8008
_IMAGE_MOST = 32768
_TIME_MOST, _SIZE_MOST = 2**64 - 1, ctypes.c_size_t(-1).value

# The milliseconds that a call of a shared database waits for a lock before it repeats the wait.
_SLICE = 200

# The number of pairs that an iteration reads at a time.
_AT_A_TIME = 1000


class error(OSError):
    """The exception of a refused call, or of a system error on a file, which has errno and the name of the file."""

    def __str__(self):
        return super().__str__() if self.errno is not None else "".join(map(str, self.args[:1]))


class ProgramError(error, ValueError):
    """The exception of a refused program. `at` is the line of its text or the unit of its image that has the fault, or None."""

    def __init__(self, text, at):
        super().__init__(text)
        self.at = at


class Locked(error):
    """Another process had the database open for writing, or used its files, for longer than the timeout. The text names the process if the
    system reports it."""


class ChangedError(error):
    """Another program has changed the files since this database read or saved them, so `sync` and `close` have written nothing. The
    database stays open. `sync(insist=True)` overwrites the files."""


class RecordError(error, ValueError):
    """The exception of a record that is too short for a stock program. The record is unchanged."""


class Ran(NamedTuple):
    """The result of a run: the number that the program returned (1 saved the record, 2 deleted it, any other changed nothing) and its reply
    word."""

    end: int
    word: int


class Program:
    """A program that a database has accepted, and its number. Only the database object that accepted the program can run it."""

    __slots__ = ("number", "_of")

    def __init__(self, number, of=None):
        self.number, self._of = number, of

    def __eq__(self, other):
        return isinstance(other, Program) and (self.number, self._of) == (other.number, other._of)

    def __hash__(self):
        return hash((self.number, self._of))

    def __repr__(self):
        return f"Program({self.number})"


class Grant(NamedTuple):
    """The result of `FencedLease.acquire`: the time at which the lease ends, and its token."""

    end: int
    token: int


class _Fault(ctypes.Structure):
    _fields_ = [("status", ctypes.c_uint32), ("system", ctypes.c_int), ("text", ctypes.c_char * 200)]


class _Cursor(ctypes.Structure):
    _fields_ = [("page", ctypes.c_uint32), ("end", ctypes.c_uint32), ("pair", ctypes.c_size_t)]


# The name of the library for the system's loader.
_SONAME = "libboddurci.so.2"


def _obeys_environment():
    """Returns whether BODDURCI_LIBRARY may choose the library. It may not do so in `python -I` and `-E`, or if the process has rights
    that its user lacks."""
    is_own = os.geteuid() == os.getuid() and os.getegid() == os.getgid()
    return is_own and not sys.flags.isolated and not sys.flags.ignore_environment


def _path_of_library():
    """Returns the path of the shared object. Never searches the working folder."""
    named = os.environ.get("BODDURCI_LIBRARY") if _obeys_environment() else None
    if named and not os.path.isabs(named):
        raise ImportError(f"BODDURCI_LIBRARY is {named!r}: give the absolute path of the library")
    if named and not os.path.exists(named):
        raise ImportError(f"BODDURCI_LIBRARY is {named!r}, which is missing: make the library with ./dbm --build-library")
    here = pathlib.Path(__file__).resolve()
    for path in (named, here.parent / "libboddurci.so", here.parent.parent.parent / "out/boddurci/libboddurci.so"):
        if path and os.path.exists(path):
            return str(path)
    return _SONAME


def _bind():
    """Yields the calls of the library. Calls that may wait release the interpreter lock."""
    path = _path_of_library()
    try:
        waits, quick = ctypes.CDLL(path), ctypes.PyDLL(path)
    except OSError as why:
        hint = "make libboddurci.so with ./dbm --build-library, and name it in BODDURCI_LIBRARY"
        raise ImportError(f"{path} cannot be loaded: {hint}") from why
    u32, u64, size = ctypes.c_uint32, ctypes.c_uint64, ctypes.c_size_t
    text, at = ctypes.c_char_p, ctypes.c_void_p
    kinds = {
        "open_files_within": (waits, at, [text, u32, ctypes.c_int64, at]),
        "files_text": (quick, text, [u32]),
        "save": (waits, u32, [at, at]),
        "save_with": (waits, u32, [at, u32, at]),
        "close_files": (waits, None, [at]),
        "take": (waits, at, [at]),
        "give": (quick, None, [at]),
        "limit": (quick, u32, [at, size]),
        "fetch": (quick, u32, [at, text, size, at, size, at]),
        "store": (quick, u32, [at, text, size, text, size, u32]),
        "delete": (quick, u32, [at, text, size]),
        "count": (quick, u32, [at, at]),
        "assemble": (quick, u32, [text, size, at, size, at, at, at, size, at]),
        "submit": (quick, u32, [at, text, size, at, at, at, size, at]),
        "submit_stock": (quick, u32, [at, text, size, at]),
        "run": (quick, u32, [at, u32, text, size, text, size, u32, size, u64, at, at]),
        "first": (quick, u32, [at, at]),
        "next": (quick, u32, [at, at, at, size, at, at, size, at]),
        "open_shared": (waits, at, [text, u32, at]),
        "close_shared": (waits, None, [at]),
        "shared_wait": (quick, u32, [at, ctypes.c_int64]),
        "shared_flush": (waits, u32, [at, at]),
        "shared_fetch": (waits, u32, [at, text, size, at, size, at, at]),
        "shared_store": (waits, u32, [at, text, size, text, size, u32, at]),
        "shared_delete": (waits, u32, [at, text, size, at]),
        "shared_run": (waits, u32, [at, u32, text, size, text, size, u32, size, u64, at, at, at]),
        "shared_run_now": (waits, u32, [at, u32, text, size, text, size, u32, size, u64, at, at, at]),
        "shared_submit": (waits, u32, [at, text, size, at, at, at, size, at]),
        "shared_stock": (waits, u32, [at, text, at]),
        "version": (quick, text, []),
    }
    for name, (library, result, arguments) in kinds.items():
        call = getattr(library, f"boddurci_{name}", None)
        if call is None:
            raise ImportError(f"{path} has no boddurci_{name}: it is older than this file")
        call.restype, call.argtypes = result, arguments
        yield name, call


_call = type("_Calls", (), {name: staticmethod(call) for name, call in _bind()})


def _error(status):
    return error(_WORDS.get(status) or _call.files_text(status).decode())


def _bytes(value):
    """Returns the bytes of a key, a value or an argument. Copies an object of a subclass, since it may override its bytes and length."""
    if type(value) is bytes:
        return value
    if isinstance(value, str):
        return str.encode(value, "utf-8")
    if isinstance(value, (bytes, bytearray, memoryview)):
        return memoryview(value).tobytes()
    raise TypeError(f"keys and values are bytes or str, not {type(value).__name__}")


class _Room:
    """A buffer for the result of a call, and its address. Passing the address is faster than passing the object."""

    def __init__(self, size):
        self._bytes = ctypes.create_string_buffer(size)
        self._view = memoryview(self._bytes).cast("B")
        self.at = ctypes.addressof(self._bytes)

    def taken(self, length):
        return self._view[:length].tobytes()


def _image_of(source):
    """Returns the image of a program, assembled if the source is a text."""
    if not isinstance(source, str):
        return _bytes(bytes(source))
    text, image, told = _bytes(source), _Room(_IMAGE_MOST), _Room(_VALUE_MOST)
    length, line, text_length = ctypes.c_size_t(), ctypes.c_size_t(), ctypes.c_size_t()
    places = [ctypes.byref(it) for it in (length, line, text_length)]
    status = _call.assemble(text, len(text), image.at, _IMAGE_MOST, places[0], places[1], told.at, _VALUE_MOST, places[2])
    if status == _BAD_TEXT:
        raise ProgramError(told.taken(text_length.value).decode("utf-8", "replace"), line.value or None)
    if status != _DONE:
        raise _error(status)
    return image.taken(length.value)


class _Taken:
    """The mutex of a base, as a context. A save takes the mutex too. A thread that waits for the mutex releases the interpreter lock."""

    def __init__(self, base):
        self._base = base

    def __enter__(self):
        _call.take(self._base)

    def __exit__(self, *_):
        _call.give(self._base)


# Signal handlers run between steps of the interpreter, and may raise. So an action that must not be interrupted, such as opening a base and
# storing its address, is one step: `map` makes the call, and the function that reads the `map` stores the result.


def _open_base(held, name, flags, timeout):
    """Opens a base after its locks are free, and adds its address to the list `held`. After a signal, the handler runs and the wait
    continues."""
    fault, end = _Fault(), None if timeout is None else time.monotonic() + timeout
    while True:
        left = -1 if end is None else int(min(max(0.0, (end - time.monotonic()) * 1000), 2.0**52))
        held.extend(filter(None, map(_call.open_files_within, (name,), (flags,), (left,), (ctypes.byref(fault),))))
        if held:
            return
        if fault.status != _INTERRUPTED:
            raise _of_fault(fault, name)


class _Database(MutableMapping):
    """The methods of a database. If the extension is loaded, its class overrides the methods for fetch, store, delete and run."""

    # `_base` is the address of the base, or None if it is closed or left to the parent. `_held` is a list with the address until the base
    # is closed.
    _base, _held, _process = None, (), None
    # Whether `close` saves the base. It does so only if the base was opened completely.
    _keeps = False

    def __init__(self, name, flags, timeout=None, limit=None):
        self._process, self._name, self._held = os.getpid(), name, []
        try:
            _open_base(self._held, name, flags, timeout)
            self._set_up(flags)
            if limit is not None:
                _call.limit(self._db, limit)
        except BaseException:
            self._release()
            raise

    def _set_up(self, flags):
        self._base = self._held[0]
        # The number of changes. Iterators compare it to notice a change.
        self._changes = 0
        # A lock of this object excludes other threads. During a save, the mutex of the base excludes them too.
        self._taken, self._token, self._stocks = _Taken(self._base), object(), {}
        self._set_locks()
        _databases[id(self)] = self
        # Every `take` returns the same handle, so the object keeps the handle of the first.
        self._db = _call.take(self._base)
        _call.give(self._base)
        self._reads = bool(flags & _READ_ONLY)
        self._room, self._key, self._cursor = _Room(_VALUE_MOST), _Room(_VALUE_MOST), _Cursor()
        self._length, self._other, self._place = ctypes.c_size_t(), ctypes.c_size_t(), ctypes.c_size_t()
        self._end, self._word = ctypes.c_uint64(), ctypes.c_uint64()
        names = ("_cursor", "_length", "_other", "_place", "_end", "_word")
        self._at = {name: ctypes.addressof(getattr(self, name)) for name in names}
        # The arguments of a fetch after its key.
        self._value = (self._room.at, _VALUE_MOST, self._at["_length"])

    def _set_locks(self):
        self._lock, self._saving, self._alone = _new_lock(), threading.RLock(), threading.RLock()
        self._beside = self._alone

    def _leave_to_parent(self):
        """In a child, marks the base as closed. `_release` then frees its memory, unless a thread of the parent was in a call during the
        fork."""
        if not self._alone.acquire(blocking=False):
            self._held = []
        self._base = self._db = None
        self._set_locks()

    def _need_open(self):
        if self._base is None:
            raise _error(_FORKED if self._process != os.getpid() else _IS_CLOSED)

    def _need_writes(self):
        self._need_open()
        if self._reads:
            raise error("the database is opened to be read only")

    def _text(self):
        return self._room.taken(self._length.value).decode("utf-8", "replace") if self._length.value <= _VALUE_MOST else ""

    def __getitem__(self, key):
        name = _bytes(key)
        with self._lock, self._beside:
            self._need_open()
            status = _call.fetch(self._db, name, len(name), *self._value)
            if status == _DONE:
                return self._room.taken(self._length.value)
        if status == _MISSING:
            raise KeyError(key)
        raise _error(status)

    def __contains__(self, key):
        name = _bytes(key)
        with self._lock, self._beside:
            self._need_open()
            return _call.fetch(self._db, name, len(name), *self._value) != _MISSING

    def __setitem__(self, key, value):
        name, value = _bytes(key), _bytes(value)
        with self._lock, self._beside:
            self._need_writes()
            self._changes += 1
            status = _call.store(self._db, name, len(name), value, len(value), 1)
        if status != _DONE:
            raise _error(status)

    def __delitem__(self, key):
        name = _bytes(key)
        with self._lock, self._beside:
            self._need_writes()
            self._changes += 1
            status = _call.delete(self._db, name, len(name))
        if status == _MISSING:
            raise KeyError(key)
        if status != _DONE:
            raise _error(status)

    def __len__(self):
        with self._lock, self._beside:
            self._need_open()
            _call.count(self._db, self._at["_length"])
            return self._length.value

    def _walk(self, keeps):
        """Yields `keeps()` for each pair. Reads _AT_A_TIME pairs at a time, so it needs no list of all pairs. Raises RuntimeError if the
        database changes in between."""
        cursor, changes = _Cursor(), None
        where, room = ctypes.addressof(cursor), (self._key.at, _VALUE_MOST, self._at["_other"], *self._value)
        while changes is None or found:
            found = []
            with self._lock, self._beside:
                self._need_open()
                if changes is None:
                    changes = self._changes
                    _call.first(self._db, where)
                if changes != self._changes:
                    raise RuntimeError("the database changed during iteration")
                while len(found) < _AT_A_TIME and _call.next(self._db, where, *room) == _DONE:
                    found.append(keeps())
            yield from found

    def _this_key(self):
        return self._key.taken(self._other.value)

    def _this_value(self):
        return self._room.taken(self._length.value)

    def _all(self, keeps):
        """Returns a list of `keeps()` for all pairs. No change happens while it reads."""
        with self._lock:
            return list(self._walk(keeps))

    def keys(self):
        """Returns a list of all keys. To avoid the list, iterate over the database, which raises RuntimeError if the database changes
        meanwhile."""
        return self._all(self._this_key)

    def values(self):
        """Returns a list of all values."""
        return self._all(self._this_value)

    def items(self):
        """Returns a list of all pairs."""
        return self._all(lambda: (self._this_key(), self._this_value()))

    def __iter__(self):
        self._need_open()
        return self._walk(self._this_key)

    def setdefault(self, key, default=b""):
        """Returns the value of a key. If the key is missing, stores the default first."""
        with self._lock:
            if key not in self:
                self[key] = default
            return self[key]

    def clear(self):
        with self._lock:
            for key in self.keys():
                del self[key]

    def program(self, source):
        """Verifies a program, given as a text (str) or an image (bytes), and returns it. If it is refused, raises ProgramError, which names
        the verdict and the line or unit."""
        with self._lock, self._beside:
            self._need_open()
            image = _image_of(source)
            number = ctypes.c_uint32()
            status = _call.submit(self._db, image, len(image), ctypes.byref(number), self._at["_place"], *self._value)
            if status == _REFUSED:
                unit = self._place.value
                raise ProgramError(self._text(), None if unit == ctypes.c_size_t(-1).value else unit)
            if status != _DONE:
                raise _error(status)
            return Program(number.value, self._token)

    def stock(self, name):
        """Returns the stock program of this name, for `run`: "counter", "bounded_add", "bounded_counter", "compare_and_set", "sequence",
        "lease", "fenced_lease", "rate_limit", "semaphore" or "token_bucket". docs/PROGRAMS.md has the record, argument, codes and reply
        word of each. If there is no such program, raises ProgramError, which lists the names."""
        if not isinstance(name, str):
            raise TypeError(f"the name of a program is a str, not {type(name).__name__}")
        text, number = _bytes(name), ctypes.c_uint32()
        with self._lock, self._beside:
            self._need_open()
            if text not in self._stocks:
                status = _call.submit_stock(self._db, text, len(text), ctypes.byref(number))
                if status == _NO_STOCK:
                    raise ProgramError(f"{name!r}: {_call.files_text(status).decode()}", None)
                if status != _DONE:
                    raise _error(status)
                self._stocks[text] = Program(number.value, self._token)
            return self._stocks[text]

    def counter(self, key, floor=0, ceiling=_TIME_MOST):
        """Returns the counter on this key; see Counter."""
        return Counter(self, key, floor, ceiling)

    def lease(self, key):
        """Returns the lease on this key; see Lease."""
        return Lease(self, key)

    def fenced_lease(self, key):
        """Returns the lease with tokens on this key; see FencedLease."""
        return FencedLease(self, key)

    def semaphore(self, key, size):
        """Returns the semaphore on this key with `size` permits; see Semaphore."""
        return Semaphore(self, key, size)

    def rate_limit(self, key, count, seconds):
        """Returns the limit of `count` calls in each window of `seconds` on this key; see RateLimit."""
        return RateLimit(self, key, count, seconds)

    def run(self, program, key, arg=b"", blank=None, now=None):
        """Runs a program on the record of a key, as one step. If the key is missing it runs on `blank` zeros; without `blank` that
        is a KeyError. The program can read the time `now`, which is by default the system's in seconds: pass it if the program
        counts in another unit."""
        name, arg = _bytes(key), _bytes(arg)
        if blank is not None and not 0 <= blank <= _SIZE_MOST:
            raise ValueError(f"blank is a number from 0 to {_SIZE_MOST}")
        if now is not None and not 0 <= now <= _TIME_MOST:
            raise ValueError(f"now is a number from 0 to {_TIME_MOST}")
        with self._lock, self._beside:
            self._need_writes()
            self._changes += 1
            if getattr(program, "_of", None) is not self._token:
                raise ProgramError("the program was not accepted by this database", None)
            status = _call.run(
                self._db,
                program.number,
                name,
                len(name),
                arg,
                len(arg),
                blank is not None,
                blank or 0,
                int(time.time()) if now is None else now,
                self._at["_end"],
                self._at["_word"],
            )
            if status == _DONE:
                return Ran(self._end.value, self._word.value)
        if status == _MISSING:
            raise KeyError(key)
        raise _error(status)

    def sync(self, *, insist=False):
        """Saves both files and makes the changes durable. Other threads may use the database meanwhile. If another program has changed the
        files, raises ChangedError and writes nothing, unless `insist` is true. If a file cannot be written and only FILE.redo has the save,
        warns. Then the next `open` or save completes the save, and until then other programs may see only a part of it."""
        fault = _Fault()
        with self._saving:
            with self._lock:
                self._need_open()
                if self._reads:
                    return
                self._beside = self._taken
            try:
                told = ctypes.byref(fault)
                status = _call.save_with(self._base, _INSIST, told) if insist else _call.save(self._base, told)
            finally:
                with self._lock:
                    self._beside = self._alone
            if status != _DONE:
                raise _of_fault(fault, self._name)
            if fault.system:
                warnings.warn(str(_of_fault(fault, self._name)), RuntimeWarning, stacklevel=2)

    def close(self):
        """Saves both files, unless the database was opened for reading, and releases the locks. If the save fails, the database stays open.
        In a child of the process that opened it, writes nothing, and the parent keeps the locks."""
        self._close(saves=True)

    def _close(self, saves):
        if not self._held:
            return
        if self._process != os.getpid():
            self._leave_to_parent()
            self._release()
            return
        with self._saving, self._lock:
            try:
                if self._base is not None and self._keeps and saves:
                    self.sync()
            except RuntimeWarning:
                self._release()
                raise
            self._release()

    def _release(self):
        """Closes the base without a save. The step that removes the base from the list also closes the base, so it is closed only once."""
        self._base = self._db = None
        if self._held:
            deque(map(_call.close_files, map(self._held.pop, (0,))), maxlen=0)

    def _finish(self):
        """Saves and closes a database that was not closed. If the save fails, warns that the changes are lost, and releases the locks."""
        try:
            self.close()
        except RuntimeWarning:
            raise
        except Exception as fault:
            name = os.fsdecode(self._name)
            warnings.warn(f"{name!r}: the changes that were not saved are lost: {fault}", RuntimeWarning, stacklevel=2)
        finally:
            self._release()

    def __enter__(self):
        return self

    def __exit__(self, kind, *_):
        """Saves and closes the database. After an exception, including KeyboardInterrupt and SystemExit, closes it without a save. This
        drops the changes since the last `sync`, since the block may have made only some of its changes."""
        self._close(saves=kind is None)

    def __del__(self):
        self._finish()


# The version of the interface between the extension and this file.
_FORM = 1


def _of_extension():
    """Returns the extension's classes for databases and locks. Returns None if the extension is missing, is built for another library, or
    is used by another interpreter of the process."""
    try:
        import _boddurci
    except ImportError:
        return None
    if getattr(_boddurci, "FORM", None) != _FORM or _boddurci.VERSION.split(".")[0] != _call.version().decode().split(".")[0]:
        return None
    addresses = {name: ctypes.cast(getattr(_call, name), ctypes.c_void_p).value for name in ("fetch", "store", "delete", "run")}
    return _boddurci.bind(addresses, _Database, Program, Ran, time)


_extension = _of_extension()
_plain_calls, _Lock = ((_extension[0],), _extension[1]) if _extension else ((), None)


def _new_lock():
    """Returns a new lock of a database. If the extension is loaded, it is of the extension's class, since the extension tests whether the
    lock is held."""
    return _Lock(threading.RLock()) if _Lock else threading.RLock()


class SharedDatabase(MutableMapping):
    """A database that several processes change at the same time. `open(.., shared=True)` returns it. It holds no lock and no pages between
    calls. Each fetch, store, delete and run is one durable step among all processes and threads, so there is nothing to save. With
    `flush=False` a change is durable only after the next `flush` of any process, or `close`; a crash of the machine before may lose it and
    all later changes.

    Iteration, `len`, `keys`, `values` and `items` open the database for reading, and see its state at that time. The methods of a mapping
    that make several calls, such as `pop` and `update`, are several steps; `setdefault` never replaces a value. A forked child may use the
    object, unless another thread was in a call on it during the fork."""

    _handle, _held = None, ()

    def __init__(self, name, flags, timeout, reads):
        self._held, self._name, self._flags, self._timeout, self._reads = [], name, flags, timeout, reads
        # The classes of the stock programs take a lock. This lock does nothing, since each call is a step by itself.
        self._lock = contextlib.nullcontext()
        self._token, self._stocks = object(), {}
        self._set_guard()
        fault = _Fault()
        self._held.extend(filter(None, map(_call.open_shared, (name,), (flags,), (ctypes.byref(fault),))))
        if not self._held:
            raise _of_fault(fault, name)
        self._handle = self._held[0]
        # A waiting call returns after at most _SLICE milliseconds, so that signal handlers run.
        _call.shared_wait(self._handle, 0 if flags & _NO_WAIT else _SLICE if timeout is None else int(min(_SLICE, timeout * 1000)))
        _shared[id(self)] = self

    def _set_guard(self):
        """Sets the number of running calls, for which `close` waits, to 0. A child has no running calls."""
        self._guard, self._calls = threading.Condition(), 0

    def _made(self, call, *words):
        """Makes a call that touches the files, and returns its status. While the files are locked, repeats the call until the timeout."""
        fault, end = _Fault(), None if self._timeout is None else time.monotonic() + self._timeout
        with self._using() as handle:
            while True:
                status = call(handle, *words, ctypes.byref(fault))
                if status != _LOCKED or self._flags & _NO_WAIT or (end is not None and time.monotonic() >= end):
                    break
        if status == _DONE and fault.system:
            warnings.warn(str(_of_fault(fault, self._name)), RuntimeWarning, stacklevel=3)
        if status >= _FILE_FAILED or status in (_BAD_FILES, _IS_CLOSED):
            raise _of_fault(fault, self._name)
        return status

    @contextlib.contextmanager
    def _using(self):
        with self._guard:
            if self._handle is None:
                raise _error(_IS_CLOSED)
            self._calls += 1
            handle = self._handle
        try:
            yield handle
        finally:
            with self._guard:
                self._calls -= 1
                self._guard.notify_all()

    def _need_writes(self):
        if self._reads:
            raise error("the database is opened to be read only")

    def _fetched(self, key, most):
        room, length = _Room(most), ctypes.c_size_t()
        status = self._made(_call.shared_fetch, key, len(key), room.at, most, ctypes.byref(length))
        return status, room.taken(length.value) if status == _DONE else None

    def __getitem__(self, key):
        status, value = self._fetched(_bytes(key), _VALUE_MOST)
        if status == _MISSING:
            raise KeyError(key)
        if status != _DONE:
            raise _error(status)
        return value

    def __contains__(self, key):
        status, _ = self._fetched(_bytes(key), 1)
        if status not in (_DONE, _MISSING, _SHORT_ROOM):
            raise _error(status)
        return status != _MISSING

    def _store(self, key, value, replaces):
        self._need_writes()
        name, value = _bytes(key), _bytes(value)
        status = self._made(_call.shared_store, name, len(name), value, len(value), replaces)
        if status not in (_DONE, _EXISTS):
            raise _error(status)
        return status

    def __setitem__(self, key, value):
        self._store(key, value, 1)

    def setdefault(self, key, default=b""):
        """Returns the value of a key. If the key is missing, stores the default."""
        while self._store(key, default, 0) == _EXISTS:
            try:
                return self[key]
            except KeyError:
                pass
        return _bytes(default)

    def __delitem__(self, key):
        self._need_writes()
        name = _bytes(key)
        status = self._made(_call.shared_delete, name, len(name))
        if status == _MISSING:
            raise KeyError(key)
        if status != _DONE:
            raise _error(status)

    def _snapshot(self):
        with self._using():
            return Database(self._name, self._flags & ~_NO_FLUSH | _READ_ONLY, self._timeout)

    def __len__(self):
        with self._snapshot() as db:
            return len(db)

    def __iter__(self):
        with self._snapshot() as db:
            yield from db

    def keys(self):
        """Returns a list of all keys."""
        with self._snapshot() as db:
            return db.keys()

    def values(self):
        """Returns a list of all values."""
        with self._snapshot() as db:
            return db.values()

    def items(self):
        """Returns a list of all pairs."""
        with self._snapshot() as db:
            return db.items()

    def clear(self):
        for key in self.keys():
            self.pop(key, None)

    def program(self, source):
        """Verifies a program, as Database.program does."""
        image, told, number = _image_of(source), _Room(_VALUE_MOST), ctypes.c_uint32()
        unit, length = ctypes.c_size_t(_SIZE_MOST), ctypes.c_size_t()
        places = [ctypes.byref(it) for it in (number, unit, length)]
        with self._using() as handle:
            status = _call.shared_submit(handle, image, len(image), places[0], places[1], told.at, _VALUE_MOST, places[2])
        if status == _REFUSED:
            raise ProgramError(told.taken(length.value).decode("utf-8", "replace"), None if unit.value == _SIZE_MOST else unit.value)
        if status != _DONE:
            raise _error(status)
        return Program(number.value, self._token)

    def stock(self, name):
        """Returns the stock program of this name, as Database.stock does."""
        if not isinstance(name, str):
            raise TypeError(f"the name of a program is a str, not {type(name).__name__}")
        text, number = _bytes(name), ctypes.c_uint32()
        if text not in self._stocks:
            with self._using() as handle:
                status = _NO_STOCK if b"\0" in text else _call.shared_stock(handle, text, ctypes.byref(number))
            if status == _NO_STOCK:
                raise ProgramError(f"{name!r}: {_call.files_text(status).decode()}", None)
            if status != _DONE:
                raise _error(status)
            self._stocks[text] = Program(number.value, self._token)
        return self._stocks[text]

    def run(self, program, key, arg=b"", blank=None, now=None):
        """Runs a program on the record of a key, as Database.run does, as one durable step. Without `now` the time is that of the system in
        seconds, read once the call has the locks. So the times of all processes never fall, unless somebody sets the clock back."""
        name, arg = _bytes(key), _bytes(arg)
        if blank is not None and not 0 <= blank <= _SIZE_MOST:
            raise ValueError(f"blank is a number from 0 to {_SIZE_MOST}")
        if now is not None and not 0 <= now <= _TIME_MOST:
            raise ValueError(f"now is a number from 0 to {_TIME_MOST}")
        self._need_writes()
        if getattr(program, "_of", None) is not self._token:
            raise ProgramError("the program was not accepted by this database", None)
        end, word = ctypes.c_uint64(), ctypes.c_uint64()
        # Without a time, the library reads the clock under the locks, so the times of the runs of all processes do not fall.
        call, clock = (_call.shared_run_now, 1) if now is None else (_call.shared_run, now)
        words = (program.number, name, len(name), arg, len(arg), blank is not None, blank or 0, clock, ctypes.byref(end), ctypes.byref(word))
        status = self._made(call, *words)
        if status == _MISSING:
            raise KeyError(key)
        if status != _DONE:
            raise _error(status)
        return Ran(end.value, word.value)

    counter, lease, fenced_lease = _Database.counter, _Database.lease, _Database.fenced_lease
    semaphore, rate_limit = _Database.semaphore, _Database.rate_limit

    def flush(self):
        """Makes all changes of all processes durable. Without `flush=False` each change is durable anyway."""
        self._made(_call.shared_flush)

    sync = flush

    def close(self):
        """Closes the database after the calls of other threads have returned."""
        with self._guard:
            self._handle = None
            while self._calls:
                self._guard.wait()
        if self._held:
            deque(map(_call.close_shared, map(self._held.pop, (0,))), maxlen=0)

    def __enter__(self):
        return self

    def __exit__(self, *_):
        self.close()

    def __del__(self):
        if self._held:
            self.close()


class Database(*_plain_calls, _Database):
    """An open database: a mapping from bytes to bytes. `open` returns it."""

    __slots__ = ()


def _whole(name, value, least=0, most=_TIME_MOST):
    """Returns a number for a program, after a check of its type and range."""
    if isinstance(value, bool) or not hasattr(type(value), "__index__"):
        raise TypeError(f"{name} is an int, not {type(value).__name__}")
    number = operator.index(value)
    if not least <= number <= most:
        raise ValueError(f"{name} is a number from {least} to {most}")
    return number


def _given(now):
    """Returns the time that a caller passed for a run, after a check. None means the system's time, in seconds."""
    return None if now is None else _whole("now", now)


def _time(now):
    """Returns the time of a run: the system's time if `now` is None. Call it under the lock of the database, so that the times of its runs
    fall only if the system's time falls. A shared database has no such lock: another process may run a program with a later time first."""
    return int(time.time()) if now is None else now


class _Stocked:
    """A key of a database, and the stock program that runs on its record."""

    # The name of the program, the number of bytes of a record that it uses, and its code if the record is shorter.
    _name, _size, _too_short = "", 8, 4

    def __init__(self, db, key):
        self._db, self._key, self._program = db, _bytes(key), db.stock(self._name)

    def __repr__(self):
        return f"{type(self).__name__}({self._key!r})"

    def _run(self, now, *numbers):
        """Runs the program with these numbers as its argument. Raises RecordError if the record is too short."""
        arg = struct.pack(f"<{len(numbers)}Q", *numbers)
        ran = self._db.run(self._program, self._key, arg, self._size, now)
        if ran.end == self._too_short:
            raise self._record_error()
        return ran

    def _record(self):
        """Returns the record, or None if the key is missing."""
        record = self._db.get(self._key)
        if record is not None and len(record) < self._size:
            raise self._record_error()
        return record

    def _record_error(self):
        return RecordError(f"the record of {self._key!r} is too short: {self._name} takes {self._size} bytes or more")


class Counter(_Stocked):
    """A number from `floor` to `ceiling`, in the first 8 bytes of a record, the lowest byte first. It is 0 if the key is missing.
    `db.counter(key)` returns it. It runs the stock program bounded_counter.

    Proved: each run adds its amount or changes nothing. A number within the bounds stays within the bounds, if every run has the same
    bounds and nothing else changes the key."""

    _name = "bounded_counter"

    def __init__(self, db, key, floor=0, ceiling=_TIME_MOST):
        super().__init__(db, key)
        self._ceiling = _whole("ceiling", ceiling)
        self._floor = _whole("floor", floor, most=self._ceiling)

    def add(self, amount=1):
        """Adds an amount, which may be negative, and returns the new number. If the sum would be below the floor or above the ceiling,
        raises OverflowError and changes nothing."""
        amount = _whole("amount", amount, -(2**63), 2**63 - 1)
        end, number = self._run(None, amount % 2**64, self._floor, self._ceiling)
        if end != 1:
            raise OverflowError(f"{self._key!r}: {number} plus {amount} is outside {self._floor} to {self._ceiling}")
        return number

    def get(self):
        """Returns the number."""
        record = self._record()
        return 0 if record is None else int.from_bytes(record[:8], "little")


class Lease(_Stocked):
    """A lease, which one owner at a time holds until it ends. `db.lease(key)` returns it. It runs the stock program lease. An owner is a
    number below 2^64 that nobody else has, such as a random one.

    Proved: two owners never hold a lease at the same time, if nothing else changes the key and the times of its runs never fall. So pass
    `now` in no call, or in every call from one clock. When a lease ends, another owner may get it: stop before that time."""

    _name, _size = "lease", 16

    def acquire(self, owner, seconds, now=None):
        """Gives the lease to the owner, or renews it, for `seconds` from now. Returns the time at which it ends, or None if another owner
        holds it. A renewal may shorten the lease."""
        ran = self._run(_given(now), _whole("owner", owner), _whole("seconds", seconds, least=1))
        return ran.word if ran.end == 1 else None

    def release(self, owner, now=None):
        """Releases the lease. Returns whether the owner held it. The lease of another owner stays, unless it has ended."""
        owner, given = _whole("owner", owner), _given(now)
        with self._db._lock:
            now, record = _time(given), self._record()
            if record is None:
                return False
            self._run(given, owner, 0)
        holder, end = struct.unpack_from("<2Q", record)
        return holder == owner and now < end


class FencedLease(Lease):
    """A lease with a token. `db.fenced_lease(key)` returns it. It runs the stock program fenced_lease. Each new owner gets a greater token
    than all owners before, and a renewal keeps the token. Send the token with each request to the resource, and let the resource refuse a
    token below the greatest that it has seen. After a request of a later owner, the resource then refuses an earlier owner that has not
    noticed the end of its lease.

    Proved: if nothing else changes the key, tokens rise, even if times fall."""

    _name, _size = "fenced_lease", 24

    def acquire(self, owner, seconds, now=None):
        """Gives the lease to the owner, or renews it, for `seconds` from now. Returns a Grant, or None if another owner holds it. Raises
        OverflowError if all 2^64 - 1 tokens are used up."""
        owner, seconds, now = _whole("owner", owner), _whole("seconds", seconds, least=1), _given(now)
        with self._db._lock:
            now = _time(now)
            code, word = self._run(now, owner, seconds)
        if code == 3:
            raise OverflowError(f"all tokens of {self._key!r} are used up")
        return Grant(min(now + seconds, _TIME_MOST), word) if code == 1 else None


class Semaphore(_Stocked):
    """A semaphore with `size` permits. `db.semaphore(key, size)` returns it. It runs the stock program semaphore. A permit does not expire:
    if its holder dies, the permit is lost until somebody releases it.

    Proved: there are never more holders than permits, if every run has this size and nothing else changes the key."""

    _name = "semaphore"

    def __init__(self, db, key, size):
        super().__init__(db, key)
        self._permits = _whole("size", size, least=1)

    def acquire(self):
        """Takes a permit. Returns False, without waiting, if no permit is free."""
        return self._run(None, 1, self._permits).end == 1

    def release(self):
        """Releases a permit. Returns False if nobody holds a permit."""
        return self._run(None, 0, self._permits).end == 1


class RateLimit(_Stocked):
    """A limit of `count` calls in each window of `seconds`. `db.rate_limit(key, count, seconds)` returns it. It runs the stock program
    rate_limit. The first call after the end of a window begins the next window.

    Proved: a window admits at most `count` calls, if every run has the same count and seconds, nothing else changes the key, the times of
    its runs never fall, and the first time is greater than `seconds`. A time before the beginning of the window begins a new window."""

    _name, _size = "rate_limit", 16

    def __init__(self, db, key, count, seconds):
        super().__init__(db, key)
        self._count, self._seconds = _whole("count", count, least=1), _whole("seconds", seconds, least=1)

    def admit(self, now=None):
        """Returns whether a call is admitted."""
        return self._run(_given(now), self._seconds, self._count).end == 1


# The open databases. Shared databases are in `_shared`, and all others in `_databases`.
_databases = weakref.WeakValueDictionary()
_shared = weakref.WeakValueDictionary()


def _all_databases(databases=_databases):
    """Returns a list of the open databases. Makes the list in one step, since another thread may open a database meanwhile."""
    return [it for it in (ref() for ref in databases.valuerefs()) if it is not None]


def _leave_all():
    """In a child, leaves the databases to the parent, except shared ones, which the child may use."""
    for database in _all_databases():
        database._leave_to_parent()
        database._release()
    for database in _all_databases(_shared):
        database._set_guard()


def _finish_all():
    """Closes the databases that are still open when the interpreter exits. Their objects may never be destroyed, for example if a daemon
    thread refers to them."""
    with contextlib.ExitStack() as stack:
        for database in _all_databases():
            stack.callback(database._finish)


os.register_at_fork(after_in_child=_leave_all)
atexit.register(_finish_all)


def _of_fault(fault, name):
    """Returns the exception for a fault. It has the name of the file, like a system error."""
    text, name = fault.text.decode("utf-8", "replace"), os.fsdecode(name)
    if fault.system:
        return error(fault.system, text, name)
    told = {_CHANGED: ChangedError, _LOCKED: Locked}.get(fault.status, error)(f"{text}: {name!r}")
    told.filename = name
    return told


def open(file, flag="r", mode=0o666, *, wide=False, unsigned_keys=False, any_size=False, wait=True, timeout=5, limit=None, shared=False,
         flush=True):
    """Opens FILE.dir and FILE.pag, as dbm.open does. The flag 'r' only reads, 'w' also writes, 'c' makes missing files, and 'n' starts with
    an empty database. Set `wide` if pages have 8,192 bytes, and `unsigned_keys` if keys are hashed as unsigned bytes. The files do not
    record these two properties. With `wide`, files that look like those of small pages are an error, unless `any_size` is true.

    Only one process at a time can have a database open for writing. Another `open` waits for that process at most `timeout` seconds, and
    then raises Locked. If `timeout` is None, it waits without a limit; if `wait` is false, it does not wait. An `open` with 'r' reads the
    last save, and waits only for the end of a save that another process is making, at most `timeout` seconds.

    A change that would make FILE.pag longer than `limit` bytes is not made and raises an error; existing pages stay. The default, 1 GiB, is
    also the maximum. Set a limit if untrusted users choose your keys, since they can make FILE.pag as long as the limit.

    With `shared`, several processes may have the database open for writing: see SharedDatabase. `timeout` and `wait` then apply to each
    call, and neither `limit` nor 'n' is possible. If `flush` is false, the changes of a shared database are durable only after a call of
    its method `flush`, and take much less time."""
    if flag not in ("r", "w", "c", "n"):
        raise ValueError("flag must be 'r', 'w', 'c' or 'n'")
    name = os.fsencode(file)
    if b"\0" in name:
        raise ValueError("the name has a zero byte")
    if timeout is not None and not timeout >= 0:
        raise ValueError("a timeout is a number of seconds, 0 or more")
    if limit is not None and not 0 <= limit <= _SIZE_MOST:
        raise ValueError(f"limit is a number of bytes from 0 to {_SIZE_MOST}")
    flags = {"r": _READ_ONLY | _MUST_EXIST, "w": _MUST_EXIST, "c": 0, "n": _EMPTY}[flag]
    flags |= (_WIDE if wide else 0) | (_UNSIGNED_KEYS if unsigned_keys else 0) | (_ANY_SIZE if any_size else 0) | (0 if wait else _NO_WAIT)
    if shared:
        return _open_shared(name, flag, flags | (0 if flush else _NO_FLUSH), timeout, limit, mode)
    if not flush:
        raise ValueError("only a shared database may be opened with flush=False")
    db = Database(name, flags, timeout, limit)
    try:
        if flag in ("c", "n"):
            _make_files(db, name, mode, flag == "n")
        db._keeps = not db._reads
    except BaseException:
        db._release()
        raise
    return db


def _open_shared(name, flag, flags, timeout, limit, mode):
    if flag == "n" or limit is not None:
        raise ValueError("a shared database is opened with 'r', 'w' or 'c', and without a limit")
    # An absolute path stays right if the working folder changes.
    name = os.path.join(os.getcwdb(), name)
    if flag == "c" and not os.path.lexists(name + b".redo"):
        _make_empty(name, mode)
    return SharedDatabase(name, flags & ~_READ_ONLY, timeout, flag == "r")


def _make_empty(name, mode):
    """Makes empty files with the requested permissions, unless .pag exists. Returns whether it made a file."""
    how, is_new = os.O_WRONLY | os.O_CREAT | os.O_EXCL | os.O_NOFOLLOW | os.O_CLOEXEC, False
    try:
        for ending in (b".pag", b".dir"):
            os.close(os.open(name + ending, how, mode))
            is_new = True
    except FileExistsError:
        pass
    return is_new


def _make_files(db, name, mode, always):
    """Makes the files of a new database, with the requested permissions. If only .dir is missing, a save makes .dir with the permissions of
    .pag."""
    if _make_empty(name, mode) or always:
        db.sync()
