"""The cache: a folder of the user with the results of passed tasks, so that other copies of the tree need not repeat them.

An entry is a folder CRATE.TASK.SUM, where SUM is the checksum of all inputs of the task. It has the files that the task made, below `out`,
and a list of them with their checksums. An entry is made apart and renamed, and does not change afterwards. An entry of `work` is no result:
it has the files with which a proof of the crate begins, after a change too.
"""

import contextlib
import json
import os
import pathlib
import shutil
import stat
import tempfile
import time

from rooms import linked, wait_for
from tree import file_sum, summed

# The default of the maximum size in GB, and the seconds after its last use in which an entry is not removed.
MOST = 24
GRACE = 3600
LIST = "list.json"


@contextlib.contextmanager
def turn(crate, what):
    """Gives whether a task has passed, in this tree or in the cache. If not, other runs wait in their turn until this one ends."""
    cache = crate.tree.cache
    if crate.has_passed(what):
        crate.came[what] = "unchanged"
        cache.touch(crate, what)
        yield True
        return
    with cache.locked(crate, what):
        crate.came[what] = "taken" if cache.take(crate, what) else "proved"
        yield crate.came[what] == "taken"


def place():
    """Returns the folder of the cache."""
    users = os.environ.get("XDG_CACHE_HOME") or "~/.cache"
    return pathlib.Path(os.environ.get("BODDURCI_CACHE") or f"{users}/boddurci").expanduser().resolve()


def own(path):
    """Returns a path, if the file or folder belongs to this user and no other may write it. Otherwise raises an error."""
    it = os.lstat(path)
    if it.st_uid != os.geteuid() or it.st_mode & 0o022 or stat.S_ISLNK(it.st_mode):
        raise PermissionError(f"another user may write {path}")
    return path


def own_folder(folder):
    """Like `own`, and for the folders above: in these no other user may replace a folder."""
    own(folder)
    for above in folder.parents:
        it = os.lstat(above)
        if it.st_uid not in (0, os.geteuid()) or it.st_mode & 0o022 and not it.st_mode & stat.S_ISVTX:
            raise PermissionError(f"another user may write {above}")


def files_of(crate, what):
    """Returns the paths in out/ of the files of an entry."""
    found = [crate.out / name for name in [crate.made(what)] if name]
    if what == "work":
        # A proof that begins without `records`, a quarter of the bytes, takes no longer.
        found = [it for it in (crate.out / "incremental").rglob("*") if it.parent.name != "records"]
    elif what == "proof" and not crate.is_program:
        found += (crate.out / "rlib").rglob("*")
    return {str(it.relative_to(crate.out)) for it in found if it.is_file()}


def used(entry):
    """Returns the time of the last use of an entry, or 0 if another run has removed it."""
    try:
        return os.path.getmtime(entry)
    except OSError:
        return 0


def bytes_of(entry):
    """Returns the size of an entry, or 0 if its list is damaged."""
    try:
        return int(json.loads((entry / LIST).read_text())["bytes"])
    except (OSError, ValueError, KeyError, TypeError):
        return 0


def put(one, other, path):
    """Links a file if rt replaces such files and never writes into them. Otherwise copies it."""
    other.parent.mkdir(parents=True, exist_ok=True)
    (linked if path.startswith("rlib/") or path.endswith(".oantt") else shutil.copy2)(one, other)


class Cache:
    """The cache. `why_not` tells why it is not used. With `anew` nothing is taken from it."""

    def __init__(self):
        self.at, self.anew, self.why_not = place(), False, None
        mask = os.umask(0o077)
        try:
            self.most = 1e9 * float(os.environ.get("BODDURCI_CACHE_GB") or MOST)
            os.makedirs(self.at / "locks", exist_ok=True)
            own_folder(self.at)
        except (OSError, ValueError) as why:
            self.why_not = why
        os.umask(mask)

    def entry(self, crate, what):
        """Returns the folder of a task's entry. Its name depends on the libraries below as they are, in addition to their sources."""
        below = [str(file_sum(it.out / f"rlib/{it.name}.rlib/format")) for it in crate.below]
        return self.at / f"{crate.name}.{what}.{summed(crate.inputs(what), *below)}"

    def touch(self, crate, what):
        """Notes that an entry is in use."""
        for part in [what] + ["work"] * (what == "proof"):
            with contextlib.suppress(OSError):
                os.utime(self.entry(crate, part))

    @contextlib.contextmanager
    def locked(self, crate, what):
        """Waits until no other run does a task."""
        with contextlib.ExitStack() as held:
            if not self.why_not and not self.anew:
                with contextlib.suppress(OSError):
                    lock = held.enter_context(open(self.at / "locks" / self.entry(crate, what).name, "w"))
                    wait_for(lock, f"another run to end {crate.name} ({what})")
            yield

    def take(self, crate, what):
        """Takes the result of a task, and records it. Takes files for a proof to begin with too. Returns whether there is a result."""
        if self.why_not or self.anew:
            return False
        is_taken = self.unpack(self.entry(crate, what), crate)
        if what == "proof" and not self.unpack(self.entry(crate, "work"), crate) and not (crate.out / "incremental").exists():
            any(self.unpack(it, crate) for it in sorted(self.at.glob(f"{crate.name}.work.*"), key=used, reverse=True))
        if is_taken:
            crate.record(what)
        return is_taken

    def unpack(self, entry, crate):
        """Puts the files of an entry into out/ if all are whole, and only this user may write them. Returns whether it did."""
        room = crate.out / f"taken.{entry.name.split('.')[1]}"
        shutil.rmtree(room, ignore_errors=True)
        try:
            os.utime(own(entry))
            for path, told in json.loads(own(entry / LIST).read_text())["files"].items():
                put(own(entry / "out" / path), room / path, path)
                if file_sum(room / path) != told:
                    raise ValueError(path)
            for part in room.iterdir() if room.exists() else ():
                old = crate.out / part.name
                shutil.rmtree(old) if old.is_dir() else old.unlink(missing_ok=True)
                os.rename(part, old)
        except (OSError, ValueError, KeyError, TypeError, AttributeError):
            return False
        finally:
            shutil.rmtree(room, ignore_errors=True)
        return True

    def keep(self, crate, what):
        """Keeps the result of a task that has passed in this run, in place of an older entry. After a proof keeps its work too."""
        if self.why_not:
            return
        with contextlib.suppress(OSError), tempfile.TemporaryDirectory(prefix="new-", dir=self.at) as room:
            made, sums, size = pathlib.Path(room, "made"), {}, 0
            made.mkdir(0o700)
            for path in files_of(crate, what):
                kept = made / "out" / path
                put(crate.out / path, kept, path)
                os.chmod(kept, kept.stat().st_mode & ~0o022)
                sums[path], size = file_sum(kept), size + kept.stat().st_size
            (made / LIST).write_text(json.dumps({"bytes": size, "files": sums}))
            os.chmod(made / LIST, 0o600)
            self.remove(self.entry(crate, what))
            os.rename(made, self.entry(crate, what))
        if what == "proof":
            self.keep(crate, "work")

    def remove(self, entry):
        """Removes an entry. It is renamed first, so that no run takes it meanwhile."""
        with contextlib.suppress(OSError), tempfile.TemporaryDirectory(prefix="new-", dir=self.at) as room:
            os.rename(entry, f"{room}/gone")

    def sweep(self):
        """Removes the entries that were not used for the longest time until the rest is within the maximum size, and work of older texts.
        Removes nothing that was used in the last hour."""
        if self.why_not:
            return
        size, works, now = 0, set(), time.time()
        for it in sorted(self.at.glob("*.*.*"), key=used, reverse=True):
            crate, what = it.name.split(".")[:2]
            more, is_older = bytes_of(it), what == "work" and crate in works
            if used(it) < now - GRACE and (size + more > self.most or is_older):
                self.remove(it)
            else:
                size += more
            works |= {crate} if what == "work" else set()
        for it in [*self.at.glob("new-*"), *self.at.glob("locks/*")]:
            if used(it) < now - 24 * GRACE:
                shutil.rmtree(it, ignore_errors=True) if it.is_dir() else it.unlink(missing_ok=True)
