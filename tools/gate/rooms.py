"""Rooms: copies of the tree with one crate and those below it, so that checks of several crates run in parallel. In one tree the checks
would wait for each other, since rt locks a crate and all crates below it."""

import fcntl
import os
import shutil
import signal
import subprocess
import tempfile
import threading

from tree import NOTED, SOURCES, rt

RUNNING, STARTING, SPENT = set(), threading.Lock(), threading.local()


def linked(one, other):
    """Links a file, or copies it if it cannot be linked. rt replaces such files, and never writes into them."""
    try:
        os.link(one, other)
    except OSError:
        shutil.copy2(one, other)


def linked_work(one, other):
    """Links or copies a file of the work in out/. Only proofs are linked, since rt may write into other files."""
    (linked if str(one).endswith(".oantt") else shutil.copy2)(one, other)


def copy_part(one, other, copy):
    if one.is_dir():
        shutil.copytree(one, other, copy_function=copy)
    elif one.is_file():
        other.parent.mkdir(parents=True, exist_ok=True)
        copy(one, other)


class Room:
    """A room for one crate. With `takes_out` the room takes the crate's own out/, and moves it back at the end. Otherwise the room has a
    copy of the work of checks."""

    def __init__(self, crate, purpose, takes_out=False):
        self.crate, self.takes_out = crate, takes_out
        self.at = crate.tree.rooms / f"{purpose}-{crate.name}"
        self.folder = self.at / "crates" / crate.name

    def __enter__(self):
        self.folder.mkdir(parents=True)
        tree, crates = self.crate.tree, [*self.crate.below, self.crate]
        (self.at / "crates.txt").write_text("".join(f"{it.line}\n" for it in crates), encoding="utf-8")
        copy_part(tree.top / "HANDLES", self.at / "HANDLES", shutil.copy2)
        for it in self.crate.below:
            for part in (*SOURCES, *NOTED, "out/rlib"):
                copy_part(it.folder / part, self.at / "crates" / it.name / part, linked)
        self.put_sources()
        if self.takes_out:
            self.crate.out.mkdir(exist_ok=True)
            os.rename(self.crate.out, self.folder / "out")
        else:
            self.put_work()
        return self

    def put_sources(self):
        """Copies the crate's sources from the tree."""
        for part in (*SOURCES, *NOTED):
            shutil.rmtree(self.folder / part, ignore_errors=True)
            copy_part(self.crate.folder / part, self.folder / part, shutil.copy2)

    def put_work(self):
        """Copies the work of earlier checks of the crate."""
        shutil.rmtree(self.folder / "out", ignore_errors=True)
        (self.folder / "out").mkdir()
        copy_part(self.crate.out / "incremental", self.folder / "out/incremental", linked_work)

    def __exit__(self, *_):
        if self.takes_out:
            os.rename(self.folder / "out", self.crate.out)
        shutil.rmtree(self.at, ignore_errors=True)

    def rt(self, *words):
        """Runs rt in the crate's folder, and returns its status and output. If it was killed, probably because memory ran out, runs it
        once more."""
        for _ in range(2):
            ran, said = start([rt(), *words], self.folder)
            if ran not in (-signal.SIGKILL, 256 - signal.SIGKILL):
                break
        return ran, said


def start(words, folder):
    """Runs a command in a folder, and returns its status and output."""
    env = {name: value for name, value in os.environ.items() if not name.startswith("RT_")}
    with tempfile.TemporaryFile() as said:
        with STARTING:
            ran = subprocess.Popen(words, cwd=folder, env=env, stdin=subprocess.DEVNULL, stdout=said, stderr=subprocess.STDOUT)
            RUNNING.add(ran)
        _, status, used = os.wait4(ran.pid, 0)
        RUNNING.discard(ran)
        ran.returncode = -os.WTERMSIG(status) if os.WIFSIGNALED(status) else os.WEXITSTATUS(status)
        SPENT.seconds = spent() + used.ru_utime + used.ru_stime
        said.seek(0)
        return ran.returncode, said.read().decode(errors="replace")


def spent():
    """Returns the processor seconds of the commands that this thread has run."""
    return getattr(SPENT, "seconds", 0)


def stop(*_):
    """Ends all running commands and this process."""
    STARTING.acquire()
    for ran in list(RUNNING):
        ran.terminate()
    os._exit(130)


def lock(tree):
    """Waits until running commands of rt have ended, and locks the crates against others. Returns the descriptors that hold the locks."""
    held = [os.open(it.folder, os.O_RDONLY) for it in tree.crates.values()]
    for crate, it in zip(tree.crates.values(), held):
        wait_for(it, f"another rt to end in crates/{crate.name}")
    return held


def wait_for(held, what):
    """Locks an open file, and prints what it waits for."""
    try:
        fcntl.flock(held, fcntl.LOCK_EX | fcntl.LOCK_NB)
    except BlockingIOError:
        print(f"waiting for {what}", flush=True)
        fcntl.flock(held, fcntl.LOCK_EX)


def clear(tree):
    """Removes the rooms of a killed run, and moves each out/ in them back to its crate."""
    for crate in tree.crates.values():
        for out in tree.rooms.glob(f"proof-{crate.name}/crates/{crate.name}/out"):
            if not crate.out.exists():
                os.rename(out, crate.out)
    shutil.rmtree(tree.rooms, ignore_errors=True)
