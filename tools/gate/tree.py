"""The crates of crates.txt, and the checksums that show which tasks have passed."""

import functools
import hashlib
import json
import os
import pathlib
import re
import shutil
import subprocess
import time

# The folders of a crate that a proof reads, and the files that the build of a program reads in addition.
SOURCES = ("src", "specs", "proofs", "c")
NOTED = ("args", "status")
# The files of this tool that decide what has passed. (gate/lanes.py only orders tasks.)
JUDGES = ("prove_crates", "gate/cache.py", "gate/edits.py", "gate/proofs.py", "gate/rooms.py", "gate/tree.py")
TEST = re.compile(r"^\s*#\[test\]", re.M)


def rt():
    """Returns the command of the Rattle kit, or None if it is missing."""
    return shutil.which("rt") or shutil.which("/opt/rattle/bin/rt")


class Crate:
    """A crate: its name, its line, its folder, and its dependencies in this tree."""

    def __init__(self, tree, line):
        head, _, names = line.partition(":")
        self.name, *self.words = head.split()
        self.tree, self.line, self.names = tree, line, names.split()
        self.folder = tree.top / "crates" / self.name
        self.out = self.folder / "out"
        # By task: whether it was `unchanged`, `taken` from the cache, or `proved`.
        self.came = {}
        self.is_program = (self.folder / "src/main.rt").exists()
        self.edits = sorted((self.folder / "must-fail").glob("*.edit"))
        self.has_tests = any(TEST.search(path.read_text(encoding="utf-8")) for path in self.folder.glob("src/**/*.rt"))

    @functools.cached_property
    def uses(self):
        return [self.tree.crates[name] for name in self.names if name in self.tree.crates]

    @functools.cached_property
    def below(self):
        """All its dependencies, direct and indirect, each after its own dependencies."""
        found = []
        for crate in self.uses:
            found += [it for it in [*crate.below, crate] if it not in found]
        return found

    def files(self):
        """Returns the files that the crate's proof reads, sorted."""
        found = [path for part in SOURCES for path in (self.folder / part).rglob("*") if path.is_file()]
        return sorted(found + [self.folder / name for name in NOTED if (self.folder / name).is_file()])

    @functools.cached_property
    def code(self):
        """The size of the crate's code in units of 1,000 bytes."""
        return sum(path.stat().st_size for path in self.files() if path.suffix == ".rt") / 1000

    @functools.cached_property
    def load(self):
        """The estimated seconds of a check that has nothing to prove. It reads the statements of the crates below."""
        return 10 + sum(it.code for it in self.below) / 10

    @functools.cached_property
    def work(self):
        """The estimated seconds of a proof without earlier work."""
        return self.load + 5 * self.code

    def own_sum(self):
        """Returns the checksum of the crate's files as they are now."""
        told = hashlib.sha256(self.line.encode())
        for path in self.files():
            told.update(f"\n{path.relative_to(self.folder)}\n".encode() + path.read_bytes())
        return told.hexdigest()

    @functools.cached_property
    def began(self):
        """The checksum of the crate's files when it was first requested."""
        return self.own_sum()

    @functools.cached_property
    def sum(self):
        """The checksum of all inputs of the crate's proof: the kit, this tool, the handles, its files and those of the crates below."""
        return summed(self.tree.kit, self.tree.tool, self.tree.handles_line, self.began, *[it.sum for it in self.uses])

    @functools.cached_property
    def sum_with_edits(self):
        return summed(self.sum, *[f"{it.name}\n{it.read_text(encoding='utf-8')}" for it in self.edits])

    def inputs(self, what):
        """Returns the checksum of all inputs of a task."""
        return self.sum_with_edits if what == "edits" else self.sum

    def made(self, what):
        """Returns the file in out/ by which a task has passed, if it makes files."""
        if what == "proof":
            return self.name if self.is_program else f"lib{self.name}.a" if "staticlib" in self.words else "rlib/stamp"
        return f"{self.name}.by-rattle" if what == "program" else None

    def passed(self):
        """Returns the tasks of the crate that have passed, by name, each with the checksums of its inputs and of its results."""
        try:
            return json.loads((self.out / "passed.json").read_text())
        except (OSError, ValueError):
            return {}

    def has_passed(self, what):
        """Returns whether a task has passed with these inputs, and its results are unchanged."""
        kept = self.passed().get(what, {})
        made = kept.get("made", {})
        return kept.get("sum") == self.inputs(what) and all(file_sum(self.out / name) == it for name, it in made.items())

    def note_passed(self, what):
        """Records and keeps in the cache that a task has passed, unless its inputs were changed in the meantime. Returns whether it did."""
        if any(it.own_sum() != it.began for it in [self, *self.below]):
            return False
        self.record(what)
        self.tree.cache.keep(self, what)
        return True

    def record(self, what):
        """Records that a task has passed."""
        made = {name: file_sum(self.out / name) for name in [self.made(what)] if name}
        with self.tree.noting:
            self.out.mkdir(exist_ok=True)
            kept = {**self.passed(), what: {"sum": self.inputs(what), "made": made}}
            new = self.out / "passed.json.new"
            new.write_text(json.dumps(kept, indent=1))
            os.replace(new, self.out / "passed.json")


def summed(*texts):
    return hashlib.sha256("\0".join(texts).encode()).hexdigest()


def file_sum(path):
    """Returns the checksum of a file, or None if it is missing. BLAKE2 takes half the time of SHA-256."""
    return hashlib.blake2b(path.read_bytes(), digest_size=32).hexdigest() if path.is_file() else None


class Tree:
    """The repository at a folder, with its crates, each after those below it, and the cache."""

    def __init__(self, top, noting, cache):
        self.top, self.noting, self.crates, self.began = pathlib.Path(top).resolve(), noting, {}, time.time()
        self.cache = cache
        for line in (self.top / "crates.txt").read_text(encoding="utf-8").splitlines():
            if line.strip() and not line.startswith("#"):
                crate = Crate(self, line)
                self.crates[crate.name] = crate
        self.kit = subprocess.run([rt(), "version"], stdout=subprocess.PIPE, universal_newlines=True).stdout
        self.tool = summed(*[(self.top / "tools" / name).read_text(encoding="utf-8") for name in JUDGES])
        handles = self.top / "HANDLES"
        self.handles_line = handles.read_text(encoding="utf-8") if handles.exists() else ""
        self.handles = set(re.findall(r"Threads|Wait|Net|Processes", self.handles_line))
        git = self.top / ".git"
        self.rooms = (git if git.is_dir() else self.top / "out") / "gate-rooms"

    def in_order(self):
        return sorted(self.crates.values(), key=lambda it: len(it.below))
