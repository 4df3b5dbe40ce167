"""Proves crates, builds and runs programs and tests."""

import os
import re
import shutil
import subprocess
import tempfile

from cache import turn
from rooms import Room

# Words that the verdict of a crate must not contain. They report functions of C, values that hide a contract, calls that end the program
# or never return, and failures of the prover.
REFUSED = ("foreign", "hides", "partial", "may-abort", "may-serve", "bugs")
SECONDS = 120
CHANGED = "its files, or those of a crate below, were changed meanwhile"


def last_line(said):
    """Returns the last line with a verdict, or None."""
    lines = re.findall(r"^logic=proved .*$", said, re.M)
    return lines[-1] if lines else None


def beyond(crate, line):
    """Returns an error if a verdict has one of these words, otherwise None."""
    words = dict(word.partition("=")[::2] for word in line.split())
    handles = set(filter(None, words.get("main", "").split("+"))) | ({"Wait"} if "may-wait" in words else set())
    more = [f"{name}={words[name]}" for name in REFUSED if name in words] + sorted(handles - crate.tree.handles)
    return f"its verdict has {', '.join(more)}, which HANDLES or the gate does not allow" if more else None


def of_interest(said):
    """Returns the useful lines of the output of rt for a crate that is not proved."""
    lines = [it for it in said.splitlines() if not re.search(r": proved$|^(?:checked|statements|library|crate|logic) ", it)]
    return "\n".join(lines[-200:]) or "rt said nothing of it"


def prove(crate, jobs):
    """Proves a crate whose crates below are proved, and builds its library or its program. Returns an error message, or None."""
    with turn(crate, "proof") as has_passed:
        if has_passed:
            date(crate)
            return None
        with Room(crate, "proof", takes_out=True) as room:
            status, said = room.rt("run" if crate.is_program else "lib", "--jobs", str(jobs))
            if not (f"rt: running out/{crate.name};" in said if crate.is_program else status == 0):
                return of_interest(said)
            line = last_line(said) or last_line(room.rt("check", "--jobs", str(jobs))[1])
        date(crate)
        why = "it has no verdict" if line is None else beyond(crate, line)
        return why or (None if crate.note_passed("proof") else CHANGED)


def date(crate):
    """Sets the time of a crate's result so that it is newer than the sources, except for sources that were changed in the meantime."""
    os.utime(crate.out / crate.made("proof"), (crate.tree.began, crate.tree.began))


def test(crate, jobs):
    """Proves the tests of a crate, and runs them as both compilers build them. Returns an error message, or None."""
    with turn(crate, "tests") as has_passed:
        if has_passed:
            return None
        with Room(crate, "tests") as room:
            for compiler in ("llvm", "rattle"):
                status, said = room.rt("test", "--jobs", str(jobs), "--backend", compiler)
                if status:
                    return f"built by {compiler}:\n{of_interest(said)}"
        return None if crate.note_passed("tests") else CHANGED


def build_otherwise(crate, jobs):
    """Builds a proved program by Rattle's own compiler, in addition to LLVM. Returns an error message, or None."""
    with turn(crate, "program") as has_passed:
        if has_passed:
            return None
        with Room(crate, "program") as room:
            said = room.rt("run", "--jobs", str(jobs), "--backend", "rattle")[1]
            if f"rt: running out/{crate.name};" not in said:
                return of_interest(said)
            shutil.copy2(room.folder / "out" / crate.name, crate.out / crate.made("program"))
        return None if crate.note_passed("program") else CHANGED


def run(crate, program):
    """Runs a program in a new folder with the input and arguments of its crate. Returns an error message, or None."""
    given = {name: (crate.folder / name).read_bytes() for name in ("stdin", "stdout", "args", "status") if (crate.folder / name).exists()}
    words = given.get("args", b"").decode().splitlines()
    with tempfile.TemporaryDirectory(prefix="program-") as room:
        folder = shutil.copytree(crate.folder / "data", f"{room}/data") if (crate.folder / "data").is_dir() else room
        env = {"PATH": os.environ["PATH"], "HOME": str(folder), "TMPDIR": str(folder), "LANG": "C.UTF-8"}
        how = {"cwd": folder, "env": env, "input": given.get("stdin", b""), "timeout": SECONDS}
        try:
            ran = subprocess.run([program, *words], stdout=subprocess.PIPE, stderr=subprocess.PIPE, **how)
        except subprocess.TimeoutExpired:
            return f"it had not ended after {SECONDS} seconds"
    wanted = int(given.get("status", b"0"))
    if ran.returncode != wanted:
        return f"it ended with status {ran.returncode}, and not {wanted}: {ran.stderr.decode(errors='replace')[-600:]}"
    return None if ran.stdout == given.get("stdout", b"") else first_difference(ran.stdout, given.get("stdout", b""))


def first_difference(wrote, wanted):
    """Returns a message about the first line of the output that differs from the expected output."""
    pairs = [wrote.decode(errors="replace").splitlines(), wanted.decode(errors="replace").splitlines()]
    at = next((at for at, (one, other) in enumerate(zip(*pairs)) if one != other), min(map(len, pairs)))
    one, other = (lines[at] if at < len(lines) else "nothing more" for lines in pairs)
    return f"line {at + 1} of what it wrote is {one!r}, and its file stdout has {other!r}"


def run_both(crate, jobs):
    """Runs a proved program as each of the two compilers builds it. Returns an error message, or None."""
    why = build_otherwise(crate, jobs)
    for name, compiler in ((crate.name, "LLVM"), (f"{crate.name}.by-rattle", "Rattle's own compiler")):
        told = None if why else run(crate, crate.out / name)
        why = why or (told and f"built by {compiler}: {told}")
    return why


def in_format(crates, rattle):
    """Returns the output of rt fmt for each crate in which rt fmt would change files."""
    found = {}
    for crate in crates:
        files = [str(it) for it in crate.files() if it.suffix in (".rt", ".antt")]
        ran = subprocess.run([rattle, "fmt", "--check", *files], stdout=subprocess.PIPE, stderr=subprocess.STDOUT, cwd=crate.folder)
        if ran.returncode:
            found[crate] = ran.stdout.decode(errors="replace").strip()
    return found
