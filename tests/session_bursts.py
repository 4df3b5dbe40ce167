"""Tests sessions of `dbm` that save several times within a few milliseconds, while another program writes their files."""

import os
import random
import shutil
import time

from session_io import COUNTER, SECONDS, Session, holds, listed, run


def begin_burst(program, folder):
    """Begins a session on a database of some pages, and saves twice in a row. The second save does not look at the times of the files."""
    for file in folder.glob("db*"):
        file.unlink()
    text = "".join(f"put {number:04x} {number:02x}{'11' * 100}\n" for number in range(60)) + "put 61 00\n"
    run(program, folder, "session", "db", text=text)
    session = Session(program, folder)
    # The saves look at the files as long as the folder has just changed.
    time.sleep(0.05)
    for count in (1, 2):
        session.ask(f"put 61 {count:02x}")
        holds(session.ask("save") == "saved", "a save in a row is not answered")
    session.ask("put 61 03")
    return session


def wait_for(is_so, what):
    """Waits until `is_so` returns true. A check fails if that takes too long."""
    until = time.monotonic() + SECONDS
    while not is_so() and time.monotonic() < until:
        time.sleep(0.01)
    holds(is_so(), f"{what} within {SECONDS} seconds")


def slowed(program, folder, *words):
    """Returns the path of a script that runs `dbm` with some of its calls delayed or failed by strace."""
    script = folder / "slowed"
    script.write_text(f'#!/bin/sh\nexec strace -f -qq -o /dev/null {" ".join(map(str, words))} {program} "$@"\n')
    script.chmod(0o755)
    return script


def write_byte(file, at, byte):
    """Writes a byte in place, as another program does."""
    with open(file, "r+b") as opened:
        opened.seek(at)
        opened.write(bytes([byte]))


def is_refused(session, fault):
    """Returns whether the next save is refused with this fault."""
    session.send("save")
    status, output, error = session.end()
    return (status, output) == (2, "") and f"dbm: {fault}" in error


def others_write_in_a_burst(program, folder):
    """A save right after another one finds what another program has written in `.dir` and in the pages that it changes, a new length of a
    data file, and new files with the names of its files. A later save also finds what another program has written in other pages."""
    pages, spelled = folder / "db.pag", b"\x07" + b"\x11" * 100 + b"\0\x07"
    for line in ("put 61 03", f"put 0007 08{'11' * 100}"):
        session = begin_burst(program, folder)
        session.ask(line)
        found = pages.read_bytes()
        page = found.index(spelled if "0007" in line else b"\2a") // 1024 * 1024
        at = found.index(b"\x11", page)
        write_byte(pages, at, 0x55)
        holds(at < page + 1024 and is_refused(session, "Changed"), f"others are overwritten in a burst by {line[:9]}")
        holds(pages.read_bytes()[at] == 0x55, f"what another program wrote before {line[:9]} is not there")
        holds(run(program, folder, "check", "db").returncode == 0, "after a burst the database is not one")
    session = begin_burst(program, folder)
    at = pages.read_bytes().index(spelled)
    write_byte(pages, at, 0x55)
    is_saved = session.ask("save") == "saved"
    time.sleep(0.02)
    session.ask(f"put 61 {3 + is_saved:02x}")
    holds(is_refused(session, "Changed") and pages.read_bytes()[at] == 0x55, "what another program wrote in another page is not found")
    session = begin_burst(program, folder)
    at = pages.read_bytes().index(spelled)
    write_byte(pages, at, 0x55)
    is_saved = session.ask("save") == "saved"
    status, _, error = session.end()
    holds(status == 2 and "dbm: Changed" in error, f"the end of a session does not look at the files: {is_saved} {status} {error}")
    session = begin_burst(program, folder)
    write_byte(folder / "db.dir", 2000, 1)
    holds(is_refused(session, "Changed"), "what another program wrote in .dir is not found in a burst")
    write_byte(folder / "db.dir", 2000, 0)
    holds("61 02\n" in listed(program, folder), "a save was lost in a burst")
    for name, length in (("db.pag", 1024), ("db.dir", 4096)):
        session = begin_burst(program, folder)
        with open(folder / name, "ab") as file:
            file.write(bytes(length))
        holds(is_refused(session, "Changed"), f"a new length of {name} is not found in a burst")
    for name in ("db.pag", "db.dir", "db.lock", "db.writer"):
        session = begin_burst(program, folder)
        shutil.copy2(folder / name, folder / "other")
        times = folder.stat()
        os.replace(folder / "other", folder / name)
        os.utime(folder, ns=(times.st_atime_ns, times.st_mtime_ns))
        holds(is_refused(session, "Moved"), f"a new {name} is not found in a burst")
        holds("61 02\n" in listed(program, folder), f"after a new {name} the last save is not there")
    session = begin_burst(program, folder)
    pages.chmod(0o600)
    for count in (4, 5):
        holds(session.ask("save") == "saved", "after a chmod nothing is saved")
        time.sleep(0.02)
        session.ask(f"put 61 {count:02x}")
    holds((folder / "db.redo").stat().st_mode & 0o777 == 0o600, "the redo file does not get the mode of .pag")
    session.end()


def others_write_during_a_save(program, folder):
    """What another program writes in another page, or appends, while a save writes its own pages is found by the next save that looks.
    strace delays the writes to .pag."""
    if shutil.which("strace") is None:
        print("session_lines: no strace, so nothing is written during a save")
        return
    pages, spelled = folder / "db.pag", b"\x07" + b"\x11" * 100 + b"\0\x07"
    slow = slowed(program, folder, "-P", pages, "-e", "inject=pwrite64:delay_exit=1000000")
    for appends in (False, True):
        begin_burst(program, folder).end()
        time.sleep(0.05)
        before = pages.read_bytes()
        session = Session(slow, folder)
        session.ask("put 61 77")
        session.send("save")
        wait_for(lambda: pages.read_bytes() != before, "a save does not write")
        at = len(before) if appends else pages.read_bytes().index(spelled)
        holds(at // 1024 != pages.read_bytes().index(b"\x77a") // 1024, "both records are in one page")
        with open(pages, "r+b") as file:
            file.seek(at)
            file.write(b"\x55" * (1024 if appends else 1))
        answer = session.answer()
        time.sleep(0.05)
        session.ask("put 61 78")
        is_found = is_refused(session, "Changed")
        holds(answer == "saved" and is_found and pages.read_bytes()[at] == 0x55, f"what another program wrote during a save is not found: {answer}")


def others_write_before_a_new_log(program, folder):
    """What another program writes after a save has looked, and before it reads the files for a new log, is not overwritten. strace delays
    the syncs."""
    if shutil.which("strace") is None:
        print("session_lines: no strace, so nothing is written before a new log")
        return
    pages, spelled = folder / "db.pag", b"\x07" + b"\x11" * 100 + b"\0\x07"
    begin_burst(program, folder).end()
    slow = slowed(program, folder, "-e", "inject=fdatasync:delay_enter=500000")
    session = Session(slow, folder)
    session.ask("put 61 77")
    holds(session.ask("save") == "saved", "a slow save is not answered")
    pages.chmod(0o600)
    session.ask("put 61 78")
    session.send("save")
    time.sleep(0.25)
    at = pages.read_bytes().index(spelled)
    write_byte(pages, at, 0x55)
    status, output, error = session.end()
    holds((status, output) == (2, "") and "dbm: Changed" in error and pages.read_bytes()[at] == 0x55, f"a write before a new log: {status} {output} {error}")


def random_line(words, keys):
    """Returns a line that changes something: one page, or several. `keys` has the keys of the database."""
    key = f"{words.randrange(120):04x}" if words.random() < 0.9 else f"{words.randrange(30):02x}" * words.choice((1, 70, 200))
    if words.random() < 0.2 and keys:
        key = words.choice(sorted(keys))
        keys.remove(key)
        return f"del {key}"
    value = f"{words.randrange(1 << 24):06x}{'11' * words.choice((5, 100, 100, 300))}"
    is_new = key not in keys
    keys.add(key)
    line = f"put {key} {value}"
    return words.choice((line, line, f"incr fe{words.randrange(5):02x}", f"run ff{words.randrange(5):02x} 0 . 8 0", f"insert {key} {value}" if is_new else line))


def each_line_of_a_burst_is_saved(program, folder):
    """Whatever a line changes, splits included, is in its own save: a session that saves after each line is killed after some lines, mostly
    before it looks at the files again. A script with the same lines makes the same database."""
    for seed in range(60):
        words = random.Random(seed)
        begin_burst(program, folder).end()
        copy = run(program, folder, "dump", "db").stdout
        keys = {line.split()[0] for line in listed(program, folder).splitlines()}
        session = Session(program, folder, "--save-every", "1")
        session.ask(f"program {COUNTER}")
        time.sleep(0.05)
        lines = ["put 61 77", *(random_line(words, keys) for _ in range(words.choice((1, 2, 3, 5, 8))))]
        answers = [session.ask(line) for line in lines]
        session.kill()
        left = listed(program, folder)
        for file in folder.glob("other*"):
            file.unlink()
        run(program, folder, "load", "other", text=copy)
        run(program, folder, "script", "--base", "other", text="".join(f"{line}\n" for line in [f"program {COUNTER}", *lines]))
        wanted = listed(program, folder, "other")
        is_same = sorted(left.splitlines()) == sorted(wanted.splitlines())
        holds(is_same, f"with seed {seed} a line is not saved in a burst: {answers}")
    for file in folder.glob("other*"):
        file.unlink()


def others_replace_a_new_file(program, folder):
    """If another program replaces .pag by a copy while the first save creates it, no later save that is answered is lost. If it writes
    other bytes into the new file, or gives its name to a file with other bytes, the next save is refused, and these bytes stay. strace
    delays the writes to .pag."""
    if shutil.which("strace") is None:
        print("session_lines: no strace, so no new file is replaced")
        return
    pages = folder / "db.pag"
    slow = slowed(program, folder, "-P", pages, "-e", "inject=pwrite64:delay_exit=1000000")

    def copies():
        shutil.copy2(pages, folder / "other")
        os.replace(folder / "other", pages)

    def moves():
        run(program, folder, "store", "theirs", "62", "09")
        os.replace(folder / "theirs.pag", pages)

    def writes():
        write_byte(pages, pages.read_bytes().index(b"\1a"), 9)

    for interferes in (copies, moves, writes):
        for file in [*folder.glob("db*"), *folder.glob("theirs*")]:
            file.unlink()
        session = Session(slow, folder)
        session.ask("put 61 01")
        session.send("save")
        wait_for(lambda: pages.exists() and b"\1a" in pages.read_bytes(), "a new file is not written")
        interferes()
        left, answer = pages.read_bytes(), session.answer()
        session.ask("put 61 02")
        if interferes is copies:
            answers = [answer, session.ask("save"), session.ask("put 61 03"), session.ask("save")]
            session.end()
            found = listed(program, folder)
            holds(answers == ["saved", "saved", "stored", "saved"] and found == "61 03\n", f"after a new .pag was copied, {answers} left {found}")
        else:
            is_found, now = is_refused(session, "Changed"), pages.read_bytes()
            holds(answer == "saved" and is_found and now == left, f"another program {interferes.__name__} a new .pag, and {answer}: {now[-20:]}")


def continues_after_a_failed_write(program, folder):
    """If a save of a burst cannot write .pag, it is in the log, and the session says so. Later saves are made too. strace lets one write to
    .pag fail."""
    if shutil.which("strace") is None:
        print("session_lines: no strace, so no write fails")
        return
    begin_burst(program, folder).end()
    for number in range(1, 5):
        failing = slowed(program, folder, "-P", folder / "db.pag", "-e", f"inject=pwrite64:error=EIO:when={number}")
        session = Session(failing, folder)
        time.sleep(0.05)
        answers = [answer for count in range(6) for answer in (session.ask(f"put 61 {count:02x}"), session.ask("save"))]
        status, _, error = session.end()
        is_told = error.count("the change is saved in db.redo") == 1
        holds(answers == ["stored", "saved"] * 6 and status == 0, f"after a failed write {number}: {answers} {status}")
        holds(is_told and "61 05\n" in listed(program, folder), f"after a failed write {number} the session says {error!r}")


def tells_of_a_log_that_is_not_closed(program, folder):
    """If a sync fails while the session closes its log after the save that creates the files, the session says that the save is in the log.
    strace makes each sync fail in turn."""
    if shutil.which("strace") is None:
        print("session_lines: no strace, so no sync fails")
        return
    left = 0
    for number in range(1, 8):
        for file in folder.glob("db*"):
            file.unlink()
        session = Session(slowed(program, folder, "-e", f"inject=fdatasync:error=EIO:when={number}"), folder)
        session.ask("put 61 01")
        if session.ask("save") == "saved":
            is_marked = (folder / "db.redo").read_bytes()[:1] == b"\1"
            holds(listed(program, folder) == "61 01\n", f"with a failed sync {number} a save is lost")
            _, _, error = session.end()
            left += is_marked
            holds(not is_marked or "the change is saved in db.redo" in error, f"with a failed sync {number} the session says {error!r}")
        else:
            session.end()
    holds(left > 0, "no sync fails while the log is closed")
