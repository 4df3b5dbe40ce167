"""Runs programs whose standard error is a terminal, for the scripts of tests/."""

import os
import pty
import subprocess
import time


def has_terminals():
    """Returns whether pseudoterminals exist under the names that `dbm` knows."""
    try:
        near, far = pty.openpty()
        name = os.ttyname(far)
        os.close(near)
        os.close(far)
    except OSError:
        return False
    return name.startswith("/dev/pts/")


def at_terminal(command, folder, pieces, pause):
    """Runs a command with a terminal as standard error. Sends the input in pieces, with a pause after each piece. Returns the status, the
    standard error and the output."""
    near, far = pty.openpty()
    with subprocess.Popen(command, stdin=subprocess.PIPE, stdout=subprocess.PIPE, stderr=far, cwd=folder) as run:
        os.close(far)
        for piece in pieces:
            run.stdin.write(piece)
            run.stdin.flush()
            time.sleep(pause)
        run.stdin.close()
        printed = run.stdout.read()
    said = b""
    while True:
        try:
            some = os.read(near, 4096)
        except OSError:
            break
        if not some:
            break
        said += some
    os.close(near)
    return run.returncode, said.replace(b"\r\n", b"\n"), printed
