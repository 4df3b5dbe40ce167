#!/usr/bin/env python3
"""A rate limiter as a service, for frequent calls. Each user may make ten calls at once, and one more every 100 milliseconds.

    limiter.py BASE SOCKET

Each line on the Unix socket is the name of a user, and the answer is `yes LEFT` or `no MILLISECONDS`. The database is saved every second,
and when SIGTERM or SIGINT ends the service. A kill loses only the calls that were admitted since the last save.

Users choose their names. If the names were the keys, users could choose names whose hashes agree, and BASE.pag would become as long as
possible. So a key is the hash of a name with a secret. The service makes the secret in BASE.secret together with the database. If you
delete BASE.secret, all users start with full buckets.
"""

import contextlib
import hashlib
import os
import pathlib
import signal
import socketserver
import struct
import sys
import tempfile
import threading
import time

HERE = pathlib.Path(__file__).resolve().parent
sys.path.append(str(HERE.parent.parent / "bindings/python"))

import boddurci

# The milliseconds per token, the capacity in tokens, and the cost of a call in tokens.
RATE = struct.pack("<3Q", 100, 10, 1)

# The limit on the bytes of a user's name.
LONGEST = 1000

# The limit on the length of BASE.pag, so that invented names cannot fill the disk. It is enough for about half a million users.
MOST_BYTES = 64 << 20

# The length of the secret in bytes.
SECRET = 32


class Asking(socketserver.StreamRequestHandler):
    """The connection of a client, in a separate thread. A line that is too long or has no LF ends the connection."""

    def handle(self):
        while True:
            line = self.rfile.readline(LONGEST + 1)
            if line.endswith(b"\n"):
                self.wfile.write(self.server.answer(line[:-1]))
                continue
            if len(line) > LONGEST:
                self.wfile.write(b"fault a user has at most %d bytes\n" % LONGEST)
            return


class Limiter(socketserver.ThreadingUnixStreamServer):
    daemon_threads = True

    def __init__(self, where, db, secret):
        super().__init__(where, Asking)
        self.db, self.bucket = db, db.program((HERE.parent / "c/token_bucket.bin").read_bytes())
        self.secret = secret

    def answer(self, user):
        key = hashlib.blake2b(user, digest_size=16, key=self.secret).digest()
        try:
            end, word = self.db.run(self.bucket, key, RATE, blank=16, now=time.time_ns() // 1_000_000)
        except boddurci.error as fault:
            return f"fault {fault}\n".encode()
        return b"%s %d\n" % (b"yes" if end == 1 else b"no", word)


def secret_of(base):
    """Returns the secret of a database, and makes it if it is missing. The link is made atomically, so services that start at the same time
    use the same secret. A secret with a wrong length ends the service, since an empty secret would leave the hash without a key."""
    path = pathlib.Path(base + ".secret")
    if not path.exists():
        number, new = tempfile.mkstemp(prefix=f"{path.name}.", dir=path.parent)
        with open(number, "wb") as file:
            file.write(os.urandom(SECRET))
            file.flush()
            os.fsync(file.fileno())
        with contextlib.suppress(FileExistsError):
            os.link(new, path)
        os.unlink(new)
        sync_folder(path.parent)
    secret = path.read_bytes()
    if len(secret) != SECRET:
        sys.exit(f"{str(path)!r} has {len(secret)} bytes, and a secret has {SECRET}: put the right file back, or delete it")
    return secret


def sync_folder(path):
    """Makes the directory entries of a folder durable."""
    number = os.open(path, os.O_RDONLY | os.O_DIRECTORY)
    try:
        os.fsync(number)
    finally:
        os.close(number)


def main():
    if len(sys.argv) != 3:
        sys.exit("usage: limiter.py BASE SOCKET")
    base, where = sys.argv[1:]
    over = threading.Event()
    with boddurci.open(base, "c", limit=MOST_BYTES) as db:
        for number in (signal.SIGTERM, signal.SIGINT):
            signal.signal(number, lambda *_: over.set())
        secret = secret_of(base)
        if os.path.exists(where):
            os.unlink(where)
        with Limiter(where, db, secret) as limiter:
            threading.Thread(target=limiter.serve_forever, daemon=True).start()
            while not over.wait(1):
                db.sync()
            limiter.shutdown()
            os.unlink(where)


if __name__ == "__main__":
    main()
