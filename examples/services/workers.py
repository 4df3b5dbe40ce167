#!/usr/bin/env python3
"""A rate limiter that runs in several processes, like a web server. Each user may make ten calls at once, and one more every 100
milliseconds.

    workers.py BASE SOCKET

A parent opens a shared base and a Unix socket, and forks four workers. They answer lines as limiter.py does: a line is the name of a user,
and the answer is `yes LEFT` or `no MILLISECONDS`. Each answer is sent after its change is on the disk, so a kill of any or all processes
loses no answered call. If a worker ends, the parent starts another one. SIGTERM or SIGINT ends the service. If the parent is killed, its
workers end too. Other processes, such as sweep.py, may use the base at the same time.

As in limiter.py, a key is the hash of a name with the secret in BASE.secret.
"""

import hashlib
import os
import pathlib
import signal
import socket
import socketserver
import struct
import sys
import threading
import time

HERE = pathlib.Path(__file__).resolve().parent
sys.path.append(str(HERE.parent.parent / "bindings/python"))

import boddurci
from limiter import Asking, secret_of

WORKERS = 4

# The cost of a call and the capacity of a bucket, each in milliseconds of inflow.
CALL = struct.pack("<2Q", 100, 1000)


class Worker(socketserver.ThreadingMixIn, socketserver.BaseServer):
    """A server on the socket of the parent. All its threads use the database object that the parent opened before the fork."""

    daemon_threads, block_on_close = True, False

    def __init__(self, listening, db, secret):
        super().__init__(None, Asking)
        self.socket, self.db, self.secret = listening, db, secret
        self.bucket = db.stock("token_bucket")

    def fileno(self):
        return self.socket.fileno()

    def get_request(self):
        # Raises BlockingIOError if another worker has accepted the connection.
        connection, where = self.socket.accept()
        connection.setblocking(True)
        return connection, where

    def close_request(self, request):
        request.close()

    def answer(self, user):
        key = hashlib.blake2b(user, digest_size=16, key=self.secret).digest()
        try:
            end, word = self.db.run(self.bucket, key, CALL, blank=8, now=time.time_ns() // 1_000_000)
        except boddurci.error as fault:
            return f"fault {fault}\n".encode()
        return b"yes %d\n" % (word // 100) if end == 1 else b"no %d\n" % word


def work(worker, life):
    """Serves until the parent ends, which closes the other end of the pipe."""
    threading.Thread(target=worker.serve_forever, daemon=True).start()
    os.read(life, 1)
    os._exit(0)


def forked(worker, pipe):
    """Forks a worker, and returns its process id."""
    child = os.fork()
    if child == 0:
        try:
            for number in (signal.SIGTERM, signal.SIGINT):
                signal.signal(number, signal.SIG_IGN)
            os.close(pipe[1])
            work(worker, pipe[0])
        finally:
            os._exit(1)
    return child


def serve(worker):
    """Replaces workers that end, until SIGTERM or SIGINT arrives."""
    pipe, signals = os.pipe(), (signal.SIGTERM, signal.SIGINT, signal.SIGCHLD)
    # A blocked signal stays pending until the next sigwait, so no signal is missed.
    signal.pthread_sigmask(signal.SIG_BLOCK, signals)
    children = {forked(worker, pipe) for _ in range(WORKERS)}
    while signal.sigwait(signals) == signal.SIGCHLD:
        for child in list(children):
            if os.waitpid(child, os.WNOHANG)[0] == child:
                children.remove(child)
                children.add(forked(worker, pipe))
    # The workers may end in the middle of a call: nobody has received its answer.
    os.close(pipe[1])
    for child in children:
        os.waitpid(child, 0)


def main():
    if len(sys.argv) != 3:
        sys.exit("usage: workers.py BASE SOCKET")
    base, where = sys.argv[1:]
    with boddurci.open(base, "c", shared=True) as db, socket.socket(socket.AF_UNIX) as listening:
        secret = secret_of(base)
        if os.path.exists(where):
            os.unlink(where)
        listening.bind(where)
        listening.listen(100)
        listening.setblocking(False)
        serve(Worker(listening, db, secret))
        os.unlink(where)


if __name__ == "__main__":
    main()
