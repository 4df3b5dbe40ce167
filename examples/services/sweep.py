#!/usr/bin/env python3
"""A job for cron: deletes the buckets of workers.py that are full again, so that users who have left take no room in the base.

    sweep.py BASE

The job may run while the service runs. Each deletion is one step, so a call of the service waits for at most one deletion. A missing
bucket counts as full, so the deletion of a full bucket changes no answer. The test and the deletion are one step, so no bucket that a call
has just used is deleted. The job prints the number of deleted buckets, and adds it to the counter `swept` of the base. A kill of the job
loses only this number.
"""

import pathlib
import sys
import time

sys.path.append(str(pathlib.Path(__file__).resolve().parent.parent.parent / "bindings/python"))

import boddurci

# The length of a bucket's key in bytes. Keys with other lengths are left alone.
KEY = 16

# Deletes a bucket if it is full: its first number is the time at which it is full, and that time is not after the time of the run.
DELETE_FULL = """
    jlt r2, 8, leave
    ldxdw r6, [r1]
    call 2              ; the time
    jgt r6, r0, leave
    mov r0, 2           ; delete the pair
    exit
leave:
    mov r0, 0           ; change nothing
    exit
"""


def main():
    if len(sys.argv) != 2:
        sys.exit("usage: sweep.py BASE")
    with boddurci.open(sys.argv[1], "w", shared=True) as db:
        program, count = db.program(DELETE_FULL), 0
        for key in db.keys():
            if len(key) != KEY:
                continue
            try:
                count += db.run(program, key, now=time.time_ns() // 1_000_000).end == 2
            except KeyError:
                pass  # another sweep has deleted the bucket
        if count:
            db.counter(b"swept").add(count)
    print(count)


if __name__ == "__main__":
    main()
