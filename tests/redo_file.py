"""Computes the bytes of redo files, for the scripts that compare these bytes. A redo file is a log, which the head of
crates/sdbm_log/specs/Log.antt defines, or the marked plan of one save, which the head of crates/sdbm_saves/specs/Redo.antt defines. Older
versions of `dbm` left such plans."""

SIGNATURE = b"sdbmred2"
# A plan divides both files into blocks of BLOCK bytes. The changes of the directory come first. A change begins and ends at multiples of
# PART within its block.
BLOCK, PART = 1024, 32


def number(value):
    return value.to_bytes(4, "little")


def changed_part(old, new, part):
    """Returns the start and the end of the change in a block. If the old bytes of the change are all zeros, the change is the whole
    block."""
    differ = [at for at in range(0, len(new), part) if old[at : at + part] != new[at : at + part]]
    start, end = differ[0], min(differ[-1] + part, len(new))
    return (start, end) if any(old[start:end]) else (0, len(new))


def plan_of(before, after, signature=SIGNATURE, part=PART):
    """Returns the plan of a save, given the files of one database, by name, before it and after it."""
    both = [(before.get(f"db.{end}", b""), after.get(f"db.{end}", b"")) for end in ("pag", "dir")]
    changes = []
    for which in (1, 0):
        old, new = both[which]
        for at in range(0, len(new), BLOCK):
            data = new[at : at + BLOCK]
            was = old[at : at + len(data)].ljust(len(data), b"\0")
            if was != data:
                start, end = changed_part(was, data, part)
                changes.append(bytes([which]) + number(at + start) + number(end - start) + data[start:end] + was[start:end])
    lengths = [number(len(new)) for _, new in both] + [number(len(old)) for old, _ in both]
    return signature + b"".join(lengths) + number(len(changes)) + b"".join(changes)


def redo_of(before, after, mark=1, signature=SIGNATURE):
    """Returns the redo file that older versions write for this save. Each change in that plan is a whole block."""
    return bytes([mark]) + plan_of(before, after, signature, BLOCK)


# ---- logs

HEADER = 4096
LOG_SIGNATURE = b"sdbmlog1"
# The room for records after the header of a log: in a log of the library; in a log of a session; the least room in a log of a command; and
# the greatest room in a log that a command leaves.
ROOM = 1 << 20
SESSION_ROOM = 258048
LEAST_ROOM = 28672
MOST_ROOM = 258048


def digits(value):
    """Returns a number as four nonzero bytes, its digits in base 255 plus 1."""
    return bytes(value // 255**place % 255 + 1 for place in range(4))


def value_of(four):
    """Returns the number for which `digits` returns these four bytes."""
    return sum((byte - 1) * 255**place for place, byte in enumerate(four))


def record_of(before, after):
    """Returns the record of a save in a log, given the files before it and after it."""
    plan = plan_of(before, after)
    body = digits(len(plan)) + plan
    return digits(len(body) - body.count(0)) + body


def log_of(records, room=ROOM, mark=1):
    """Returns a log: a header, and these bytes in a room of `room` bytes."""
    return (bytes([mark]) + LOG_SIGNATURE).ljust(HEADER, b"\0") + records.ljust(room, b"\0")


def empty_log(room=LEAST_ROOM):
    """Returns the log that a save of `dbm` leaves. It has no mark and no records."""
    return log_of(b"", room, mark=0)


def room_for(record):
    """Returns the room of a new log that `dbm` makes for a record."""
    return min(max(LEAST_ROOM, len(record)), 1 << 30)


def is_marked(redo):
    return redo[:1] == b"\1"


def is_marked_log(redo):
    return redo[:9] == b"\1" + LOG_SIGNATURE


def rooms_for(record, left):
    """Returns the possible rooms of the log while `dbm` saves this record. They are the room of a new log, and the room of `left`, the
    redo file before the save, if it is a log that can be used again."""
    room, had = room_for(record), len(left) - HEADER
    return {room, had} if left[:9] == b"\0" + LOG_SIGNATURE and room <= had <= MOST_ROOM else {room}


def is_committed(redo):
    """Returns whether a redo file is a marked log whose first record is whole: the weight in the record is the number of nonzero bytes
    after the weight."""
    first = redo[HEADER : HEADER + 8]
    if not is_marked_log(redo) or len(first) < 8 or 0 in first:
        return False
    body = redo[HEADER + 4 : HEADER + 8 + value_of(first[4:])]
    return len(body) - body.count(0) == value_of(first[:4])


def is_log_of(redo, record, rooms):
    """Returns whether a redo file is a marked log with one of these rooms, in which a prefix of this record is followed by zeros. The
    prefix may be empty or the whole record."""
    begun = redo[HEADER:].rstrip(b"\0")
    return record.startswith(begun) and any(redo == log_of(begun, room) for room in rooms)
