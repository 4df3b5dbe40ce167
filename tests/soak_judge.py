"""The judgement of tests/soak on one database: its calls, with their answers, and the readings of it.

Times are nanoseconds of the monotonic clock. A call ended before another began if its answer came before that time. The judgement uses only
this order, so it does not depend on the speed of the machine.
"""

import bisect
import itertools

# The operations that a call may have. `add` has one key or two, which are changed by one save.
ADD, PUT, DELETE, GET, TAKE, FREE = "add", "put", "del", "get", "take", "free"

# The version of a value that no caller has stored, and that of a missing key.
DAMAGED, NONE = 1, 0

# The keys of the leases. `kept` is never released.
KEPT, GIVEN = "kept", "given"

# The first letters of counters and values, of the counters that are eight bytes, and of all of these.
COUNTERS, VALUES, NUMBERS = "nabt", "c", "nab"
ALL = COUNTERS + VALUES
FOREVER = float("inf")
FILLERS, FILLER = 200, b"a filler".ljust(60, b"\0")


class Call:
    """A call, and its answer: `y` if it succeeded, `n` if it was refused and has changed nothing, and `u` if it may have changed the database
    or may still change it. A call whose caller was killed remains `u`."""

    __slots__ = ("operation", "key", "begun", "argument", "answer", "ended", "words")

    def __init__(self, operation, key, begun, argument):
        self.operation, self.key, self.begun, self.argument = operation, key, begun, argument
        self.answer, self.ended, self.words = "u", FOREVER, ()

    def end(self, answer, ended, *words):
        self.answer, self.ended, self.words = answer, ended, words


class Reading:
    """Keys and what one reader has found there: a number, or the version of a value. `complete` has the first letters of keys of which the
    reading has all."""

    __slots__ = ("begun", "ended", "found", "complete")

    def __init__(self, begun, ended, found, complete=""):
        self.begun, self.ended, self.found, self.complete = begun, ended, found, complete

    def has(self, key):
        return key in self.found or key[0] in self.complete


def value_of(version):
    """Returns the value that callers store: a version, and bytes that depend on it."""
    return version.to_bytes(8, "little") + bytes((version % 251 + at) % 256 for at in range(8, 8 + version % 293))


def version_of(value):
    version = int.from_bytes(value[:8], "little")
    return version if len(value) >= 8 and value == value_of(version) else DAMAGED


def parse(pairs):
    """Returns what the pairs of a whole database mean: the numbers and versions of its keys. The fillers count under `fillers`. Leases have
    no meaning here."""
    found = {"fillers": 0}
    for key, value in pairs:
        name = key.decode("latin-1")
        if name[:1] == "p":
            found["fillers"] += value == FILLER
        elif name[:1] == VALUES:
            found[name] = version_of(value)
        elif name[:1] == "t":
            found[name] = int(value)
        elif name not in (KEPT, GIVEN):
            found[name] = int.from_bytes(value, "little") if len(value) == 8 else -1
    return found


def out_of_order(events):
    """Finds two events of which one ended before the other began, with falling numbers. An event is its begin, its end, the number before it
    and the number after it. Returns the two numbers, or None."""
    events = sorted(events, key=lambda it: it[1])
    ends = [it[1] for it in events]
    greatest = list(itertools.accumulate((it[3] for it in events), max))
    for begun, _, before, _ in events:
        at = bisect.bisect_left(ends, begun)
        if at and greatest[at - 1] > before:
            return greatest[at - 1], before
    return None


class Judge:
    """The calls and readings of a database in one round, from the pairs `first` to the pairs `last`, as `parse` returns them."""

    def __init__(self, first, calls, readings, last):
        self.first, self.calls, self.readings, self.last = first, calls, readings, last
        self.readings = [Reading(-1, -1, first, ALL), *readings, Reading(FOREVER, FOREVER, last, ALL)]
        self.wrong = []

    def judge(self):
        """Returns a list of the errors."""
        self.judge_readings()
        self.judge_counters()
        self.judge_values()
        self.judge_leases()
        return self.wrong

    def judge_readings(self):
        for it in self.readings:
            if "fillers" in it.found and it.found["fillers"] != FILLERS:
                self.wrong.append(f"a reading has {it.found['fillers']} of the {FILLERS} fillers")
            if "a" in it.complete and it.found.get("a") != it.found.get("b"):
                self.wrong.append(f"a reading has {it.found.get('a')} and {it.found.get('b')} of one save")

    def judge_counters(self):
        counters = {}
        for call in self.calls:
            if call.operation == ADD:
                for at, key in enumerate((call.key, call.argument)):
                    if key != "-":
                        counters.setdefault(key, []).append((call, at))
        for key in counters.keys() | {key for key in self.last if key[0] in COUNTERS}:
            self.judge_counter(key, counters.get(key, []))

    def judge_counter(self, key, calls):
        first, last = self.first.get(key, 0), self.last.get(key, 0)
        answered = [(call.begun, call.ended, call.words[at] - 1, call.words[at]) for call, at in calls if call.answer == "y"]
        unsure = sum(call.answer == "u" for call, _ in calls)
        if len({after for *_, after in answered}) != len(answered):
            self.wrong.append(f"{key}: a number was answered twice")
        if not len(answered) <= last - first <= len(answered) + unsure:
            self.wrong.append(f"{key}: from {first} to {last} with {len(answered)} answers and {unsure} calls without an answer")
        begins = sorted(call.begun for call, _ in calls if call.answer != "n")
        read = [(it.begun, it.ended, *[it.found.get(key, 0)] * 2) for it in self.readings if it.has(key)]
        for _, ended, number, _ in read:
            if number - first > bisect.bisect_right(begins, ended):
                self.wrong.append(f"{key}: a reading has {number}, which nobody had requested until then")
        falling = out_of_order(answered + read)
        if falling:
            self.wrong.append(f"{key}: {falling[0]} was answered or read, and later there was {falling[1]}")

    def judge_values(self):
        changes, reads = {}, {}
        for call in self.calls:
            if call.operation in (PUT, DELETE) and call.answer != "n":
                changes.setdefault(call.key, []).append(call)
            elif call.operation == GET and call.answer == "y":
                reads.setdefault(call.key, []).append((call.begun, call.ended, call.words[0]))
        keys = changes.keys() | reads.keys() | {key for it in (self.first, self.last) for key in it if key[0] == VALUES}
        for key in keys:
            whole = [(it.begun, it.ended, it.found.get(key, NONE)) for it in self.readings if it.has(key)]
            self.judge_value(key, sorted(changes.get(key, []), key=lambda it: it.begun), reads.get(key, []) + whole)

    def judge_value(self, key, changes, reads):
        """The changes of a key are those of one caller, one after the other."""
        begins = [it.begun for it in changes]
        versions = [it.argument if it.operation == PUT else NONE for it in changes]
        order = {version: at for at, version in enumerate(versions) if version != NONE}
        events = [(it.begun, it.ended, at, at) for at, it in enumerate(changes) if it.answer == "y"]
        for begun, ended, version in reads:
            at = bisect.bisect_right(begins, ended)
            may_be = set()
            while at > 0 and not (may_be and changes[at].answer == "y" and changes[at].ended < begun):
                at -= 1
                may_be.add(versions[at])
            if at == 0 and not (changes and may_be and changes[0].answer == "y" and changes[0].ended < begun):
                may_be.add(self.first.get(key, NONE))
            if version not in may_be:
                self.wrong.append(f"{key}: the version {version} was read, and it may be one of {sorted(may_be)[:5]}")
            elif version in order:
                events.append((begun, ended, order[version], order[version]))
        falling = out_of_order(events)
        if falling:
            self.wrong.append(f"{key}: the change {falling[0]} of {len(changes)} was answered or read, and later {falling[1]}")

    def judge_leases(self):
        for key in (KEPT, GIVEN):
            calls = sorted((it for it in self.calls if it.key == key), key=lambda it: it.begun)
            held, owners = [], {}
            for call in calls:
                owners.setdefault(call.argument, []).append(call)
            for owner, own in owners.items():
                for at, call in enumerate(own):
                    if call.answer == "y" and call.operation == TAKE:
                        held += self.held(key, owner, call, own[at + 1 :])
            self.judge_held(key, sorted(held))

    def held(self, key, owner, call, later):
        """Yields the time of a granted lease in milliseconds: from the time that the caller passed, or for a lease that may be released from
        the answer until the release is requested."""
        code, end = call.words
        if code == 0 and end > call.begun // 1_000_000:
            return
        if code != 1:
            self.wrong.append(f"{key}: the owner {owner} got the code {code} and the word {end}")
            return
        begin = call.begun // 1_000_000 if key == KEPT else call.ended / 1_000_000
        released = next((it.begun / 1_000_000 for it in later if it.operation == FREE), FOREVER)
        if begin < min(end, released):
            yield begin, min(end, released), owner

    def judge_held(self, key, held):
        until, whose = -1, None
        for begin, end, owner in held:
            if begin < until and owner != whose:
                self.wrong.append(f"{key}: the owner {owner} has it from {begin}, and {whose} until {until}")
            if end >= until:
                until, whose = end, owner
