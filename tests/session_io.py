"""Sessions of `dbm` for the scripts that test them line by line, and the count of their checks."""

import select
import subprocess

SECONDS = 60

# A program that counts its runs in eight bytes.
COUNTER = (
    "a502050008000000791600000000000007060000010000007b61000000000000b7000000010000009500000000000000b7000000000000009500000000000000"
)


class Count:
    """The number of checks, and of those that failed."""

    looks = failures = 0


def holds(is_so, what):
    """Counts a check. Prints `what` if it fails."""
    Count.looks += 1
    if not is_so:
        Count.failures += 1
        print(f"session_lines: {what}")


class Session:
    """A session of `dbm` on the database `db` of a folder."""

    def __init__(self, program, folder, *words, environment=None, base="db"):
        self.begun = subprocess.Popen(
            [program, "session", base, *words],
            cwd=folder,
            stdin=subprocess.PIPE,
            stdout=subprocess.PIPE,
            stderr=subprocess.PIPE,
            bufsize=0,
            env=environment,
        )

    def send(self, line):
        try:
            self.begun.stdin.write(line.encode() + b"\n")
        except BrokenPipeError:
            pass

    def answer(self):
        """Returns the next answer. If the session ends before the end of the answer, returns a part of the answer."""
        got = b""
        while not got.endswith(b"\n"):
            if not select.select([self.begun.stdout], [], [], SECONDS)[0]:
                return got.decode() + " and then nothing"
            byte = self.begun.stdout.read(1)
            if not byte:
                return got.decode()
            got += byte
        return got.decode()[:-1]

    def ask(self, line):
        self.send(line)
        return self.answer()

    def end(self):
        """Ends the input. Returns the status, the answers that were not read yet, and standard error."""
        self.begun.stdin.close()
        rest = self.begun.stdout.read().decode()
        error = self.begun.stderr.read().decode()
        return self.begun.wait(SECONDS), rest, error

    def kill(self):
        self.begun.kill()
        self.begun.wait(SECONDS)


def run(program, folder, *words, text=""):
    return subprocess.run([program, *words], cwd=folder, input=text, capture_output=True, text=True, timeout=SECONDS)


def listed(program, folder, base="db"):
    return run(program, folder, "list", base).stdout
