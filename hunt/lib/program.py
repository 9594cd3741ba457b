"""The program that is hunted: finds it, and runs it many times by the helper `batch`."""

import fcntl
import os
import subprocess

HERE = os.path.dirname(os.path.abspath(__file__))
HUNT = os.path.dirname(HERE)
TOP = os.path.dirname(HUNT)
PROVED = os.path.join(TOP, "crates", "cam_cli", "out", "cam_cli")
SECONDS = 20


class NoProgram(Exception):
    """Nothing to hunt in."""


def find(named=None):
    """The program of a command line, else $CAMELOT, else the proved program of this repository."""
    path = named or os.environ.get("CAMELOT") or PROVED
    if not (os.path.isfile(path) and os.access(path, os.X_OK)):
        raise NoProgram(
            f"{path} is no program. ./camelot --prove makes the proved program; "
            "$CAMELOT may name another"
        )
    return os.path.abspath(path)


def built(name, *flags):
    """A helper in C, compiled when it is older than its source."""
    folder = os.path.join(HUNT, "out")
    os.makedirs(folder, exist_ok=True)
    source, made = os.path.join(HERE, name + ".c"), os.path.join(
        folder, name + (".so" if "-shared" in flags else "")
    )
    with open(os.path.join(folder, "lock"), "w") as lock:
        fcntl.flock(lock, fcntl.LOCK_EX)
        if not os.path.exists(made) or os.path.getmtime(made) < os.path.getmtime(source):
            compiler = os.environ.get("CC", "cc")
            subprocess.run(
                [compiler, "-O2", "-Wall", "-Wextra", *flags, "-o", made, source], check=True
            )
    return made


class Ended:
    """How a run of the program ended."""

    __slots__ = ("status", "signal", "text")

    def __init__(self, status, signal, text):
        self.status, self.signal, self.text = status, signal, text

    def __eq__(self, other):
        return (self.status, self.signal, self.text) == (other.status, other.signal, other.text)

    def said(self):
        if self.signal:
            return "still running" if self.signal < 0 else f"ended by signal {self.signal}"
        return f"status {self.status}"


class Program:
    """One helper that runs the program. Jobs are handed over many at a time, so that neither waits
    for the other at each."""

    def __init__(self, path, seconds=SECONDS, environment=None):
        self.helper = subprocess.Popen(
            [built("batch"), str(seconds), path],
            stdin=subprocess.PIPE,
            stdout=subprocess.PIPE,
            env={**os.environ, **(environment or {})},
        )

    def put(self, words, data):
        job = "".join(f"{word}\n" for word in [f"{len(words)} {len(data)}", *words])
        self.helper.stdin.write(job.encode() + data)

    def flush(self):
        self.helper.stdin.flush()

    def take(self):
        line = self.helper.stdout.readline()
        if not line:
            raise NoProgram("the helper that runs the program ended")
        status, signal, length = map(int, line.split())
        return Ended(status, signal, self.helper.stdout.read(length).decode("latin-1"))

    def run(self, words, data):
        self.put(words, data)
        self.flush()
        return self.take()

    def close(self):
        self.helper.stdin.close()
        self.helper.wait()
