#!/usr/bin/env python3
"""What the gate takes, from nothing: gate.py [COMMIT [CRATE..]] runs `rt ci --anew` in a fresh clone of COMMIT (HEAD, where none is named),
for these crates and those below them, or for all where none is named.

It writes the processor seconds (user and system) that the prover took for each crate: `proofs` for the crate itself, which for a program
has its two builds; `tests` for the crate with its tests; `base` for the checks of the unchanged crate before its edits and after them;
`edits` for the edits, in so many tries. The last lines have the sums, and what all processes took: the rest is the work of `rt` itself,
links, and the runs of tests and programs. Where it is stopped, it writes what the prover took by then. With RT_JOBS=4 it takes one
hour or two on four processors, and it wants the machine for itself.

The times of a call are those that Linux tells of its processes in /proc, read ten times a second, so what a call takes in its last tenth
of a second may be missed. `rt ci` runs as it always does: what it proves here is kept for later runs on this machine.
"""

import collections
import os
import resource
import shutil
import signal
import subprocess
import sys
import tempfile
import time

INTERVAL = 0.1
TICKS = os.sysconf("SC_CLK_TCK")
KINDS = ("proofs", "tests", "base", "edits")
COLUMNS = (*KINDS, "tries", "user", "system", "all")

Process = collections.namedtuple("Process", "name parent user system start")


def processes():
    """Returns the processes of the machine by their numbers; their times have those of the children that they waited for."""
    found = {}
    for number in filter(str.isdigit, os.listdir("/proc")):
        try:
            with open(f"/proc/{number}/stat", encoding="utf-8", errors="replace") as it:
                text = it.read()
        except OSError:
            # it has ended
            continue
        name, _, rest = text.partition("(")[2].rpartition(")")
        fields = rest.split()
        user, system = int(fields[11]) + int(fields[13]), int(fields[12]) + int(fields[14])
        found[int(number)] = Process(name, int(fields[1]), user, system, fields[19])
    return found


def subject_of(number):
    """Returns the crate and the kind of the prover's call that this process is, or None."""
    try:
        with open(f"/proc/{number}/cmdline", encoding="utf-8", errors="replace") as it:
            words = it.read().split("\0")
        folder = os.readlink(f"/proc/{number}/cwd")
    except OSError:
        return None
    if "--crate-name" not in words:
        return None
    crate = words[words.index("--crate-name") + 1]
    if not os.path.basename(folder).startswith("rt-edit-"):
        return crate, "tests" if "--test" in words else "proofs"
    over = words[words.index("--incremental") + 1] if "--incremental" in words else ""
    return crate, "base" if over.endswith("/seed") else "edits"


class Calls:
    """The prover's calls below one process: those that run, and of those that have ended the ticks by crate and kind."""

    def __init__(self):
        self.running, self.ended, self.number = {}, collections.Counter(), collections.Counter()

    def look(self, top):
        """Notes what the calls below `top` have taken by now."""
        found = processes()
        below = collections.defaultdict(list)
        for number, it in found.items():
            below[it.parent].append(number)
        seen, left = set(), [*below[top]]
        while left:
            number = left.pop()
            if found[number].name == "rattle" and (call := self.call(number, found[number].start)):
                tree = self.tree(number, below)
                call[1] = max(call[1], sum(found[it].user for it in tree))
                call[2] = max(call[2], sum(found[it].system for it in tree))
                seen.add((number, found[number].start))
            else:
                left += below[number]
        for key in self.running.keys() - seen:
            self.end(key)

    def call(self, number, start):
        key = number, start
        if key not in self.running and (subject := subject_of(number)):
            self.running[key] = [subject, 0, 0]
        return self.running.get(key)

    @staticmethod
    def tree(number, below):
        found = [number]
        for it in found:
            found += below[it]
        return found

    def end(self, key):
        subject, user, system = self.running.pop(key)
        self.ended[(*subject, "user")] += user
        self.ended[(*subject, "system")] += system
        self.number[subject] += 1

    def end_all(self):
        for key in [*self.running]:
            self.end(key)

    def row(self, crate):
        """Returns what the table has of the crate, column by column."""
        seconds = lambda kind, part: self.ended[crate, kind, part] / TICKS
        row = {kind: seconds(kind, "user") + seconds(kind, "system") for kind in KINDS}
        row["tries"] = self.number[crate, "edits"]
        row |= {part: sum(seconds(kind, part) for kind in KINDS) for part in ("user", "system")}
        row["all"] = row["user"] + row["system"]
        return row

    def table(self):
        """Returns a line a crate, the dearest first, and the sums."""
        rows = {crate: self.row(crate) for crate, _, _ in self.ended}
        whole = {column: sum(it[column] for it in rows.values()) for column in COLUMNS}
        lines = [f"{'processor seconds':18}" + "".join(f"{column:>8}" for column in COLUMNS)]
        for crate in sorted(rows, key=lambda it: (-rows[it]["all"], it)):
            lines.append(line(crate, rows[crate]))
        minutes = ", ".join(f"{column} {whole[column] / 60:.0f}" for column in (*KINDS, "all"))
        return "\n".join([*lines, line("all", whole), f"the prover, in processor minutes: {minutes}"])


def line(name, row):
    return f"{name:18}" + "".join(f"{row[column]:8.0f}" for column in COLUMNS)


def measure(clone, crates, said):
    """Runs the gate in the clone, and returns the prover's calls, and the gate's status, or None where it was stopped."""
    calls = Calls()
    gate = subprocess.Popen(["rt", "ci", "--anew", *crates], cwd=clone, stdin=subprocess.DEVNULL, stdout=said, stderr=subprocess.STDOUT)
    status = None
    try:
        while status is None:
            time.sleep(INTERVAL)
            calls.look(gate.pid)
            status = gate.poll()
    except KeyboardInterrupt:
        pass
    finally:
        # a second stop would lose what was measured
        for it in (signal.SIGINT, signal.SIGTERM):
            signal.signal(it, signal.SIG_IGN)
        if status is None:
            gate.terminate()
            gate.wait()
    calls.end_all()
    return calls, status


def tell(calls, status, lines, ended):
    """Writes the table, what all processes took, and what the gate said of crates that failed."""
    print(calls.table())
    if status is not None:
        used = resource.getrusage(resource.RUSAGE_CHILDREN)
        print(f"all processes, in processor minutes: user {used.ru_utime / 60:.0f}, system {used.ru_stime / 60:.0f}")
    print(ended, flush=True)
    for it in lines:
        if it.startswith("rt: FAILED:"):
            print(it)


def output_of(*words):
    """Returns what a command writes, and ends with its status where it fails."""
    ran = subprocess.run(words, stdout=subprocess.PIPE, text=True)
    return ran.stdout.strip() if ran.returncode == 0 else sys.exit(ran.returncode)


def main():
    # a stop is told as Ctrl-C is
    signal.signal(signal.SIGTERM, signal.default_int_handler)
    if not shutil.which("rt"):
        sys.exit("the command rt is not on the path")
    top = os.path.dirname(os.path.dirname(os.path.abspath(__file__)))
    commit = output_of("git", "-C", top, "rev-parse", "--short", *(sys.argv[1:2] or ["HEAD"]))
    where = f"commit {commit}, {output_of('rt', 'version')}, {len(os.sched_getaffinity(0))} processors"
    began = time.time()
    with tempfile.TemporaryDirectory(dir=os.environ.get("bench_folder"), ignore_cleanup_errors=True) as room:
        output_of("git", "clone", "-q", top, f"{room}/clone")
        output_of("git", "-C", f"{room}/clone", "checkout", "-q", commit)
        with open(f"{room}/said", "w+", encoding="utf-8", errors="replace") as said:
            calls, status = measure(f"{room}/clone", sys.argv[2:], said)
            said.seek(0)
            lines = said.read().splitlines() or [f"ended with status {status}"]
        ended = "stopped" if status is None else lines[-1]
        tell(calls, status, lines, f"{where}: {ended}, {(time.time() - began) / 60:.0f} minutes")
    return 1 if status is None else status


if __name__ == "__main__":
    sys.exit(main())
