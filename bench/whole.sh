#!/bin/sh
# How long whole runs take on the proved program as a user has it, for each event: reading the script, the run, and the report, less what the
# program takes for a script without a step. Beside each size stands how often that is the time of the first size. The scripts are like those of
# `runs.sh`, and by time like those of `timed.sh`; one costs 512 at most, so that the longest have some thousand events. Each time is the least
# of forty runs.
# bench/whole.sh           wants the proved program (`./camelot --prove`), and python3
set -eu
top=$(cd "$(dirname "$0")/.." && pwd)
if ! "$top/camelot" --is-proved; then
    echo "no proved program is there, or it is older than its sources: ./camelot --prove" >&2
    exit 1
fi
exec python3 - "$top/crates/cam_cli/out/cam_cli" <<'PROGRAM'
import subprocess
import sys
import time

PROGRAM = sys.argv[1]
ROUNDS = 40
NODES = range(1, 9)


def after(node):
    """The node after this one, in turn."""
    return node % 8 + 1


OBJECTS = ["nodes 8", *[f"object c{at} {at} counter 0" for at in NODES]]


def declarations():
    lines = [*OBJECTS]
    lines += ["body calls", *[f"call 2 c{at} add 1" for at in NODES], "commit 0", "end"]
    lines += ["body leaf", "commit 1", "end"]
    lines += ["body children", *[f"child 1 {at} leaf" for at in NODES], "commit 0", "end"]
    for at in NODES:
        lines += [f"body pair{at}", f"call 2 c{at} add 1", f"call 2 c{after(at)} add 1", "commit 0", "end"]
    return lines


def losses(block):
    """An action by hand: its call and a vote come twice, an answer and the news are lost."""
    home, letter = after(block), block * 9
    call, answer, lost, finish, prepare, other, vote, last, news = [letter + it for it in range(1, 10)]
    lines = [f"begin A{block} {home}", f"call A{block} c{after(home)} add 1"]
    lines += [f"deliver {call}", f"deliver {call}", f"deliver {answer}", f"lose {lost}", f"commit A{block} 0"]
    lines += [f"deliver {it}" for it in (finish, prepare, other, vote, vote, last)]
    return [*lines, f"lose {news}"]


def played(body):
    return lambda block: [f"start A{block} {after(block)} {body}", "play"]


def with_restart(block):
    return [*played("pair%d" % after(block))(block), f"restart {after(block)}"]


FAMILIES = [
    ("calls", played("calls"), [], (5, 10, 25)),
    ("calls in one play", lambda block: played("calls")(block)[:1], ["play"], (5, 10, 25)),
    ("short actions", played("leaf"), [], (40, 80, 127)),
    ("children", played("children"), [], (5, 10, 25)),
    ("restarts", with_restart, [], (10, 30, 60)),
    ("losses", losses, [], (10, 20, 34)),
]


def in_turn(block):
    """An action by time that calls an object of each node and commits."""
    calls = [line for at in NODES for line in (f"call A{block} c{at} add 1", "drain")]
    return [f"begin A{block} 1 1000000", *calls, f"commit A{block} 0", "drain"]


def on_one(block):
    """An action by time that calls one and the same object, and commits."""
    return [f"begin A{block} 1 1000000", f"call A{block} c2 add 1", "drain", f"commit A{block} 0", "drain"]


# with how many events a block makes
BY_TIME = [
    ("by time, at each node", in_turn, 50, (5, 10, 26)),
    ("by time, on one object", on_one, 11, (10, 30, 100)),
]


def ran(words, text):
    done = subprocess.run([PROGRAM, *words], input=text, stdout=subprocess.PIPE)
    if done.returncode != 0:
        sys.exit(f"{' '.join(words)} ended with status {done.returncode}")
    return done.stdout


def least(words, text):
    """The least time of a run of the script, in microseconds."""
    times = []
    for _ in range(ROUNDS):
        start = time.perf_counter()
        ran(words, text)
        times.append(time.perf_counter() - start)
    return min(times) * 1e6


def bytes_of(lines):
    return "".join(f"{line}\n" for line in lines).encode()


def show(name, sizes, idle, measured):
    """The time for each event of each size, against that of the first; `measured` gives the events and the time of a size."""
    first = None
    for size in sizes:
        events, taken = measured(size)
        each = (taken - idle) / events
        first = first or each
        print(f"{name}: {events} events, {each:.1f} microseconds for each, {each / first:.2f} times the first")


def run_of(block, ending, size):
    lines = [line for it in range(size) for line in block(it)]
    text = bytes_of([*declarations(), *lines, *ending])
    return ran(["trace"], text).count(b"event "), least(["run"], text)


def run_by_time(block, events, size):
    lines = [line for it in range(size) for line in block(it)]
    return events * size, least(["timed"], bytes_of([*OBJECTS, *lines]))


idle = least(["run"], bytes_of(declarations()))
idle_by_time = least(["timed"], bytes_of(OBJECTS))
print(f"a script without a step: {idle:.0f} microseconds, and {idle_by_time:.0f} by time")
for name, block, ending, sizes in FAMILIES:
    show(name, sizes, idle, lambda size: run_of(block, ending, size))
for name, block, events, sizes in BY_TIME:
    show(name, sizes, idle_by_time, lambda size: run_by_time(block, events, size))
PROGRAM
