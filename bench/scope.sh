#!/bin/sh
# How long the words of camscope take for a script, as a multiple of the time of `camelot trace` on the same script. That time grows with the
# events and marks (`whole.sh`), so a word whose multiple stays with the size grows as they do. The scripts are: actions that commit over eight
# nodes, up to some 1,500 events; actions that stay open with many refused lines; and children that are given up and stopped. Each time is the
# processor's for the whole program, the median of forty runs.
# bench/scope.sh           wants both proved programs, or those that CAMELOT and CAMSCOPE name; and python3
set -eu
top=$(cd "$(dirname "$0")/.." && pwd)
for name in camelot camscope; do
    case $name in camelot) given=${CAMELOT-} ;; *) given=${CAMSCOPE-} ;; esac
    if [ -z "$given" ] && ! "$top/$name" --is-proved; then
        echo "no proved program stands, or it is older than its sources: ./$name --prove" >&2
        exit 1
    fi
done
exec python3 - "${CAMELOT:-$top/crates/cam_cli/out/cam_cli}" "${CAMSCOPE:-$top/crates/cam_camscope/out/cam_camscope}" <<'PROGRAM'
import resource
import statistics
import subprocess
import sys

CAMELOT, CAMSCOPE = sys.argv[1:]
ROUNDS = 40
NODES = range(1, 9)
WORDS = ["explain", "columns", "draw", "shiviz", "check"]
OBJECTS = ["nodes 8", *[f"object c{at} {at} counter 0" for at in NODES], *[f"object x{at} {at} register 0" for at in NODES]]


def commits(blocks):
    """Actions that call an object of each node and commit."""
    lines = ["body calls", *[f"call 2 c{at} add 1" for at in NODES], "commit 0", "end"]
    for block in range(blocks):
        lines += [f"start A{block} {block % 8 + 1} calls", "play"]
    return lines


def refused(blocks):
    """Open actions that call while a call is open: each second line is refused."""
    lines = [f"begin A{block} {block % 8 + 1}" for block in range(8)]
    for block in range(blocks):
        lines += [f"call A{block % 8} c{block % 8 + 1} add 1", f"call A{block % 8} x1 read"]
    return lines


def stopped(blocks):
    """Children that are given up and hear of it: each is stopped at its next request."""
    lines = ["begin P 1"]
    for block in range(blocks):
        lines += [f"ask P C{block} 2", "drain", f"giveup P C{block}", "tell 1 2", "drain", f"call C{block} x2 read"]
    return lines


FAMILIES = [("commits", commits, (5, 12, 25)), ("refused lines", refused, (60, 120, 250)), ("stops", stopped, (20, 40, 84))]


def script(lines):
    return ("\n".join([*OBJECTS, *lines]) + "\n").encode()


def spent():
    """The processor's time of the programs that have ended."""
    used = resource.getrusage(resource.RUSAGE_CHILDREN)
    return used.ru_utime + used.ru_stime


def run(words, text):
    """The text that a program writes, and the time that it takes."""
    times = []
    for _ in range(ROUNDS):
        began = spent()
        told = subprocess.run(words, input=text, stdout=subprocess.PIPE, check=False)
        times.append(spent() - began)
    assert told.returncode in (0, 1), (words, told.returncode)
    return told.stdout, statistics.median(times)


def main():
    for name, made, sizes in FAMILIES:
        for size in sizes:
            text = script(made(size))
            trace, base = run([CAMELOT, "trace"], text)
            lines = trace.splitlines()
            events = sum(line.startswith(b"event ") for line in lines)
            marks = sum(line.startswith(b"refused ") for line in lines)
            told = [f"{word} {run([CAMSCOPE, word], text)[1] / base:.2f}" for word in WORDS]
            print(f"{name}, {events} events, {marks} marks: " + ", ".join(told), flush=True)


main()
PROGRAM
