"""hunt/run: hunts on all processors, and prints what was met."""

import json
import os
import subprocess
import sys
import time

from met import table
from program import HUNT, NoProgram, built, find

USAGE = """usage: hunt/run SECONDS [SEED] [--runs N] [--jobs N] [--program FILE] [--timed]

Generates scripts, runs the program on each (`run` and `trace`; of one in 16 also `witness` and
`why`, and after 64 one `gen`), and compares what it writes with a second implementation of the
rules; of one in ten the printed texts are judged by laws too. What differs is shrunk and kept in
hunt/found. SEED is any word, and 1 where it is left out; the same seed makes the same scripts as
long as --jobs is the same. It ends after SECONDS, or after N scripts.

  --jobs N        so many processes, in place of one for each processor
  --program FILE  hunts in this program, in place of $CAMELOT or the proved program of this
                  repository
  --timed         scripts by time, of which the report is compared

Status 0: nothing differs. Status 1: something does. Status 2: the hunt could not be made."""


class Usage(Exception):
    pass


def read_words(words):
    options = {"--runs": None, "--jobs": os.cpu_count() or 1, "--program": None, "--timed": False}
    plain, words = [], list(words)
    while words:
        word = words.pop(0)
        if word == "--timed":
            options[word] = True
        elif word in options:
            if not words:
                raise Usage(f"{word} wants a word")
            value = words.pop(0)
            if word != "--program" and not value.isdigit():
                raise Usage(f"{word} wants a number, not {value!r}")
            options[word] = int(value) if word != "--program" else value
        elif word.startswith("-"):
            raise Usage(f"{word} is no option")
        else:
            plain.append(word)
    if not 1 <= len(plain) <= 2 or not plain[0].isdigit():
        raise Usage("the first word is a number of seconds")
    return int(plain[0]), plain[1] if len(plain) > 1 else "1", options


def gather(processes):
    """What all processes found, together."""
    whole = {"scripts": 0, "calls": 0, "events": 0, "lawful": 0, "counts": {}, "found": []}
    for process in processes:
        text = process.communicate()[0]
        if process.returncode:
            raise NoProgram(f"a process of the hunt ended with status {process.returncode}")
        part = json.loads(text)
        for key in ("scripts", "calls", "events", "lawful"):
            whole[key] += part[key]
        whole["found"] += part["found"]
        for key, count in part["counts"].items():
            whole["counts"][key] = whole["counts"].get(key, 0) + count
    return whole


def main(words):
    if not words or words[0] in ("-h", "--help", "help"):
        print(USAGE)
        return 0 if words else 2
    try:
        seconds, seed, options = read_words(words)
        path = find(options["--program"])
        built("batch")
    except (Usage, NoProgram, OSError, subprocess.CalledProcessError) as error:
        print(f"hunt/run: {error}", file=sys.stderr)
        return 2
    jobs, began = max(1, options["--jobs"]), time.time()
    most = options["--runs"] and -(-options["--runs"] // jobs)
    worker = os.path.join(HUNT, "lib", "worker.py")
    processes = [
        subprocess.Popen(
            [
                sys.executable,
                worker,
                path,
                f"{seed}-{job}",
                str(began + seconds),
                str(most or 0),
                "timed" if options["--timed"] else "plain",
            ],
            stdout=subprocess.PIPE,
        )
        for job in range(jobs)
    ]
    try:
        whole = gather(processes)
    except NoProgram as error:
        print(f"hunt/run: {error}", file=sys.stderr)
        return 2
    return say(whole, seed, time.time() - began, options["--timed"])


def say(whole, seed, took, timed):
    lines, missing = table(whole["counts"], timed)
    print("\n".join(lines))
    print("not met: " + (", ".join(missing) or "nothing"))
    rates = [round(whole[key] / took) for key in ("scripts", "calls", "events")]
    print("{} scripts, {} runs of the program and {} events a second; ".format(*rates), end="")
    print(f"{whole['lawful']} scripts judged by laws")
    for name, words, wrong, _ in whole["found"][:20]:
        print(f"hunt/found/{name}.cam, {' '.join(words)}: {wrong}")
    differences = f"{len(whole['found'])} differences"
    if whole["found"]:
        differences += f", the first after {min(one[3] for one in whole['found']):.0f} s"
    print(f"hunt seed {seed}: {whole['scripts']} scripts, {whole['calls']} runs", end="")
    print(f" in {took:.0f} s, {differences}")
    return 1 if whole["found"] else 0


if __name__ == "__main__":
    sys.exit(main(sys.argv[1:]))
