"""hunt/compilers: builds the program by both compilers of the kit, and compares what they write."""

import os
import random
import shutil
import subprocess
import sys
import time

from generator import script_of
from hunting import FOUND, Expected
from program import HUNT, TOP, NoProgram, Program
from timed import TimedRun

USAGE = """usage: hunt/compilers [SECONDS] [SEED] [--programs FILE FILE]

Builds the program by LLVM and by the compiler that is written in Rattle, and runs both on the same
inputs for SECONDS, 60 where they are left out: generated scripts with every command that runs one,
scripts by time, made scripts, calm storms, and short logs, whole and spoilt. Both must write the
same bytes with the same status. With --programs two builds that stand already are compared.

Status 0: they agree. Status 1: they do not; the input is kept in hunt/found. Status 2: nothing was
compared."""


def build(backend):
    """The proved program as this compiler builds it, in a file of its own."""
    crate = os.path.join(TOP, "crates", "cam_cli")
    done = subprocess.run(
        ["rt", "run", "--backend", backend, "--", "run"],
        cwd=crate,
        input=b"nodes 1\n",
        capture_output=True,
        check=False,
    )
    if done.returncode:
        raise NoProgram(
            f"rt run --backend {backend} ended with status {done.returncode}: "
            f"{done.stderr.decode()[-300:]}"
        )
    os.makedirs(os.path.join(HUNT, "out"), exist_ok=True)
    made = os.path.join(HUNT, "out", "by-" + backend)
    shutil.copy2(os.path.join(crate, "out", "cam_cli"), made)
    return made


def jobs(source):
    """An input, and the commands to run on it."""
    form = source.random()
    if form < 0.1:
        return script_of(source, timed=True, run=TimedRun), [["timed"]]
    if form < 0.2:
        return b"", [["gen", str(source.randrange(2**64)), str(source.randint(1, 400))]]
    if form < 0.3:
        image = bytearray(
            source.choice([b"CAMELOT\n", b"CAMCKPT\n"])
            + bytes.fromhex("010000000000000005010000000200")
        )
        image[source.randrange(len(image))] = source.randrange(256)
        return bytes(image), [["inspect"], ["upgrade"]]
    if form < 0.33:
        sizes = [str(source.choice([1, 2, 8, 64])), str(source.randint(1, 4))]
        return b"", [["storm", str(source.randrange(2**64)), *sizes, "calm"]]
    data = script_of(source)
    return data, [["run"], ["trace"], *Expected(data).questions(source)]


def main(words):
    if words and words[0] in ("-h", "--help", "help"):
        print(USAGE)
        return 0
    paths = None
    if "--programs" in words[:-2]:
        at = words.index("--programs")
        paths, words = words[at + 1 : at + 3], words[:at] + words[at + 3 :]
    if len(words) > 2 or words and not words[0].isdigit():
        print(f"hunt/compilers: the first word is a number of seconds\n{USAGE}", file=sys.stderr)
        return 2
    seconds, seed = int(words[0]) if words else 60, words[1] if len(words) > 1 else "1"
    try:
        # (the build of the last is the one that stays)
        paths = paths or [build("rattle"), build("llvm")][::-1]
        one, other = (Program(path) for path in paths)
        inputs, runs, differ = compare(
            one, other, random.Random(f"compilers {seed}"), time.time() + seconds
        )
    except (NoProgram, OSError) as error:
        print(f"hunt/compilers: {error}", file=sys.stderr)
        return 2
    print(f"compilers: {inputs} inputs, {runs} runs of each, {differ} differences")
    return 1 if differ else 0


def compare(one, other, source, until):
    inputs = runs = differ = 0
    while time.time() < until:
        data, commands = jobs(source)
        inputs += 1
        for words in commands:
            runs += 1
            first, second = one.run(words, data), other.run(words, data)
            if first != second:
                differ += 1
                os.makedirs(FOUND, exist_ok=True)
                with open(os.path.join(FOUND, f"compilers-{inputs}"), "wb") as file:
                    file.write(data)
                print(
                    f"hunt/found/compilers-{inputs}, {' '.join(words)}: "
                    f"{first.said()} and {second.said()}"
                )
    return inputs, runs, differ


if __name__ == "__main__":
    sys.exit(main(sys.argv[1:]))
