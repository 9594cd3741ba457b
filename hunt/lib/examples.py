"""Compares the second implementation with the texts of all examples. It runs no program."""

import glob
import os
import subprocess
import sys

from hunting import Expected
from images import told
from made import summary
from program import TOP
from timed import TimedExpected


def text_of(words, data):
    """The text of the second implementation, or None where only parts of it are judged."""
    if words[0] in ("inspect", "upgrade"):
        return told(words[0], data)[1].decode("latin-1")
    if words[0] == "gen":
        return summary(int(words[1]), int(words[2]))
    if words[0] == "timed":
        return TimedExpected(data).of(words)[1]
    expected = Expected(data)
    if words[0] == "why":
        return None
    return expected.of(words)[1]


def main():
    compared, wrong = 0, []
    for path in sorted(glob.glob(os.path.join(TOP, "examples", "*", "*.expected"))):
        base = path[: -len(".expected")]
        words = ["run"]
        if os.path.exists(base + ".words"):
            with open(base + ".words", encoding="ascii") as file:
                words = file.read().split()
        if os.path.exists(base + ".cam"):
            with open(base + ".cam", "rb") as file:
                data = file.read()
        elif os.path.exists(base + ".make"):
            data = subprocess.run(["sh", base + ".make"], cwd=TOP, stdout=-1, check=True).stdout
        else:
            continue
        if words[0] not in ("run", "trace", "witness", "why", "timed", "gen", "inspect", "upgrade"):
            continue
        text = text_of(words, data)
        with open(path, encoding="latin-1") as file:
            compared += text is not None
            if text is not None and text != file.read():
                wrong.append(os.path.relpath(base, TOP))
    for one in wrong:
        print(f"the second implementation has another text of {one}")
    print(f"hunt: {compared} examples, {len(wrong)} differ")
    return 1 if wrong else 0


if __name__ == "__main__":
    sys.exit(main())
