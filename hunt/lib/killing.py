"""hunt/files: kills runs over files at random moments, and gives the program files that cannot be
used."""

import glob
import os
import random
import shutil
import signal
import subprocess
import sys
import tempfile
import time

from generator import Generator
from hunting import Expected
from images import NoLog, BadRecord, entries_of, records_of, told
from program import NoProgram, Program, find
from texts import name_text

USAGE = """usage: hunt/files [TIMES] [SEED] [--program FILE]

Kills runs over files by `kill -9` at random moments, until 500, or TIMES, were killed before their
end. Each file that was begun must then be read by `inspect` as a log that says just what its node
keeps after some first part of the run. Then the program is given files that it cannot use: a full
file system, a file without rights, a folder in its place, a file that shrinks under the run.

Status 0: all is as it must be. Status 1: something is not; a line says what. Status 2: nothing was
tried."""


class Kept:
    """What a node keeps: its count, outcomes as it learnt them, counts, families."""

    def __init__(self, node):
        self.node, self.count, self.outcomes, self.seen, self.secured = node, 1, [], {}, []

    def note(self, words):
        """Takes one record, as `inspect` writes it."""
        if words[0] == "count":
            self.count = int(words[1])
        elif words[0] in ("abort", "commit"):
            self.outcomes.append((words[0], words[1]))
        elif words[0] == "seen" and words[1] != str(self.node):
            self.seen[words[1]] = int(words[2])
        elif words[0] == "secure":
            self.secured.append(tuple(words[1:3]))

    def said(self):
        return (
            self.count,
            tuple(self.outcomes),
            tuple(sorted(self.seen.items())),
            tuple(self.secured),
        )


def kept_by(run, node):
    """What a node keeps at the beginning of a run, and after each of its events."""
    kept = Kept(node)
    found = [kept.said()]
    for event in run.events:
        if event.node != node:
            continue
        for deed in event.deeds:
            if deed[0] == "inform":
                kept.note(["commit" if deed[2] else "abort", name_text(deed[3])])
            elif deed[0] == "secure":
                kept.note(["secure", name_text(deed[1]), str(deed[3])])
            elif deed[0] == "crash":
                kept.note(["count", kept.count + 1])
        for other in range(1, run.script.nodes + 1):
            count = run.known_count(event.past, other)
            if other != node and count > 1:
                kept.note(["seen", str(other), count])
        found.append(kept.said())
    return found


def kept_in(lines, node):
    """What the lines of `inspect` say that a node keeps."""
    kept = Kept(node)
    for line in lines:
        kept.note(line.split())
    return kept.said()


def a_script(source):
    """A script in which no disk stops."""
    generator = Generator(source)
    generator.weights = {
        word: weight
        for word, weight in generator.weights.items()
        if word not in ("stop", "start", "go", "play")
    }
    generator.scenes = []
    generator.weights["begin"] = generator.weights.get("begin", 3)
    return generator.make(source.choice([40, 80, 160, 300]))


class Killing:
    """Runs in a folder of their own."""

    def __init__(self, path, seed):
        self.path, self.source, self.wrong = path, random.Random(f"files {seed}"), []
        self.program = Program(path)
        self.kinds = {}

    def note(self, kind):
        self.kinds[kind] = self.kinds.get(kind, 0) + 1

    def kill_one(self, number):
        data = a_script(self.source)
        run = Expected(data).run
        for path in glob.glob("cam*"):
            os.remove(path)
        with open("script", "wb") as file:
            file.write(data)
        took = self.whole_time(data)
        for path in glob.glob("cam*"):
            os.remove(path)
        with open("script", "rb") as file, subprocess.Popen(
            [self.path, "run", "files"], stdin=file, stdout=subprocess.PIPE
        ) as process:
            time.sleep(self.source.random() * took * 0.7)
            process.send_signal(signal.SIGKILL)
            process.communicate()
        self.note("killed" if process.returncode == -signal.SIGKILL else "ended before")
        for node in range(1, run.script.nodes + 1):
            self.look(number, node, kept_by(run, node))

    def whole_time(self, data):
        """How long the run takes when it is left alone."""
        began = time.time()
        self.program.run(["run", "files"], data)
        return time.time() - began

    def look(self, number, node, entries):
        path = f"cam{node}.log"
        if not os.path.exists(path):
            return self.note("no file yet")
        with open(path, "rb") as file:
            image = file.read()
        ended = self.program.run(["inspect"], image)
        if (ended.status, ended.text.encode("latin-1")) != told("inspect", image):
            self.wrong.append(f"run {number}, node {node}: inspect says {ended.text[:80]!r}")
        try:
            lines = records_of(entries_of(image)[0])[0]
        except NoLog as fault:
            # A file that is being made is no log until it was synced first.
            self.note("being made")
            if len(image) >= 43 or b"CAMCKPT\n"[: len(image)] != image[:8]:
                self.wrong.append(
                    f"run {number}, node {node}: a file of {len(image)} bytes is no log "
                    f"from {fault} on"
                )
            return None
        except BadRecord as fault:
            self.wrong.append(f"run {number}, node {node}: bad record {fault}")
            return None
        self.note("a log")
        if kept_in(lines, node) not in entries:
            self.wrong.append(
                f"run {number}, node {node}: no first part of the run keeps what "
                f"the log says: {lines}"
            )
        return None


SCRIPT = b"nodes 2\nobject x 2 register 0\nbegin A 1\ncall A x write 5\ndrain\ncommit A 0\ndrain\n"


def run_over_files(path, setup=None, preload=None):
    """Runs a script over files in a new folder, as a user without rights where one can be had.
    Returns its status and its text."""
    with tempfile.TemporaryDirectory() as folder:
        if setup:
            setup(folder)
        command = [path, "run", "files"]
        if os.getuid() == 0 and shutil.which("setpriv"):
            os.chmod(folder, 0o777)
            command = ["setpriv", "--reuid=65534", "--regid=65534", "--clear-groups", *command]
        done = subprocess.run(
            command,
            input=SCRIPT,
            cwd=folder,
            capture_output=True,
            check=False,
            env={**os.environ, **(preload or {})},
        )
        return done.returncode, done.stdout.decode("latin-1")


def unusable(path):
    """Files that cannot be used, and what the program must answer."""

    def no_rights(folder):
        with open(os.path.join(folder, "cam2.log"), "wb"):
            pass
        os.chmod(os.path.join(folder, "cam2.log"), 0)

    def a_folder(folder):
        os.mkdir(os.path.join(folder, "cam1.log"))

    def a_device(folder):
        os.symlink("/dev/full", os.path.join(folder, "cam2.log"))

    def a_loop(folder):
        os.symlink("cam2.log", os.path.join(folder, "cam2.log"))

    def of_another_node(folder):
        os.mkdir(os.path.join(folder, "cam7.log"))

    cases = [
        ("without rights", no_rights, "disk fault 2"),
        ("a folder", a_folder, "disk fault 1"),
        ("a full device", a_device, "disk fault 2"),
        ("a link to itself", a_loop, "disk fault 2"),
        ("of no node of the script", of_another_node, None),
    ]
    wrong = []
    for what, setup, said in cases:
        status, text = run_over_files(path, setup)
        fits = (status, text) == (6, said + "\n") if said else status == 0
        print(f"a file that is {what}: status {status}, {text.splitlines()[0] if text else ''}")
        wrong += [] if fits else [f"a file that is {what}: status {status}, {text!r}"]
    return wrong + full_system(path) + shrinking(path)


def full_system(path):
    """A limit on the size of files, and file systems of few pages if they can be mounted."""
    wrong = []
    with tempfile.TemporaryDirectory() as folder:
        command = 'ulimit -f 0 && trap "" XFSZ && exec "$0" run files'
        wrong += full_in(folder, ["sh", "-c", command, path], SCRIPT, "no room for a byte")
        many = b"".join(b"begin B%d 1\nabort B%d\n" % (n, n) for n in range(240)) + b"drain\n"
        for pages, data in ((1, SCRIPT), (2, SCRIPT + many)):
            mounted = os.path.join(folder, f"pages{pages}")
            os.mkdir(mounted)
            options = ["-t", "tmpfs", "-o", f"size={4 * pages}k", "none", mounted]
            if subprocess.run(
                ["mount", *options], stderr=subprocess.DEVNULL, check=False
            ).returncode:
                print("no file system can be mounted here")
                return wrong
            try:
                what = f"a file system of {pages} pages"
                wrong += full_in(mounted, [path, "run", "files"], data, what)
            finally:
                subprocess.run(["umount", mounted], check=True)
    return wrong


def full_in(folder, command, data, what):
    done = subprocess.run(command, input=data, cwd=folder, stdout=subprocess.PIPE, check=False)
    said = done.stdout.decode("latin-1")
    print(f"{what}: status {done.returncode}, {said.splitlines()[:1]}")
    fits = (
        done.returncode == 6
        and said in ("disk fault 1\n", "disk fault 2\n")
        or done.returncode == 0
        and "\nhalted " in said
    )
    return [] if fits else [f"{what}: status {done.returncode}, {said[:80]!r}"]


def shrinking(path):
    """Another process cuts a file to nothing again and again while runs go on: each ends as the
    table of statuses says."""
    met = {}
    wrong = []
    data = SCRIPT + b"restart 2\nrestart 1\ntell 1 2\ndrain\n" * 60
    with tempfile.TemporaryDirectory() as folder:
        target = os.path.join(folder, "cam2.log")
        with open(target, "wb"):
            pass
        with subprocess.Popen(
            [
                sys.executable,
                "-c",
                "import os, sys\nwhile True: os.truncate(sys.argv[1], 0)",
                target,
            ]
        ) as cutter:
            for _ in range(40):
                done = subprocess.run(
                    [path, "run", "files"],
                    input=data,
                    cwd=folder,
                    capture_output=True,
                    check=False,
                    timeout=60,
                )
                said = done.stdout.decode("latin-1")
                met[done.returncode] = met.get(done.returncode, 0) + 1
                fits = (
                    done.returncode == 0
                    and said == Expected(data).of(["run"])[1]
                    or (done.returncode, said) == (6, "disk fault 2\n")
                    or done.returncode == 0
                    and {line.split()[2] for line in said.split("\n") if line[:7] == "halted "} == {"2"}
                )
                wrong += (
                    []
                    if fits
                    else [f"a file that shrinks: status {done.returncode}, {said[:80]!r}"]
                )
            cutter.kill()
    said = ", ".join(f"status {key} {count}" for key, count in sorted(met.items()))
    print(f"a file that shrinks under the run: {said}")
    return wrong[:5]


def main(words):
    if words and words[0] in ("-h", "--help", "help"):
        print(USAGE)
        return 0
    named = None
    if "--program" in words[:-1]:
        at = words.index("--program")
        named, words = words[at + 1], words[:at] + words[at + 2 :]
    if len(words) > 2 or words and not words[0].isdigit():
        print(f"hunt/files: the first word is a number of runs\n{USAGE}", file=sys.stderr)
        return 2
    times, seed, here = (
        int(words[0]) if words else 500,
        words[1] if len(words) > 1 else "1",
        os.getcwd(),
    )
    with tempfile.TemporaryDirectory() as room:
        try:
            path = find(named)
            os.chdir(room)
            killing = Killing(path, seed)
            number = 0
            while killing.kinds.get("killed", 0) < times:
                number += 1
                killing.kill_one(number)
            print(
                f"{number} runs: "
                + ", ".join(f"{kind} {count}" for kind, count in sorted(killing.kinds.items()))
            )
            wrong = killing.wrong + unusable(path)
        except (NoProgram, OSError) as error:
            print(f"hunt/files: {error}", file=sys.stderr)
            return 2
        finally:
            os.chdir(here)
    for one in wrong[:20]:
        print(one)
    print(f"files: {len(wrong)} wrong")
    return 1 if wrong else 0


if __name__ == "__main__":
    sys.exit(main(sys.argv[1:]))
