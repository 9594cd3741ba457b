"""hunt/storms: runs storms of threads, and judges each report and each log."""

import glob
import os
import random
import signal
import subprocess
import sys
import tempfile
import time

from images import entries_of, records_of
from lines import Run
from made import Draws
from program import NoProgram, find
from reading import Object, Script

USAGE = """usage: hunt/storms [COUNT] [SEED] [--program FILE] [--stress]

Runs COUNT storms over files, 1,000 where it is left out, with seeds of their own, 1 to 64 actions,
1 to 4 threads, calm and rough. Of each: the actions of the report are those of the storm, and the
view of each is a way through its body; nothing is left to do; what is committed, and the values,
agree with each other and with what `inspect` reads from the four logs. With --stress each storm
runs on one processor, beside others that are busy; none may take longer than a minute.

Status 0: all is as it must be. Status 1: something is not; a line says what. Status 2: nothing was
tried, as where PROGRAM has no `storm`."""

MOST_SECONDS = 60


class Storm:
    """The words of a storm: its registers and the bodies of its actions."""

    def __init__(self, seed, actions, calm):
        self.actions, self.calm, self.script = actions, calm, Script()
        self.script.nodes = 4
        draws = Draws(seed)
        if calm:
            for i in range(1, actions + 1):
                self.register(f"r{i}", 1 + i % 4)
        else:
            for node in range(1, 5):
                self.register(f"r{node}", node)
        self.places = {}
        for i in range(1, actions + 1):
            self.places[i] = [1 + i % 4] if calm else [1 + draws.below(4), 1 + draws.below(4)]

    def register(self, name, node):
        self.script.places[name] = len(self.script.objects)
        self.script.objects.append(Object(name, node, "register", 0))

    def top(self, i):
        return ((1 + (i - 1) % 4, 1, 1 + (i - 1) // 4),)

    def number(self, name):
        return name[0][0] + 4 * (name[0][2] - 1)

    def body(self, name):
        """The statements of an action, by its name."""
        i, tries = self.number(name), 1 if self.calm else 3
        if len(name) == 1:
            return [("child", tries, node, "inner") for node in self.places[i]] + [("commit", 0)]
        register = f"r{i}" if self.calm else f"r{name[-1][0]}"
        return [("call", tries, register, ("write", i)), ("commit", 0)]


def name_of(text):
    return tuple(tuple(map(int, part.split("."))) for part in text.split("/"))


class Report:
    """The report of a storm, as it was printed."""

    def __init__(self, text):
        self.actions, self.views, self.stops, self.values, self.rest = {}, {}, [], {}, []
        now = None
        for line in text.split("\n"):
            words = line.split()
            if line.startswith("action "):
                now = name_of(words[1])
                self.actions[now], self.views[now] = words[2], []
            elif line.startswith("  "):
                self.views[now].append(words)
            elif line.startswith("stop "):
                self.stops.append((name_of(words[2]), words[3:]))
            elif line.startswith("value "):
                self.values[words[1]] = words[2]
            elif line:
                self.rest.append(line)


def view_step(words):
    """A printed step, as the second implementation has it, for the next request."""
    if words[0] == "got":
        seen = (words[2], int(words[3])) if words[2] == "value" else (words[2],)
        return ("got", int(words[1]), seen)
    if words[0] == "child":
        return ("child", name_of(words[1]), int(words[3]) if words[2] == "committed" else None)
    return (words[0],)


class Judge:
    """Judges one storm."""

    def __init__(self, storm, report):
        self.storm, self.report, self.wrong = storm, report, []
        self.run = Run(storm.script)

    def say(self, holds, what):
        if not holds:
            self.wrong.append(what)

    def judge(self, logs):
        storm, report = self.storm, self.report
        tops = {name for name in report.actions if len(name) == 1}
        self.say(
            tops == {storm.top(i) for i in range(1, storm.actions + 1)},
            "the top actions are not those of the storm",
        )
        self.say(not report.rest, f"lines that no storm has: {report.rest[:2]}")
        for name in report.actions:
            self.follows(name)
        if storm.calm:
            self.say(
                all(report.actions[name] == "committed" for name in tops),
                "a top action of a calm storm is not committed",
            )
            self.say(
                all(report.values[f"r{i}"] == str(i) for i in range(1, storm.actions + 1)),
                "a register of a calm storm has another value",
            )
            self.say(not report.stops, "a calm storm has a stop")
        self.values()
        if logs:
            self.logs(logs)

    def follows(self, name):
        """Whether the view is a way through the body: each request is the next one of the steps
        before it."""
        view, steps = self.report.views[name], []
        self.say(view[:1] == [["created"]], f"{name} was not created first")
        is_open = is_over = False
        for words in view:
            if words[0] in ("asked", "called", "commit", "abort"):
                self.say(not is_open and not is_over, f"{name} made a request while one was open")
                self.say(
                    self.is_next(name, steps, words),
                    f"{name}: {' '.join(words)} is not the next request of its body",
                )
                is_open, is_over = words[0] in ("asked", "called"), words[0] in ("commit", "abort")
            elif words[0] in ("got", "child"):
                is_open = False
            steps.append(view_step(words))
        stopped = any(name == stop for stop, _ in self.report.stops)
        is_gone = name[-1][1] < self.counts().get(name[-1][0], 1)
        if not is_open and not is_over and not stopped and not is_gone and self.knows_counts:
            self.wrong.append(f"{name} has a request left")

    knows_counts = False

    def counts(self):
        return getattr(self, "count_of", {})

    def is_next(self, name, steps, words):
        want, *args = self.run.next_request(self.storm.body(name), steps)
        if words[0] == "asked":
            return (
                want == "ask"
                and name_of(words[1])[-1][0] == args[0]
                and name_of(words[1])[:-1] == name
            )
        if words[0] == "called":
            return (
                want == "call"
                and words[2] == self.storm.script.objects[args[0]].name
                and words[3:] == [str(one) for one in args[1]]
            )
        return words == [want, *map(str, args)]

    def values(self):
        """A register has what one of the committed top actions wrote that wrote it with all its
        ancestors committed, or 0."""
        for one in self.storm.script.objects:
            wrote = {
                str(self.storm.number(name))
                for name, view in self.report.views.items()
                if all(
                    self.report.actions.get(name[:n]) == "committed"
                    for n in range(1, len(name) + 1)
                )
                and any(step[:1] == ["called"] and step[2] == one.name for step in view)
                and any(step[0] == "got" and step[2] == "ok" for step in view)
            }
            found = self.report.values.get(one.name)
            self.say(
                found in (wrote or {"0"}) or found == "0" and not self.storm.calm,
                f"{one.name} is {found}, and {sorted(wrote)} wrote it",
            )

    def logs(self, logs):
        """What the logs say is what the report says: which actions committed and aborted, and no
        two outcomes of one."""
        found = {}
        for node, lines in logs.items():
            for line in lines:
                words = line.split()
                if words[0] in ("commit", "abort"):
                    name = name_of(words[1])
                    self.say(
                        found.setdefault(name, words[0]) == words[0],
                        f"two outcomes of {name} in the logs",
                    )
        for name, outcome in found.items():
            said = self.report.actions.get(name)
            self.say(
                said is None or said == outcome + "ed" or said == outcome + "ted",
                f"{name} is {said} in the report, and its log says {outcome}",
            )
        for name, said in self.report.actions.items():
            self.say(said == "open" or name in found, f"{name} is {said}, and no log says so")


def read_logs(folder):
    logs, counts = {}, {}
    for node in range(1, 5):
        with open(os.path.join(folder, f"cam{node}.log"), "rb") as file:
            lines = [line.strip() for line in records_of(entries_of(file.read())[0])[0]]
        logs[node] = lines
        counts[node] = max(
            [1] + [int(line.split()[1]) for line in lines if line.startswith("count ")]
        )
    return logs, counts


def run_one(path, folder, words, stress):
    command = [path, *words, "files"]
    if stress:
        command = ["taskset", "-c", "0", *command]
    for name in glob.glob(os.path.join(folder, "cam*.log")):
        os.remove(name)
    done = subprocess.run(
        command,
        stdin=subprocess.DEVNULL,
        cwd=folder,
        capture_output=True,
        check=False,
        timeout=MOST_SECONDS,
    )
    return done.returncode, done.stdout.decode("latin-1")


def one_storm(path, folder, source, stress):
    seed, actions, threads, calm = (
        source.randrange(2**64),
        source.choice([1, 2, 4, 8, 16, 64]),
        source.randint(1, 4),
        source.random() < 0.4,
    )
    words = ["storm", str(seed), str(actions), str(threads), "calm" if calm else "rough"]
    try:
        status, text = run_one(path, folder, words, stress)
    except subprocess.TimeoutExpired:
        return words, [f"still running after {MOST_SECONDS} seconds"], {}
    if status != 0:
        return words, [f"status {status}, {text[:80]!r}"], {}
    report = Report(text)
    judge = Judge(Storm(seed, actions, calm), report)
    logs, judge.count_of = read_logs(folder)
    judge.knows_counts = True
    judge.judge(logs)
    return (
        words,
        judge.wrong,
        {
            "actions": len(report.actions),
            "stops": len(report.stops),
            "committed": sum(said == "committed" for said in report.actions.values()),
            "restarts": sum(count - 1 for count in judge.count_of.values()),
        },
    )


def main(words):
    if words and words[0] in ("-h", "--help", "help"):
        print(USAGE)
        return 0
    named, stress = None, "--stress" in words
    words = [word for word in words if word != "--stress"]
    if "--program" in words[:-1]:
        at = words.index("--program")
        named, words = words[at + 1], words[:at] + words[at + 2 :]
    if len(words) > 2 or words and not words[0].isdigit():
        print(f"hunt/storms: the first word is a number of storms\n{USAGE}", file=sys.stderr)
        return 2
    count, seed = int(words[0]) if words else 1000, words[1] if len(words) > 1 else "1"
    try:
        path = find(named)
    except NoProgram as error:
        print(f"hunt/storms: {error}", file=sys.stderr)
        return 2
    source, whole, failed, began, longest = random.Random(f"storms {seed}"), {}, 0, time.time(), 0.0
    busy = (
        [
            subprocess.Popen([sys.executable, "-c", "while True: pass"])
            for _ in range(os.cpu_count() or 1)
        ]
        if stress
        else []
    )
    try:
        with tempfile.TemporaryDirectory() as folder:
            if (
                subprocess.run(
                    [path, "storm", "1", "1", "1", "calm"],
                    cwd=folder,
                    capture_output=True,
                    check=False,
                ).returncode
                == 2
            ):
                print("hunt/storms: the program has no command `storm`", file=sys.stderr)
                return 2
            for _ in range(count):
                at = time.time()
                named_words, wrong, sums = one_storm(path, folder, source, stress)
                longest = max(longest, time.time() - at)
                failed += bool(wrong)
                for one in wrong[:3]:
                    print(f"{' '.join(named_words)}: {one}")
                for key, value in sums.items():
                    whole[key] = whole.get(key, 0) + value
    finally:
        for process in busy:
            process.send_signal(signal.SIGKILL)
            process.wait()
    print(
        f"storms: {count} in {time.time() - began:.0f} s, the longest {longest:.1f} s; "
        + ", ".join(f"{key} {value}" for key, value in sorted(whole.items()))
        + f"; {failed} storms with something wrong"
    )
    return 1 if failed else 0


if __name__ == "__main__":
    sys.exit(main(sys.argv[1:]))
