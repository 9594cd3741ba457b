"""Generates scripts, runs the program on them, compares its texts with those of the second
implementation, and shrinks what differs."""

import os
import random
import time

from generator import script_and_run
from laws import broken_laws
from lines import Run
from made import summary
from program import HUNT, Program
from reading import Refused, parse
from texts import Texts, name_text

FOUND = os.path.join(HUNT, "found")
# Of how many scripts one is asked for witnesses and chains too; after how many one is made by
# `gen`.
ONE_IN, MADE_IN = 16, 64


class Expected:
    """What the program has to write of one script."""

    def __init__(self, data, run=None):
        """`run` is the run of the script, if it was made already."""
        self.texts, self.met, self.events = None, set(), 0
        try:
            script = parse(data)
            self.run = run or Run(script).run()
            assert script.steps == self.run.script.steps
        except Refused as fault:
            self.refused = fault.text
            self.met = {fault.text.split()[-1]}
            return
        self.refused, self.texts, self.met, self.events = (
            None,
            Texts(self.run),
            self.run.met,
            len(self.run.events),
        )

    def of(self, words):
        """The status and the text of a command; the text of `why` is judged apart."""
        if self.refused:
            return 3, self.refused
        if words[0] == "run":
            return 0, self.texts.report()
        if words[0] == "trace":
            return 0, self.texts.trace()
        name = tuple(tuple(map(int, part.split("."))) for part in words[1].split("/"))
        text = self.texts.witness(name)
        return (0, text) if text else (8, "no such action\n")

    def differs(self, words, ended):
        """Why the answer is wrong, or None."""
        if ended.signal:
            return ended.said()
        if words[0] == "why" and not self.refused:
            return self.wrong_why(int(words[1]), ended)
        status, text = self.of(words)
        if ended.status != status:
            return f"status {ended.status}, not {status}"
        if ended.text == text:
            return None
        ours, theirs = text.split("\n"), ended.text.split("\n")
        at = next(
            n
            for n, (one, other) in enumerate(zip(ours + [None] * len(theirs), theirs + [None]))
            if one != other
        )
        line = lambda lines: repr(lines[at]) if at < len(lines) else "no line"
        return f"line {at + 1} is {line(theirs)}, not {line(ours)}"

    def wrong_why(self, event, ended):
        wanted = self.texts.why(event)
        if wanted is None:
            return (
                None
                if (ended.status, ended.text) == (8, "no such stop\n")
                else f"status {ended.status} for an event that stopped nobody"
            )
        if ended.status != 0:
            return f"status {ended.status}, not 0"
        stop, cause, fewest = wanted
        lines = ended.text.rstrip("\n").split("\n")
        if lines[:2] != [stop, f"cause {cause}"]:
            return f"the stop and the cause are {lines[:2]}, not {[stop, f'cause {cause}']}"
        return self.wrong_chain(lines[2:], cause, event, fewest)

    def wrong_chain(self, lines, cause, event, fewest):
        events, letters, at = self.run.events, self.run.letters, cause
        for line in lines:
            number, first, last = (int(line.split()[n]) for n in (1, 3, 5))
            if (
                line != f"letter {number} from {first} to {last}"
                or not 0 < number < len(letters)
                or not first < last < len(events)
            ):
                return f"{line!r} is no letter of the run"
            if letters[number].event != first or events[last].got is not letters[number]:
                return f"letter {number} did not go from event {first} to event {last}"
            if events[first].node != events[at].node or first < at:
                return f"letter {number} does not follow on event {at}"
            at = last
        if events[at].node != events[event].node or at > event:
            return f"the chain ends at event {at}"
        return (
            None
            if len(lines) == fewest
            else f"the chain has {len(lines)} letters, and {fewest} are enough"
        )

    def questions(self, source):
        """Commands beside run and trace that this run can answer, and some that it cannot."""
        if self.refused:
            return [["witness", "1.1.1"], ["why", "0"]]
        names = sorted(self.texts.views())
        stops = [number for number, event in enumerate(self.run.events) if event.stop]
        asked = [["witness", name_text(name)] for name in source.sample(names, min(3, len(names)))]
        asked += [["why", str(number)] for number in source.sample(stops, min(3, len(stops)))]
        return asked + [["witness", "8.1.9"], ["why", str(source.randint(0, self.events))]]


class MadeExpected:
    """What `gen` has to write."""

    def differs(self, words, ended):
        text = summary(int(words[1]), int(words[2]))
        return (
            None
            if (ended.status, ended.signal, ended.text) == (0, 0, text)
            else f"{ended.said()}, {ended.text!r}, not {text!r}"
        )


class Hunter:
    """One process that hunts."""

    def __init__(self, path, seed, environment=None):
        self.program, self.seed, self.done = Program(path, environment=environment), seed, 0
        self.calls, self.events, self.lawful, self.counts, self.found = 0, 0, 0, {}, []
        self.backlog, self.begun = [], time.time()

    def hunt(self, until, most=None):
        """Hunts up to that moment, or through so many scripts."""
        while time.time() < until and (most is None or self.done < most):
            self.one(f"{self.seed}-{self.done}")
            self.done += 1
        while self.backlog:
            self.judge(*self.backlog.pop(0))

    def one(self, name):
        source = random.Random(name)
        data, run = script_and_run(source)
        words = [["trace"], ["run"]]
        self.ask(words, data)
        expected = Expected(data, run)
        self.backlog.append((name, data, expected, words))
        if self.done % ONE_IN == 0:
            more = expected.questions(source)
            self.ask(more, data)
            self.backlog.append((name, data, expected, more))
        if self.done % MADE_IN == 0:
            made = [["gen", str(source.randrange(2**64)), str(source.randint(1, 60))]]
            self.ask(made, b"")
            self.backlog.append((name, b"", MadeExpected(), made))
        self.count(expected)
        while len(self.backlog) > 2 or len(data) > 4000 and self.backlog:
            self.judge(*self.backlog.pop(0))

    def count(self, expected):
        self.events += expected.events
        for key in expected.met:
            self.counts[key] = self.counts.get(key, 0) + 1

    def ask(self, words, data):
        if len(data) > 4000:
            while self.backlog:
                self.judge(*self.backlog.pop(0))
        for one in words:
            self.program.put(one, data)
        self.program.flush()

    def judge(self, name, data, expected, words):
        answers = [self.program.take() for _ in words]
        self.calls += len(words)
        wrong = [(one, expected.differs(one, ended)) for one, ended in zip(words, answers)]
        if (
            words[0][0] == "trace"
            and not expected.refused
            and name.endswith("0")
            and expected.events < 40
        ):
            self.lawful += 1
            wrong += [
                (["trace"], "a law on the printed texts: " + one)
                for one in broken_laws(expected.run.script, answers[0].text, answers[1].text)
            ]
        for one, why in wrong:
            if why:
                self.keep(name, data, one, why)

    def keep(self, name, data, words, wrong):
        while self.backlog:
            self.judge(*self.backlog.pop(0))
        os.makedirs(FOUND, exist_ok=True)
        took, small = time.time() - self.begun, data
        if len(self.found) < 3:
            small = shrunk(data, lambda one: self.difference(one, words))
            wrong = self.difference(small, words) or wrong
        path = os.path.join(FOUND, name)
        with open(path + ".cam", "wb") as file:
            file.write(small)
        with open(path + ".txt", "w", encoding="utf-8") as file:
            file.write(f"{' '.join(words)}: {wrong}\n")
        self.found.append((name, words, wrong, took))

    def difference(self, data, words):
        expected = MadeExpected() if words[0] == "gen" else Expected(data)
        return expected.differs(words, self.program.run(words, data))


def shrunk(data, is_wrong):
    """A part of the lines that is still wrong, and of which no line can be left out."""
    lines = data.split(b"\n")
    if not is_wrong(data):
        return data
    size = max(1, len(lines) // 2)
    until = time.time() + 20
    while size >= 1:
        at, removed = 0, False
        while at < len(lines) and time.time() < until:
            fewer = lines[:at] + lines[at + size :]
            if fewer and is_wrong(b"\n".join(fewer)):
                lines, removed = fewer, True
            else:
                at += size
        if not removed or size > 1:
            size //= 2
    return b"\n".join(lines)
