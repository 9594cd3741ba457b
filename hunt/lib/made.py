"""The script that `gen SEED SIZE` makes, and the seven lines that it writes."""

import hashlib

from lines import Run
from reading import parse
from texts import Texts

HEAD = [
    "nodes 3",
    "object r1 1 register 0",
    "object r2 2 register 0",
    "object r3 3 register 0",
    "object q1 1 queue",
]


class Draws:
    """The generator of 64 bits: a draw is the upper half of its state."""

    def __init__(self, seed):
        self.state = seed % 2**64

    def below(self, count):
        self.state = (self.state * 6364136223846793005 + 1442695040888963407) % 2**64
        return (self.state >> 32) % count


class Made:
    """A script that grows by one drawn step after another."""

    def __init__(self, seed, size):
        self.draws, self.variables, self.lines = Draws(seed), 0, list(HEAD)
        for _ in range(size):
            self.lines.append(self.step())
        self.lines.append("drain")

    def new(self):
        self.variables += 1
        return f"A{self.variables}"

    def old(self):
        return f"A{1 + self.draws.below(self.variables)}"

    def node(self):
        return 1 + self.draws.below(3)

    def begin(self):
        return f"begin {self.new()} {self.node()}"

    def step(self):
        if self.variables == 0:
            return self.begin()
        kind = self.draws.below(10)
        if kind < 2:
            return self.begin()
        if kind == 2:
            old = self.old()
            return f"ask {old} {self.new()} {self.node()}"
        if kind < 6:
            return self.call()
        if kind == 6:
            return f"commit {self.old()} 0"
        if kind == 7:
            return f"abort {self.old()}"
        if kind == 8 and self.draws.below(8) == 0:
            return f"restart {self.node()}"
        return "drain"

    def call(self):
        action, place = self.old(), self.draws.below(4)
        word = (["read", "write", "swap"] if place < 3 else ["size", "put", "take"])[
            self.draws.below(3)
        ]
        value = f" {self.draws.below(100)}" if word in ("write", "swap", "put") else ""
        return f"call {action} {['r1', 'r2', 'r3', 'q1'][place]} {word}{value}"


def script_made(seed, size):
    """The script of `gen`, as bytes."""
    return ("\n".join(Made(seed, size).lines) + "\n").encode()


def summary(seed, size):
    """What `gen` writes."""
    return summary_of(Run(parse(script_made(seed, size))).run(), size)


def summary_of(run, size):
    """What `gen` writes of a run of its script."""
    texts = Texts(run)
    views = texts.views()
    committed = sum(
        len(name) == 1 and name in run.decided and run.decided[name][1] for name in views
    )
    lines = [
        f"steps {size}",
        f"events {len(run.events)}",
        f"letters {len(run.letters) - 1}",
        f"actions {len(views)}",
        f"committed {committed}",
        f"stops {len(texts.stops())}",
        "report " + hashlib.sha256(texts.report().encode()).hexdigest(),
    ]
    return "".join(line + "\n" for line in lines)
