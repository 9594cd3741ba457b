"""Reads a script by the tables of docs/SCRIPT.md, or tells its first fault."""

from collections import namedtuple

KINDS = {
    "register": {"read": 0, "write": 1, "swap": 1},
    "queue": {"size": 0, "put": 1, "take": 0},
    "counter": {"read": 0, "add": 1},
}
DECLARATIONS = {"nodes", "object", "body"}
STATEMENTS = {"call", "child", "commit", "abort", "end"}
STEPS = {
    "begin",
    "start",
    "ask",
    "call",
    "commit",
    "abort",
    "giveup",
    "go",
    "deliver",
    "cut",
    "lose",
    "restart",
    "drain",
    "play",
    "tell",
    "query",
    "stop",
}
TIMED_STEPS = {
    "begin",
    "ask",
    "call",
    "commit",
    "abort",
    "giveup",
    "deliver",
    "lose",
    "drain",
    "tell",
    "query",
    "tick",
    "expire",
}
DIGITS = frozenset("0123456789")
LETTERS = frozenset("abcdefghijklmnopqrstuvwxyzABCDEFGHIJKLMNOPQRSTUVWXYZ")
ALLOWED = frozenset([9, 10, 13, *range(32, 127)])
MOST_BYTES, MOST_OBJECTS, MOST_BODIES, MOST_STATEMENTS, MOST_STEPS, MOST_NESTING = (
    262144,
    64,
    32,
    32,
    512,
    8,
)

Object = namedtuple("Object", "name node kind start")
Step = namedtuple("Step", "line word args")
Body = namedtuple("Body", "name statements cost nesting")


class Refused(Exception):
    """The first fault of a script: its line, its column and the number of its cause."""

    def __init__(self, line, column, cause):
        super().__init__(line, column, cause)
        self.text = f"refused {line} {column} S{cause}\n"


class Script:
    """An accepted script: its objects and bodies in order, and its steps."""

    def __init__(self):
        self.nodes, self.objects, self.bodies, self.steps = 0, [], {}, []
        self.places = {}


def is_number(word):
    return bool(word) and all(c in DIGITS for c in word)


def is_value(word):
    digits = word[1:] if word.startswith("-") else word
    return is_number(digits) and -(2**63) <= int(word) < 2**63


def is_name(word):
    return (
        1 <= len(word) <= 16
        and word[0] in LETTERS
        and all(c in LETTERS or c in DIGITS for c in word)
    )


class Line:
    """The words of one line, with the fault that each has."""

    def __init__(self, reader, number, words):
        self.reader, self.number, self.words, self.at = reader, number, words, 1

    def fault(self, cause, at=None):
        raise Refused(self.number, self.words[self.at if at is None else at][0], cause)

    def next(self):
        if self.at >= len(self.words):
            column, word = self.words[-1]
            raise Refused(self.number, column + len(word), 4)
        return self.words[self.at][1]

    def taken(self, value):
        self.at += 1
        return value

    def end(self):
        if self.at < len(self.words):
            self.fault(5)

    def number_in(self, least, most):
        word = self.next()
        if not is_number(word) or not least <= int(word) <= most:
            self.fault(6)
        return self.taken(int(word))

    def node(self):
        word = self.next()
        if not is_number(word) or not 1 <= int(word) <= 8:
            self.fault(6)
        if int(word) > self.reader.script.nodes:
            self.fault(11)
        return self.taken(int(word))

    def value(self):
        word = self.next()
        if not is_value(word):
            self.fault(6)
        return self.taken(int(word))

    def new_name(self, declared):
        word = self.next()
        if not is_name(word):
            self.fault(7)
        if word in declared:
            self.fault(8)
        return self.taken(word)

    def known(self, declared):
        word = self.next()
        if word not in declared:
            self.fault(9)
        return self.taken(word)

    def variable(self, of_start):
        """A variable that the line may be on: of `start`, of the others, or (None) any."""
        word = self.next()
        if word not in self.reader.variables:
            self.fault(9)
        if of_start is not None and (self.reader.variables[word] == "start") != of_start:
            self.fault(10)
        return self.taken(word)

    def expression(self):
        word = self.next()
        if not word.startswith("$"):
            return self.value()
        rest, place = word[1:], ""
        while rest and rest[0] in DIGITS:
            place, rest = place + rest[0], rest[1:]
        if (
            not place
            or rest
            and not (rest[0] in "+-" and is_number(rest[1:]) and int(rest[1:]) < 2**63)
        ):
            self.fault(6)
        if not 1 <= int(place) <= len(self.reader.statements):
            self.fault(9)
        added = int(rest) if rest else 0
        return self.taken(("$", int(place), added))

    def operation(self, read_value):
        name = self.known(self.reader.script.places)
        kind = self.reader.script.objects[self.reader.script.places[name]].kind
        word = self.next()
        if word not in KINDS[kind]:
            self.fault(3)
        self.taken(word)
        return name, (word, read_value()) if KINDS[kind][word] else (word,)


class Reader:
    """Reads line by line; what was declared so far stands in its fields."""

    def __init__(self, timed):
        self.timed, self.script = timed, Script()
        self.variables, self.statements, self.body, self.cost = {}, None, None, 0
        self.steps = TIMED_STEPS if timed else STEPS
        declarations = {"nodes", "object"} if timed else DECLARATIONS
        self.first_words = self.steps | declarations | (set() if timed else STATEMENTS)

    def take(self, line):
        word = line.words[0][1]
        if word not in self.first_words:
            line.fault(3, 0)
        if (word == "nodes") != (self.script.nodes == 0):
            line.fault(10, 0)
        if self.body is not None:
            if word not in STATEMENTS:
                line.fault(10, 0)
            return self.statement(line, word)
        if word in ("object", "body") and self.script.steps:
            line.fault(10, 0)
        if word in ("child", "end"):
            line.fault(10, 0)
        if word == "nodes":
            return self.take_nodes(line)
        if word == "object":
            return self.take_object(line)
        if word == "body":
            return self.take_body(line)
        return self.step(line, word)

    def take_nodes(self, line):
        nodes = line.number_in(1, 8)
        line.end()
        self.script.nodes = nodes

    def take_object(self, line):
        if len(self.script.objects) >= MOST_OBJECTS:
            line.fault(12, 0)
        name, node = line.new_name(self.script.places), line.node()
        kind = line.next()
        if kind not in KINDS:
            line.fault(3)
        line.taken(kind)
        start = () if kind == "queue" else line.value()
        line.end()
        self.script.places[name] = len(self.script.objects)
        self.script.objects.append(Object(name, node, kind, start))

    def take_body(self, line):
        if len(self.script.bodies) >= MOST_BODIES:
            line.fault(12, 0)
        name = line.new_name(self.script.bodies)
        line.end()
        self.body, self.statements = name, []

    def statement(self, line, word):
        said = self.statements
        is_closed = bool(said) and said[-1][0] in ("commit", "abort")
        if (word == "end") != is_closed:
            line.fault(10, 0)
        if word == "end":
            line.end()
            return self.close()
        if len(said) >= MOST_STATEMENTS:
            line.fault(12, 0)
        if (
            word == "child"
            and len(line.words) > 3
            and line.words[3][1] in self.script.bodies
            and self.script.bodies[line.words[3][1]].nesting >= MOST_NESTING
        ):
            line.fault(12, 0)
        if word == "call":
            tries = line.number_in(1, 9)
            name, op = line.operation(line.expression)
            one = ("call", tries, name, op)
        elif word == "child":
            one = ("child", line.number_in(1, 9), line.node(), line.known(self.script.bodies))
        elif word == "commit":
            one = ("commit", line.expression())
        else:
            one = ("abort",)
        line.end()
        said.append(one)

    def close(self):
        cost, nesting = 1, 1
        for one in self.statements:
            if one[0] == "call":
                cost += one[1]
            elif one[0] == "child":
                child = self.script.bodies[one[3]]
                cost += one[1] * (1 + child.cost)
                nesting = max(nesting, child.nesting + 1)
        self.script.bodies[self.body] = Body(self.body, self.statements, cost, nesting)
        self.body, self.statements = None, None

    def step(self, line, word):
        cost = 1
        if word == "start" and len(line.words) > 3 and line.words[3][1] in self.script.bodies:
            cost += self.script.bodies[line.words[3][1]].cost
        if self.cost + cost > MOST_STEPS:
            line.fault(12, 0)
        args, bound = self.step_words(line, word)
        line.end()
        if bound is not None:
            self.variables[bound] = word
        self.cost += cost
        self.script.steps.append(Step(line.number, word, args))

    def step_words(self, line, word):
        most = 2**32 - 1
        if word == "begin":
            name, node = line.new_name(self.variables), line.node()
            return (name, node, *self.until(line)), name
        if word == "start":
            name = line.new_name(self.variables)
            return (name, line.node(), line.known(self.script.bodies)), name
        if word == "ask":
            parent, name, node = line.variable(False), line.new_name(self.variables), line.node()
            return (parent, name, node, *self.until(line)), name
        if word == "call":
            action = line.variable(False)
            return (action, *line.operation(line.value)), None
        if word == "commit":
            return (line.variable(False), line.value()), None
        if word == "abort":
            return (line.variable(False),), None
        if word == "giveup":
            return (line.variable(False), line.variable(False)), None
        if word == "go":
            return (line.variable(True),), None
        if word == "expire":
            action = line.variable(None)
            if self.variables[action] != "begin":
                line.fault(10, 1)
            return (action,), None
        if word in ("deliver", "lose"):
            return (line.number_in(1, most),), None
        if word == "cut":
            return (line.number_in(1, most), line.number_in(0, most)), None
        if word == "restart":
            return (line.node(),), None
        if word == "tell":
            return (line.node(), line.node()), None
        if word == "query":
            return (line.node(), line.variable(None)), None
        if word == "stop":
            return (line.node(), line.number_in(0, 1000)), None
        if word == "tick":
            return (line.node(), line.number_in(1, 10**9)), None
        return (), None

    def until(self, line):
        return (line.number_in(1, 10**9),) if self.timed else ()


def words_of(text):
    """The words of a line, each with its column from 1."""
    found, at = [], 0
    for piece in text.replace("\t", " ").split(" "):
        if piece:
            found.append((at + 1, piece))
        at += len(piece) + 1
    return found


def parse(data, timed=False):
    """The script that these bytes hold. Raises Refused at the first fault."""
    if len(data) > MOST_BYTES:
        raise Refused(1, 1, 1)
    lines = data.split(b"\n")
    has_end = lines[-1] == b""
    if has_end:
        lines.pop()
    reader = Reader(timed)
    for number, raw in enumerate(lines, 1):
        for at, byte in enumerate(raw):
            if byte not in ALLOWED:
                raise Refused(number, at + 1, 2)
        if raw.endswith(b"\r") and (number < len(lines) or has_end):
            raw = raw[:-1]
        words = words_of(raw.decode("latin-1"))
        if words and not words[0][1].startswith("#"):
            reader.take(Line(reader, number, words))
    if reader.script.nodes == 0 or reader.body is not None:
        raise Refused(len(lines) + 1, 1, 10)
    return reader.script
