"""Makes scripts that aim at the rules: it takes each line that it writes, so that it knows which
letters wait and which actions are open."""

from lines import Run
from reading import Body, Object, Script, Step
from scenes import SCENES, TIMED_SCENES
from spoiling import at_an_end, spoilt

FIRST, LAST = -(2**63), 2**63 - 1
# How often a kind of script is made, and how often each kind of line stands in it.
FLAVOURS = {
    "mixed": (
        22,
        dict(
            begin=3,
            ask=4,
            call=8,
            commit=4,
            abort=1,
            giveup=2,
            deliver=14,
            drain=4,
            lose=1,
            restart=1,
            tell=2,
            query=1,
            cut=1,
        ),
    ),
    "families": (
        14,
        dict(
            begin=3,
            ask=2,
            call=6,
            commit=7,
            abort=1,
            deliver=16,
            drain=1,
            lose=1,
            restart=2,
            query=3,
            tell=1,
        ),
    ),
    "orphans": (
        14,
        dict(
            begin=2,
            ask=7,
            call=7,
            commit=3,
            abort=2,
            giveup=4,
            deliver=14,
            drain=3,
            tell=3,
            restart=1,
        ),
    ),
    "crashes": (
        14,
        dict(
            begin=3,
            ask=4,
            call=7,
            commit=4,
            abort=1,
            giveup=1,
            deliver=14,
            drain=3,
            restart=5,
            tell=3,
            query=2,
        ),
    ),
    "stops": (
        14,
        dict(
            begin=3,
            ask=3,
            call=6,
            commit=4,
            abort=1,
            giveup=2,
            deliver=13,
            drain=4,
            restart=4,
            stop=5,
            tell=2,
            query=1,
            cut=1,
        ),
    ),
    "locks": (
        8,
        dict(begin=6, ask=4, call=16, commit=5, abort=2, giveup=1, deliver=4, drain=9, restart=1),
    ),
    "deep": (
        4,
        dict(
            begin=1,
            ask=12,
            call=4,
            commit=2,
            abort=1,
            giveup=2,
            deliver=12,
            drain=6,
            restart=1,
            tell=1,
        ),
    ),
    "nested": (
        10,
        dict(begin=1, ask=6, call=9, commit=7, abort=1, drain=14, deliver=2, tell=1),
    ),
    "bodies": (
        10,
        dict(
            start=4,
            go=8,
            play=2,
            deliver=8,
            drain=2,
            lose=1,
            restart=1,
            tell=1,
            query=1,
            stop=1,
            begin=1,
            call=1,
            commit=1,
        ),
    ),
}
TIMED = dict(
    begin=3,
    ask=4,
    call=7,
    commit=4,
    abort=1,
    giveup=3,
    deliver=14,
    drain=3,
    lose=1,
    tell=2,
    query=1,
    tick=5,
    expire=3,
)


class Generator:
    """One script, made line by line from a source of random numbers."""

    def __init__(self, random, timed=False, run=Run):
        self.random, self.timed, self.text, self.line = random, timed, [], 0
        self.script = Script()
        self.flavour = self.pick_flavour()
        self.variables, self.starts, self.weights = (
            [],
            [],
            TIMED if timed else FLAVOURS[self.flavour][1],
        )
        self.declare()
        self.run = run(self.script)
        # What is in hand of a scene, and which scenes there may be.
        self.cost, self.scene, self.scenes = 0, iter(()), TIMED_SCENES if timed else SCENES

    def pick_flavour(self):
        names = list(FLAVOURS)
        return self.random.choices(names, [FLAVOURS[name][0] for name in names])[0]

    def write(self, text):
        self.line += 1
        self.text.append(text)

    # Declarations

    def declare(self):
        random, script = self.random, self.script
        script.nodes = random.choice([1, 2, 2, 2, 3, 3, 3, 4, 4, 5, 8])
        self.write(f"nodes {script.nodes}")
        count = random.choice([1, 1, 2, 2, 3, 4]) if random.random() < 0.99 else 64
        count = 1 if self.flavour == "nested" else count
        for place in range(count):
            kind = random.choice(["register", "register", "queue", "counter"])
            start = () if kind == "queue" else self.value()
            one = Object(f"o{place}", random.randint(1, script.nodes), kind, start)
            script.places[one.name] = place
            script.objects.append(one)
            self.write(
                f"object {one.name} {one.node} {kind}" + ("" if kind == "queue" else f" {start}")
            )
        if self.flavour == "bodies" and not self.timed:
            for place in range(random.randint(1, 4)):
                self.declare_body(f"b{place}")

    def declare_body(self, name):
        random, script, said, lines, cost, nesting = self.random, self.script, [], [], 1, 1
        for place in range(1, random.randint(1, 4)):
            tries = random.choice([1, 1, 2, 3])
            if script.bodies and random.random() < 0.5:
                child, node = random.choice(list(script.bodies.values())), random.randint(
                    1, script.nodes
                )
                if child.nesting == 8:
                    continue
                said.append(("child", tries, node, child.name))
                lines.append(f"child {tries} {node} {child.name}")
                cost, nesting = cost + tries * (1 + child.cost), max(nesting, child.nesting + 1)
            else:
                one = random.choice(script.objects)
                op, text = self.operation(one, lambda at=len(said): self.expression(at))
                said.append(("call", tries, one.name, op))
                lines.append(f"call {tries} {one.name} {text}")
                cost += tries
        if random.random() < 0.15:
            said.append(("abort",))
            lines.append("abort")
        else:
            value, text = self.expression(len(said))
            said.append(("commit", value))
            lines.append("commit " + text)
        for text in [f"body {name}", *lines, "end"]:
            self.write(text)
        script.bodies[name] = Body(name, said, cost, nesting)

    def value(self):
        return (
            self.random.choice([0, 1, 2, 5, -1, 7, FIRST, LAST])
            if self.random.random() < 0.8
            else self.random.randint(FIRST, LAST)
        )

    def expression(self, places):
        if places == 0 or self.random.random() < 0.4:
            value = self.value()
            return value, str(value)
        place, form = self.random.randint(1, places), self.random.randint(0, 2)
        added = self.random.choice([0, 1, 30, LAST])
        if form == 0:
            return ("$", place, 0), f"${place}"
        return (
            "$",
            place,
            added if form == 1 else -added,
        ), f"${place}{'+' if form == 1 else '-'}{added}"

    def operation(self, one, value):
        words = {
            "register": ["read", "read", "write", "swap"],
            "queue": ["size", "put", "put", "take"],
            "counter": ["read", "add", "add"],
        }
        word = self.random.choice(words[one.kind])
        if word in ("write", "swap", "put", "add"):
            number, text = value()
            return (word, number), f"{word} {text}"
        return (word,), word

    # Steps

    def take(self, word, args, text, cost=1):
        """Writes a line, and takes it in the run, which tells what there is to aim at next."""
        self.write(text)
        self.cost += cost
        step = Step(self.line, word, args)
        self.script.steps.append(step)
        self.run.take(step)

    def make(self, size):
        words, weights = list(self.weights), list(self.weights.values())
        while self.cost < size:
            made = next(self.scene, None)
            if made is None and self.scenes and self.random.random() < 0.01 * len(self.scenes):
                self.scene = self.random.choice(self.scenes)(self)
                made = next(self.scene, None)
            if made is None:
                made = getattr(self, "make_" + self.random.choices(words, weights)[0])()
            if made is not None and self.cost + (made[3] if len(made) > 3 else 1) <= 512:
                self.take(*made)
            elif not self.variables:
                self.take(*self.make_begin())
        return ("\n".join(self.text) + "\n").encode()

    def node(self):
        return self.random.randint(1, self.script.nodes)

    def until(self):
        return (self.random.choice([3, 5, 8, 20, 10**9]),) if self.timed else ()

    def new(self, list_of):
        name = f"{'s' if list_of is self.starts else 'a'}{len(list_of) + 1}"
        list_of.append(name)
        return name

    def variable(self):
        """A variable, most often one that is still open."""
        if not self.variables:
            return None
        if self.flavour == "nested" and self.random.random() < 0.6:
            return self.deepest()
        if self.random.random() < 0.75:
            run, open_ones = self.run, []
            for one in self.variables[-12:]:
                name = run.bound.get(one)
                action = run.actions.get(name)
                if action is not None and not action.ended and run.here(name):
                    open_ones.append(one)
            if open_ones:
                return self.random.choice(open_ones)
        return self.random.choice(self.variables)

    def deepest(self):
        """One of the open actions with the longest names."""
        run, best, longest = self.run, [self.variables[-1]], 0
        for one in self.variables[-12:]:
            name = run.bound.get(one)
            action = run.actions.get(name)
            if action is None or action.ended or not run.here(name) or len(name) < longest:
                continue
            best, longest = best * (len(name) == longest) + [one], len(name)
        return self.random.choice(best)

    def make_begin(self):
        node, until = self.node(), self.until()
        name = self.new(self.variables)
        return "begin", (name, node, *until), " ".join(map(str, ["begin", name, node, *until]))

    def make_start(self):
        body = self.random.choice(list(self.script.bodies.values()))
        if self.cost + 1 + body.cost > 512:
            return None
        node, name = self.node(), self.new(self.starts)
        return "start", (name, node, body.name), f"start {name} {node} {body.name}", 1 + body.cost

    def make_ask(self):
        parent = (
            self.variables[-1]
            if self.flavour == "deep" and self.variables and self.random.random() < 0.7
            else self.variable()
        )
        if parent is None:
            return None
        node, until = self.node(), self.until()
        name = self.new(self.variables)
        return (
            "ask",
            (parent, name, node, *until),
            " ".join(map(str, ["ask", parent, name, node, *until])),
        )

    def make_call(self):
        action = self.variable()
        if action is None:
            return None
        one = self.random.choice(self.script.objects)

        def value():
            # A sum is brought to its ends more often than a value is.
            at_an_end = one.kind == "counter" and self.random.random() < 0.5
            number = self.random.choice([FIRST, LAST]) if at_an_end else self.value()
            return number, str(number)

        op, text = self.operation(one, value)
        return "call", (action, one.name, op), f"call {action} {one.name} {text}"

    def make_commit(self):
        action, value = self.variable(), self.value()
        return action and ("commit", (action, value), f"commit {action} {value}")

    def make_abort(self):
        action = self.variable()
        return action and ("abort", (action,), f"abort {action}")

    def make_giveup(self):
        if not self.variables:
            return None
        child = self.random.choice(self.variables[-8:])
        name, parent = self.run.bound.get(child), None
        for one in self.variables:
            if name is not None and self.run.bound.get(one) == name[:-1]:
                parent = one
        parent = parent or self.random.choice(self.variables)
        return "giveup", (parent, child), f"giveup {parent} {child}"

    def make_go(self):
        if not self.starts:
            return None
        action = self.random.choice(self.starts)
        return "go", (action,), f"go {action}"

    def a_letter(self):
        """The number of a letter: most often one that waits, often one that came before, seldom one
        that was not sent."""
        random, letters = self.random, self.run.letters
        if len(letters) == 1 or random.random() < 0.02:
            return random.choice([1, len(letters), len(letters) + 1, 4294967295])
        chance = random.random()
        if chance < 0.8:
            waiting = [
                one.number
                for one in letters[max(1, len(letters) - 40) :]
                if not (one.delivered or one.lost)
            ]
            if waiting:
                return waiting[0] if chance < 0.45 else random.choice(waiting)
        return random.randint(max(1, len(letters) - 15), len(letters) - 1)

    def make_deliver(self):
        number = self.a_letter()
        return "deliver", (number,), f"deliver {number}"

    def make_lose(self):
        number = self.a_letter()
        return "lose", (number,), f"lose {number}"

    def make_cut(self):
        number, random = self.a_letter(), self.random
        size = random.choice([0, 1, 32, 4294967295, random.randint(0, 120)])
        if number < len(self.run.letters) and random.random() < 0.7:
            size = max(0, self.run.length(self.run.letters[number]) + random.choice([-1, 0, 1]))
        return "cut", (number, size), f"cut {number} {size}"

    def make_restart(self):
        halted = [n for n in range(1, self.script.nodes + 1) if self.run.nodes[n].halted]
        node = self.random.choice(halted) if halted and self.random.random() < 0.6 else self.node()
        return "restart", (node,), f"restart {node}"

    def make_drain(self):
        return "drain", (), "drain"

    def make_play(self):
        return "play", (), "play"

    def make_tell(self):
        node, to = self.node(), self.node()
        return "tell", (node, to), f"tell {node} {to}"

    def make_query(self):
        action = (
            self.random.choice(self.starts)
            if self.starts and self.random.random() < 0.5
            else self.variable()
        )
        node = self.node()
        return action and ("query", (node, action), f"query {node} {action}")

    def make_stop(self):
        node, calls = self.node(), self.random.choice(
            [0, 1, 2, 3, 3, 3, 4, 5, 6, 7, 7, 8, 11, 1000]
        )
        return "stop", (node, calls), f"stop {node} {calls}"

    def make_tick(self):
        node = self.node()
        moment = max(1, self.run.nodes[node].moment + self.random.choice([0, 1, 1, 2, 3, 5]))
        return "tick", (node, moment), f"tick {node} {moment}"

    def make_expire(self):
        begun = [step.args[0] for step in self.script.steps if step.word == "begin"]
        unbound = [one for one in begun if self.run.bound.get(one) is None]
        if not begun:
            return None
        action = self.random.choice(unbound if unbound and self.random.random() < 0.1 else begun)
        return "expire", (action,), f"expire {action}"


def size_of(random):
    """How many steps a script has: most have few, and some all that a script may have."""
    chance = random.random()
    if chance < 0.6:
        return random.randint(4, 24)
    if chance < 0.97:
        return random.randint(20, 60)
    return random.randint(60, 200) if chance < 0.997 else 512


def script_and_run(random, timed=False, run=Run):
    """A script as bytes, with its run if taking its lines has made the whole of it."""
    if random.random() < 0.008:
        return at_an_end(random, timed), None
    generator = Generator(random, timed, run)
    data = generator.make(size_of(random))
    if random.random() < 0.06:
        return spoilt(random, data, timed), None
    # What a halt comes to is told by later lines, so such a script is run once more.
    halts = any(step.word == "stop" for step in generator.script.steps)
    return data, None if halts else generator.run


def script_of(random, timed=False, run=Run):
    """A script as bytes."""
    return script_and_run(random, timed, run)[0]
