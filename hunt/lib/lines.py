"""Takes the lines of a script: what refuses a line, what it does, and what a body asks for next."""

from machine import wrapped
from rules import Rules

NAME = {
    name: "L%d" % place
    for place, name in enumerate(
        [
            "unbound",
            "no letter",
            "halted",
            "ended",
            "open call",
            "open child",
            "not open",
            "too deep",
            "nothing to do",
        ],
        1,
    )
}


class LineRefused(Exception):
    """A line that makes a mark and no event."""


def refuse_if(holds, why):
    if holds:
        raise LineRefused(NAME[why])


class Run(Rules):
    """The run of a whole script."""

    def __init__(self, script, faults=None):
        super().__init__(script)
        self.faults = faults or {}
        self.bound, self.body_of = {}, {}
        for step in script.steps:
            if step.word == "restart":
                self.later_restarts[step.args[0]] = step.line

    def run(self):
        for step in self.script.steps:
            self.take(step)
        return self

    def take(self, step):
        self.line = step.line
        try:
            getattr(self, "line_" + step.word)(*step.args)
            self.met.add(step.word)
        except LineRefused as refused:
            self.marks.append(f"refused {step.line} {refused}")
            self.met.add(f"{step.word} {refused}")

    # What refuses a line

    def variable(self, name):
        refuse_if(self.bound.get(name) is None, "unbound")
        return self.bound[name]

    def not_halted(self, node):
        refuse_if(self.nodes[node].halted, "halted")

    def not_ended(self, name):
        action = self.actions.get(name)
        refuse_if(
            (action is not None and self.here(name) and action.ended)
            or self.nodes[name[-1][0]].count > name[-1][1],
            "ended",
        )
        return action

    def may_ask(self, variable, call=True, child=True):
        name = self.variable(variable)
        self.not_halted(name[-1][0])
        action = self.not_ended(name)
        is_created = action is not None and name in self.nodes[name[-1][0]].created
        refuse_if(call and is_created and action.open_call is not None, "open call")
        refuse_if(child and is_created and any(action.children.values()), "open child")
        refuse_if(not is_created, "not open")
        return name

    def letter(self, number):
        refuse_if(number >= len(self.letters) or self.letters[number].lost, "no letter")
        return self.letters[number]

    # Lines

    def line_begin(self, variable, node):
        self.not_halted(node)
        self.bound[variable] = self.begin(node)

    def line_start(self, variable, node, body):
        self.line_begin(variable, node)
        self.body_of[self.bound[variable]] = self.script.bodies[body]

    def line_ask(self, parent, variable, node):
        name = self.may_ask(parent, child=False)
        refuse_if(len(name) == 8, "too deep")
        self.bound[variable] = self.request(name, "ask", node)

    def line_call(self, variable, place, op):
        self.request(self.may_ask(variable), "call", self.script.places[place], op)

    def line_commit(self, variable, value):
        self.request(self.may_ask(variable), "commit", value)

    def line_abort(self, variable):
        self.request(self.may_ask(variable, False, False), "abort")

    def line_giveup(self, variable, child):
        self.variable(variable)
        self.variable(child)
        name = self.may_ask(variable, False, False)
        refuse_if(not self.actions[name].children.get(self.bound[child]), "not open")
        self.request(name, "giveup", self.bound[child])

    def line_go(self, variable):
        self.go(self.may_ask(variable))

    def line_deliver(self, number):
        letter = self.letter(number)
        self.not_halted(letter.to)
        self.deliver(letter)

    def line_cut(self, number, size):
        letter = self.letter(number)
        self.not_halted(letter.to)
        if size >= self.length(letter):
            self.met.add("cut whole")
            return self.deliver(letter)
        self.met.add("cut short")
        return self.marks.append(f"cut {self.line} {number} short {size}")

    def line_lose(self, number):
        self.letter(number).lost = True

    def line_restart(self, node):
        self.restart(node)

    def line_drain(self):
        self.drain()

    def line_play(self):
        while True:
            made = 0
            for name in sorted(self.body_of):
                node, action = self.nodes[name[-1][0]], self.actions.get(name)
                if (
                    name not in node.created
                    or not self.here(name)
                    or action.ended
                    or action.stopped
                    or node.halted
                ):
                    continue
                if not action.open_call and not any(action.children.values()):
                    self.go(name)
                    made += 1
            if self.drain() + made == 0:
                return

    def line_tell(self, node, to):
        self.not_halted(node)
        refuse_if(node == to, "nothing to do")
        self.tell(node, to)

    def line_query(self, number, variable):
        family, node = self.variable(variable)[:1], self.nodes[number]
        self.not_halted(number)
        has_some = family in node.secured or any(one.action[:1] == family for one in node.live)
        refuse_if(family in node.informed or not has_some, "nothing to do")
        self.query(number, family)

    def line_stop(self, number, calls):
        self.not_halted(number)
        self.nodes[number].calls_left = calls

    # Letters

    def deliver(self, letter):
        letter.delivered = True
        self.arrive(letter)

    def drain(self):
        """Delivers the least letter that waits, until none does; how many there were."""
        made, at = 0, 1
        while at < len(self.letters):
            letter = self.letters[at]
            if not (letter.delivered or letter.lost or self.nodes[letter.to].halted):
                self.deliver(letter)
                made += 1
            at += 1
        return made

    def length(self, letter):
        """How many bytes the letter has (docs/FORMATS.md)."""

        def name_size(name):
            return 1 + 9 * len(name)

        def deps_size(deps):
            return 1 + 5 * len(deps)

        past = self.events[letter.event].past
        size = 33 + 5 * sum(self.known_count(past, n) > 1 for n in range(1, self.script.nodes + 1))
        told = self.nodes[letter.sender].list[letter.acked : letter.place]
        size += sum(
            name_size(name) + (deps_size(self.decided[name][2]) if self.decided[name][1] else 0)
            for name in told
        )
        for part in letter.body:
            if isinstance(part, frozenset):
                size += deps_size(part)
            elif isinstance(part, bool):
                size += 1
            elif isinstance(part, tuple) and part and isinstance(part[0], tuple):
                size += name_size(part)
        size += {"call": 10, "answer": 5, "finish": 8, "prepare": 4, "vote": 4}.get(letter.kind, 0)
        if letter.kind == "call":
            size += 8 * (len(letter.body[3]) - 1)
        if letter.kind == "answer":
            reply = letter.body[2]
            size += {"value": 8, "busy": name_size(reply[1]) if reply[0] == "busy" else 0}.get(
                reply[0], 0
            )
        return size

    # Bodies

    def go(self, name):
        want, *args = self.next_request(self.body_of[name].statements, self.actions[name].view)
        if want != "ask":
            self.request(name, want, *args)
            return
        child = self.request(name, want, args[0])
        if child is not None:
            self.body_of[child] = self.script.bodies[args[1]]

    def next_request(self, statements, view):
        """What an action asks for, whose view has no open call or child."""
        done = [step for step in view if step[0] in ("got", "child")]
        kept = []

        def worth(said):
            if isinstance(said, int):
                return said
            return wrapped(kept[said[1] - 1] + said[2])

        def request(one):
            if one[0] == "call":
                word, *values = one[3]
                return ("call", self.script.places[one[2]], (word, *[worth(v) for v in values]))
            return ("ask", one[2], one[3])

        for one in statements:
            if one[0] == "commit":
                return ("commit", worth(one[1]))
            if one[0] == "abort":
                return ("abort",)
            for _ in range(one[1]):
                if not done:
                    return request(one)
                step = done.pop(0)
                if step[0] == "got" and step[2][0] not in ("busy", "gone"):
                    kept.append(step[2][1] if step[2][0] == "value" else 0)
                    break
                if step[0] == "child" and step[2] is not None:
                    kept.append(step[2])
                    break
            else:
                return ("abort",)
        raise AssertionError("a body without an end")
