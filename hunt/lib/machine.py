"""Runs a script by the rules of docs/RULES.md, read over pasts.

What a node knows is looked up in the past of its last event, a set of events kept as the bits of a
number. Letters carry nothing here: whoever receives one has the past of the event that sent it. The
program under test keeps joined tables, logs and bytes instead.
"""

from collections import namedtuple

WRAP, HALF = 2**64, 2**63
MODES = {
    "read": "read",
    "size": "read",
    "write": "write",
    "swap": "write",
    "put": "write",
    "take": "write",
    "add": "add",
}

Op = namedtuple("Op", "action number object op answer")


def wrapped(value):
    return (value + HALF) % WRAP - HALF


def apply(state, op):
    """The table of operations: the new state, and the answer."""
    word = op[0]
    if word == "read":
        return state, ("value", state)
    if word == "write":
        return op[1], ("ok",)
    if word == "swap":
        return op[1], ("value", state)
    if word == "size":
        return state, ("value", len(state))
    if word == "put":
        return state + (op[1],), ("ok",)
    if word == "take":
        return (state[1:], ("value", state[0])) if state else (state, ("empty",))
    return wrapped(state + op[1]), ("ok",)


def ancestors(name):
    """The prefixes of a name, the shortest first, the whole included."""
    return [name[:length] for length in range(1, len(name) + 1)]


def is_ancestor(name, of):
    return name == of[: len(name)]


def compatible(one, other):
    return MODES[one] == MODES[other] and MODES[one] != "write"


class Letter:
    """A letter: who sent it in which event, its body, and how long its sender's list was."""

    __slots__ = (
        "number",
        "event",
        "sender",
        "to",
        "kind",
        "body",
        "delivered",
        "lost",
        "place",
        "acked",
        "have",
        "moment",
    )

    def __init__(self, number, event, sender, to, kind, body):
        self.number, self.event, self.sender, self.to, self.kind, self.body = (
            number,
            event,
            sender,
            to,
            kind,
            body,
        )
        self.delivered = self.lost = False


class Event:
    """An event: its node, the letter that it received, its deeds, the letters that it sent, and its
    note."""

    __slots__ = ("node", "got", "deeds", "sent", "note", "past", "stop", "pause")

    def __init__(self, node, got, past):
        self.node, self.got, self.past = node, got, past
        self.deeds, self.sent, self.note, self.stop, self.pause = [], [], "plain", None, None


class Action:
    """What an action's home keeps of it."""

    __slots__ = (
        "deps",
        "calls",
        "open_call",
        "children",
        "asked",
        "ended",
        "stopped",
        "view",
        "body",
        "until",
        "value",
    )

    def __init__(self, deps):
        self.deps, self.calls, self.open_call, self.children, self.asked = deps, 0, None, {}, 0
        self.ended = self.stopped = False
        self.view, self.body, self.until, self.value = [], None, None, None


class Node:
    """What one node did: its count, what it was informed of, its operations and its families."""

    def __init__(self, number):
        self.number, self.count, self.past, self.tops = number, 1, 0, 0
        self.informed, self.list = {}, []
        self.live, self.kept, self.created = [], {}, set()
        self.secured, self.preparing = {}, {}
        self.have, self.acked = [0] * 9, [0] * 9
        self.calls_left, self.halted, self.moment = None, False, 0
        self.appended = 0


class Machine:
    """The run of one script so far."""

    def __init__(self, script):
        self.script = script
        self.nodes = [None] + [Node(n) for n in range(1, script.nodes + 1)]
        self.events, self.letters, self.marks = [], [None], []
        self.crashes, self.decided, self.actions = [0] * 9, {}, {}
        self.line, self.later_restarts, self.met = 0, {}, set()
        self.before = None
        # By node and number of its append, if its disk fails by itself: whether the entry is whole.
        self.faults = {}

    # What is known

    def known_count(self, past, node):
        return 1 + bin(past & self.crashes[node]).count("1")

    def orphan(self, past, name, visited):
        """The reason for which a past shows that an action with these visited pairs is an orphan,
        or None."""
        mine = ancestors(name)
        for one in mine:
            found = self.decided.get(one)
            if found and past & found[0] and not found[1]:
                return ("abort", one)
        pairs = set(visited)
        for one, (bit, committed, deps) in self.decided.items():
            if committed and past & bit and len(one) > 1 and one[:-1] in mine:
                pairs |= deps
        stale = [(node, count) for node, count in pairs if count < self.known_count(past, node)]
        if not stale:
            return None
        node, old = min(stale)
        return ("crash", node, old, self.known_count(past, node))

    # Events

    def open_event(self, node, letter=None):
        past = node.past
        if letter is not None:
            past |= self.events[letter.event].past
        if self.faults or node.calls_left is not None and node.calls_left < 4:
            self.before = self.snapshot(node)
        bit = 1 << len(self.events)
        event = Event(node.number, letter, past | bit)
        if letter is not None:
            self.first_informs(node, event, letter)
            if letter.sender != node.number:
                node.have[letter.sender] = max(node.have[letter.sender], letter.place)
                node.acked[letter.sender] = max(
                    node.acked[letter.sender], min(letter.have, len(node.list))
                )
        return event

    def first_informs(self, node, event, letter):
        new = [
            (committed, name)
            for name, (bit, committed, _) in self.decided.items()
            if event.past & bit and name not in node.informed
        ]
        for committed, name in sorted(new):
            self.inform(node, event, name, committed)

    def inform(self, node, event, name, committed):
        event.deeds.append(("inform", node.number, committed, name))
        node.informed[name] = committed
        node.list.append(name)
        if not committed:
            node.live = [one for one in node.live if not is_ancestor(name, one.action)]

    def decide(self, node, event, name, committed, deps=frozenset()):
        event.deeds.append(("commit" if committed else "abort", name))
        self.decided[name] = (1 << len(self.events), committed, frozenset(deps))
        self.inform(node, event, name, committed)
        if len(name) > 1:
            parent = self.actions[name[:-1]]
            parent.children[name] = False
            parent.view.append(("child", name, self.actions[name].value if committed else None))

    def send(self, event, to, kind, body):
        letter = Letter(
            len(self.letters) + len(event.sent), len(self.events), event.node, to, kind, body
        )
        event.sent.append(letter)

    def send_news(self, event, name, deps):
        for to in sorted({node for node, _ in deps} - {event.node}):
            self.send(event, to, "news", ())

    def stop(self, event, name, reason):
        event.note, event.stop = "stopped", (name, reason)
        self.met.add("stop " + reason[0])
        action = self.actions.get(name)
        if (
            action is not None
            and name[-1][0] == event.node
            and name[-1][1] == self.nodes[event.node].count
        ):
            action.stopped = True

    def close_event(self, event):
        """Puts the event into the run, unless its disk fails in the append of its entry."""
        node = self.nodes[event.node]
        # (a restart replaces all entries by one; if it fails there is no run)
        if self.appends(node, event) and ("crash", node.number) not in event.deeds:
            append, node.appended = (node.number, node.appended), node.appended + 1
            if append in self.faults:
                return self.halt(node, event, self.faults[append])
            if node.calls_left is not None:
                if node.calls_left < 4:
                    return self.halt(node, event, node.calls_left == 3)
                node.calls_left -= 4
        node.past = event.past
        self.events.append(event)
        for letter in event.sent:
            letter.place, letter.have, letter.acked = (
                len(node.list),
                node.have[letter.to],
                node.acked[letter.to],
            )
            if letter.to == node.number:
                letter.place = letter.have = letter.acked = 0
            letter.moment = node.moment
            self.letters.append(letter)

    def appends(self, node, event):
        if any(deed[0] in ("inform", "secure", "crash") for deed in event.deeds):
            return True
        return any(
            self.known_count(event.past, n) > self.known_count(node.past, n)
            for n in range(1, self.script.nodes + 1)
            if n != node.number
        )

    def here(self, name):
        """Whether the action runs, or may run, at its home in the home's present incarnation."""
        return self.nodes[name[-1][0]].count == name[-1][1]

    # Locks

    def lift(self, node, name):
        while name and node.informed.get(name):
            name = name[:-1]
        return name

    def conflict(self, node, name, place, op):
        for one in node.live:
            if one.object == place and not compatible(one.op[0], op[0]):
                lift = self.lift(node, one.action)
                if lift and not is_ancestor(lift, name):
                    return lift
        return None

    def value(self, node, place, settled=False):
        state = self.script.objects[place].start
        for one in node.live:
            if one.object == place and not (settled and self.lift(node, one.action)):
                state = apply(state, one.op)[0]
        return state

    # Halts

    def snapshot(self, node):
        return dict(node.informed), list(node.list), list(node.live), dict(node.secured)

    def halt(self, node, event, whole):
        """The append failed. The event is taken where its entry is whole and a later line restarts
        the node; else there is none."""
        taken = whole and self.later_restarts.get(node.number, 0) > self.line
        self.met.add("halted taken" if taken else "halted lost")
        self.marks.append(f"halted {self.line} {node.number} {'taken' if taken else 'lost'}")
        node.halted = True
        node.informed, node.list, node.live, node.secured = self.before
        bit = 1 << len(self.events)
        if not taken:
            self.decided = {name: found for name, found in self.decided.items() if found[0] != bit}
            return
        deeds = [deed for deed in event.deeds if deed[0] in ("inform", "commit", "abort", "secure")]
        event.deeds, event.sent, event.note, event.stop = [], [], "plain", None
        for deed in deeds:
            if deed[0] == "inform":
                self.inform(node, event, deed[3], deed[2])
            else:
                event.deeds.append(deed)
                if deed[0] == "secure":
                    node.secured[deed[1]] = deed[3]
        node.past = event.past
        self.events.append(event)
