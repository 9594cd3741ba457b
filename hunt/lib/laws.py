"""Judges what the program printed by laws that need no step rule: locks, serial orders, and what
orphans may see.

All is worked out from the printed trace and report, and from the objects of the script, by plain
and slow search.
"""

from itertools import permutations

from machine import ancestors, apply, compatible, is_ancestor
from texts import state_text

MOST_TOPS, MOST_EVENTS = 6, 14


def name_of(text):
    return tuple(tuple(map(int, part.split("."))) for part in text.split("/"))


def op_of(words):
    return (words[0], *map(int, words[1:]))


def answer_of(words):
    if words[0] == "value":
        return ("value", int(words[1]))
    return ("busy", name_of(words[1])) if words[0] == "busy" else (words[0],)


class Seen:
    """An event as it was printed."""

    def __init__(self, line):
        words = line.split()
        self.node, self.letter, self.note = int(words[3]), int(words[5]), words[7]
        self.deeds, self.sent = [], []


def events_of(trace):
    events = []
    for line in trace.split("\n"):
        if line.startswith("event "):
            events.append(Seen(line))
        elif line.startswith("  sent "):
            events[-1].sent.append(int(line.split()[1]))
        elif line.startswith("  "):
            events[-1].deeds.append(deed_of(line.split()))
    return events


def deed_of(words):
    kind, rest = words[0], words[1:]
    if kind == "inform":
        return ("inform", int(rest[0]), rest[1] == "commit", name_of(rest[2]))
    if kind == "crash":
        return ("crash", int(rest[0]))
    name = name_of(rest[0])
    if kind == "ask":
        return ("ask", name, name_of(rest[1]))
    if kind == "call":
        return ("call", name, int(rest[1]), rest[2], op_of(rest[3:-1]), int(rest[-1]))
    if kind in ("perform", "got"):
        return (kind, name, int(rest[1]), answer_of(rest[2:]))
    if kind == "bounce":
        return ("bounce", name, int(rest[1]), name_of(rest[2]))
    if kind == "askcommit":
        return ("askcommit", name, int(rest[1]))
    if kind == "secure":
        return ("secure", name, int(rest[1]), int(rest[2]))
    return (kind, name)


class Plain:
    """The plain machine of nested transactions: takes deeds one by one, and says what is not legal.
    No line asks for orphans."""

    def __init__(self, objects):
        self.objects = {one.name: one for one in objects}
        self.deeds, self.counts, self.deps, self.ops = [], {}, {}, []

    def has(self, *deed):
        return deed in self.deeds

    def count(self, node):
        return 1 + self.counts.get(node, 0)

    def all(self, kind, name):
        return [deed for deed in self.deeds if deed[0] == kind and deed[1] == name]

    def ended(self, name):
        return bool(self.all("askcommit", name) or self.all("askabort", name))

    def decided(self, name):
        return self.has("commit", name) or self.has("abort", name)

    def runs(self, name):
        return (
            self.has("create", name)
            and not self.ended(name)
            and self.count(name[-1][0]) == name[-1][1]
        )

    def open_call(self, name):
        got = {deed[2] for deed in self.all("got", name)}
        return next((deed for deed in self.all("call", name) if deed[2] not in got), None)

    def open_child(self, name):
        return any(not self.decided(deed[2]) for deed in self.all("ask", name))

    def live(self, node):
        """The list of what was read and written at a site, without what an abort or a crash
        dropped."""
        return [op for op in self.ops if op["site"] == node and op["live"]]

    def lift(self, node, name):
        while name and self.has("inform", node, True, name):
            name = name[:-1]
        return name

    def meets(self, call):
        """The first holder that an operation meets, or None."""
        _, name, _, place, op, _ = call
        for one in self.live(self.objects[place].node):
            if one["object"] == place and not compatible(one["op"][0], op[0]):
                lift = self.lift(one["site"], one["action"])
                if lift and not is_ancestor(lift, name):
                    return lift
        return None

    def state(self, place):
        state = self.objects[place].start
        for one in self.live(self.objects[place].node):
            if one["object"] == place:
                state = apply(state, one["op"])[0]
        return state

    def is_orphan(self, name):
        for one in ancestors(name):
            if self.has("abort", one) or any(
                count < self.count(node) for node, count in self.deps.get(one, ())
            ):
                return True
        return False

    def take(self, deed):
        """Whether the deed is legal after those before it."""
        fine = getattr(self, "is_" + deed[0])(*deed[1:])
        self.deeds.append(deed)
        getattr(self, "after_" + deed[0], lambda *_: None)(*deed[1:])
        return fine

    def call_of(self, name, number):
        return next((deed for deed in self.all("call", name) if deed[2] == number), None)

    def is_create(self, name):
        node, count, number = name[-1]
        if self.has("create", name) or count != self.count(node):
            return False
        if len(name) > 1:
            return self.has("ask", name[:-1], name)
        return number == 1 + sum(
            deed[0] == "create" and len(deed[1]) == 1 and deed[1][0][:2] == (node, count)
            for deed in self.deeds
        )

    def after_create(self, name):
        self.deps.setdefault(name, {name[-1][:2]})

    def is_ask(self, name, child):
        node, count, number = child[-1]
        return (
            self.runs(name)
            and not self.open_call(name)
            and len(name) < 8
            and child[:-1] == name
            and count <= self.count(node)
            and number == 1 + len(self.all("ask", name))
        )

    def after_ask(self, name, child):
        self.deps[child] = self.deps[name] | {child[-1][:2]}

    def is_call(self, name, number, place, op, count):
        return (
            self.runs(name)
            and not self.open_call(name)
            and not self.open_child(name)
            and number == 1 + len(self.all("call", name))
            and count <= self.count(self.objects[place].node)
        )

    def may_serve(self, name, number):
        call = self.call_of(name, number)
        served = any(
            deed[2] == number for kind in ("perform", "bounce") for deed in self.all(kind, name)
        )
        return (
            call
            if call and not served and call[5] == self.count(self.objects[call[3]].node)
            else None
        )

    def is_perform(self, name, number, answer):
        call = self.may_serve(name, number)
        return (
            bool(call) and not self.meets(call) and answer == apply(self.state(call[3]), call[4])[1]
        )

    def after_perform(self, name, number, answer):
        call = self.call_of(name, number)
        self.ops.append(
            {
                "action": name,
                "number": number,
                "object": call[3],
                "op": call[4],
                "answer": answer,
                "site": self.objects[call[3]].node,
                "live": True,
            }
        )

    def is_bounce(self, name, number, holder):
        call = self.may_serve(name, number)
        return bool(call) and self.meets(call) == holder

    def is_got(self, name, number, seen):
        call = self.open_call(name)
        if not self.runs(name) or not call or call[2] != number:
            return False
        if seen[0] == "busy":
            return self.has("bounce", name, number, seen[1])
        if seen[0] == "gone":
            return self.count(self.objects[call[3]].node) > call[5]
        return self.has("perform", name, number, seen)

    def after_got(self, name, number, seen):
        if seen[0] not in ("busy", "gone"):
            call = self.call_of(name, number)
            self.deps[name] = self.deps[name] | {(self.objects[call[3]].node, call[5])}

    def is_askcommit(self, name, value):
        return self.runs(name) and not self.open_call(name) and not self.open_child(name)

    def is_askabort(self, name):
        return self.runs(name)

    def is_commit(self, name):
        if not self.all("askcommit", name) or self.decided(name):
            return False
        if len(name) > 1:
            return self.runs(name[:-1])
        return self.count(name[0][0]) == name[0][1] and all(
            self.has("secure", name, *pair) for pair in self.deps[name]
        )

    def after_commit(self, name):
        if len(name) > 1:
            self.deps[name[:-1]] = self.deps[name[:-1]] | self.deps[name]

    def is_abort(self, name):
        if self.decided(name):
            return False
        if len(name) > 1:
            return self.runs(name[:-1]) and self.has("ask", name[:-1], name)
        return self.has("create", name)

    def is_secure(self, name, node, count):
        return (
            bool(self.all("askcommit", name))
            and (node, count) in self.deps[name]
            and count == self.count(node)
            and not any(deed[2] == node for deed in self.all("secure", name))
            and all(
                self.lift(node, op["action"]) == name
                for op in self.live(node)
                if op["action"][:1] == name
            )
        )

    def is_inform(self, node, committed, name):
        return self.has("commit" if committed else "abort", name) and not self.has(
            "inform", node, committed, name
        )

    def after_inform(self, node, committed, name):
        for op in self.live(node):
            if not committed and is_ancestor(name, op["action"]):
                op["live"] = False

    def is_crash(self, node):
        return True

    def after_crash(self, node):
        self.counts[node] = self.counts.get(node, 0) + 1
        for op in self.live(node):
            op["live"] = any(deed[2] == node for deed in self.all("secure", op["action"][:1]))


def plain_of(objects, deeds):
    """The plain machine after these deeds, and the first that is not legal, or None."""
    plain, wrong = Plain(objects), None
    for deed in deeds:
        if not plain.take(deed) and wrong is None:
            wrong = deed
    return plain, wrong


def view_of(name, deeds):
    """The deeds that give the action's view."""
    mine = [
        deed
        for deed in deeds
        if deed[0] in ("create", "ask", "call", "got", "askcommit", "askabort")
        and deed[1] == name
        or deed[0] in ("commit", "abort")
        and deed[1][:-1] == name
        and len(name) < len(deed[1])
    ]
    return mine


def pasts_of(events):
    """The past of each event, as a set of numbers."""
    sender = {letter: number for number, event in enumerate(events) for letter in event.sent}
    last, pasts = {}, []
    for number, event in enumerate(events):
        past = {number} | last.get(event.node, set())
        if event.letter:
            past |= pasts[sender[event.letter]]
        pasts.append(past)
        last[event.node] = past
    return pasts


def cuts_of(pasts):
    """Every set of events that has with each its past."""
    found = {frozenset()}
    for number, past in enumerate(pasts):
        found |= {cut | {number} for cut in found if past - {number} <= cut}
    return found


def explains(objects, events, cut, name, view):
    """Whether the deeds of these events are legal, and the action has the same view in them and is
    no orphan."""
    deeds = [deed for number in sorted(cut) for deed in events[number].deeds]
    if view_of(name, deeds) != view:
        return False
    plain, wrong = plain_of(objects, deeds)
    return wrong is None and not plain.is_orphan(name)


def serial_orders(plain, deeds):
    """The committed top actions in order of their commits, each with its operations that count."""
    tops = [deed[1] for deed in deeds if deed[0] == "commit" and len(deed[1]) == 1]
    counted = [
        op
        for op in plain.ops
        if op["live"] and all(plain.has("commit", one) for one in ancestors(op["action"]))
    ]
    return [(top, [op for op in counted if op["action"][:1] == top]) for top in tops]


def replays(objects, groups):
    """The states that the groups lead to, one after another, or None where an answer is another."""
    states = {one.name: one.start for one in objects}
    for _, ops in groups:
        for op in ops:
            states[op["object"]], answer = apply(states[op["object"]], op["op"])
            if answer != op["answer"]:
                return None
    return states


def values_fit(objects, plain, groups, report):
    """Whether each printed value is what some order of the top actions of which the site was told
    leads to."""
    printed = dict(
        line.split(" ", 2)[1:] for line in report.split("\n") if line.startswith("value ")
    )
    for one in objects:
        told = [
            (top, [op for op in ops if op["object"] == one.name])
            for top, ops in groups
            if plain.has("inform", one.node, True, top)
        ]
        told = [group for group in told if group[1]]
        orders = permutations(told) if len(told) <= MOST_TOPS else [told]
        if not any(
            states and state_text(states[one.name]) == printed[one.name]
            for states in (replays(objects, order) for order in orders)
        ):
            return f"no order of the committed top actions leads to the value of {one.name}"
    return None


def broken_laws(script, trace, report):
    """What the printed texts of an accepted script break."""
    objects, events = script.objects, events_of(trace)
    deeds = [deed for event in events for deed in event.deeds]
    plain, wrong = plain_of(objects, deeds)
    broken = [] if wrong is None else [f"{wrong} is not legal in the whole run"]
    groups = serial_orders(plain, deeds)
    if replays(objects, groups) is None:
        broken.append("the committed top actions do not replay in order of their commits")
    broken += filter(None, [values_fit(objects, plain, groups, report)])
    pasts = pasts_of(events)
    cuts = cuts_of(pasts) if len(events) <= MOST_EVENTS else None
    for name in {deed[1] for deed in deeds if deed[0] == "create"}:
        view = view_of(name, deeds)
        last = max(
            number
            for number, event in enumerate(events)
            if set(view_of(name, event.deeds)) & set(view)
        )
        tried = sorted(cuts, key=len) if cuts else [pasts[last]]
        if not any(explains(objects, events, cut, name, view) for cut in tried):
            broken.append(f"no cut explains what {name} saw")
    return broken
