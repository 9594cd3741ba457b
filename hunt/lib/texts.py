"""The texts of a run as docs/RULES.md tells them: report, trace, witness and why."""


def name_text(name):
    return "/".join(f"{node}.{count}.{number}" for node, count, number in name)


def answer_text(answer):
    word, *rest = answer
    if word == "value":
        return f"value {rest[0]}"
    return f"busy {name_text(rest[0])}" if word == "busy" else word


def op_text(op):
    return " ".join(map(str, op))


def state_text(state):
    return "[" + " ".join(map(str, state)) + "]" if isinstance(state, tuple) else str(state)


class Texts:
    """The texts of one run that is made."""

    def __init__(self, run):
        self.run, self.labels = run, [one.name for one in run.script.objects]

    def deed(self, deed):
        word, *rest = deed
        if word == "call":
            name, number, place, op, count = rest
            return f"call {name_text(name)} {number} {self.labels[place]} {op_text(op)} {count}"
        if word in ("perform", "got"):
            return f"{word} {name_text(rest[0])} {rest[1]} {answer_text(rest[2])}"
        if word == "bounce":
            return f"bounce {name_text(rest[0])} {rest[1]} {name_text(rest[2])}"
        if word == "ask":
            return f"ask {name_text(rest[0])} {name_text(rest[1])}"
        if word == "askcommit":
            return f"askcommit {name_text(rest[0])} {rest[1]}"
        if word == "secure":
            return f"secure {name_text(rest[0])} {rest[1]} {rest[2]}"
        if word == "inform":
            return f"inform {rest[0]} {'commit' if rest[1] else 'abort'} {name_text(rest[2])}"
        if word == "crash":
            return f"crash {rest[0]}"
        return f"{word} {name_text(rest[0])}"

    def trace(self):
        lines = []
        for number, event in enumerate(self.run.events):
            got = event.got.number if event.got is not None else 0
            lines.append(f"event {number} node {event.node} letter {got} note {event.note}")
            lines.extend("  " + self.deed(deed) for deed in event.deeds)
            lines.extend(
                f"  sent {letter.number} to {letter.to} {letter.kind}" for letter in event.sent
            )
        return "".join(line + "\n" for line in lines + self.run.marks)

    def views(self):
        """The steps of each created action, by the deeds of the run."""
        values, views = {}, {}
        for event in self.run.events:
            for deed in event.deeds:
                for name, step in self.steps_of(deed, values):
                    views.setdefault(name, []).append(step)
        return {name: steps for name, steps in views.items() if "created" in steps}

    def steps_of(self, deed, values):
        """Which step of whose view a deed gives."""
        word, *rest = deed
        if word == "create":
            return [(rest[0], "created")]
        if word == "ask":
            return [(rest[0], f"asked {name_text(rest[1])}")]
        if word == "call":
            return [(rest[0], f"called {rest[1]} {self.labels[rest[2]]} {op_text(rest[3])}")]
        if word == "got":
            return [(rest[0], f"got {rest[1]} {answer_text(rest[2])}")]
        if word == "askcommit":
            values[rest[0]] = rest[1]
            return [(rest[0], f"commit {rest[1]}")]
        if word == "askabort":
            return [(rest[0], "abort")]
        if word in ("commit", "abort") and len(rest[0]) > 1:
            said = f"committed {values[rest[0]]}" if word == "commit" else "aborted"
            return [(rest[0][:-1], f"child {name_text(rest[0])} {said}")]
        return []

    def stops(self):
        lines = []
        for number, event in enumerate(self.run.events):
            if event.stop:
                name, reason = event.stop
                said = (
                    name_text(reason[1]) if reason[0] == "abort" else " ".join(map(str, reason[1:]))
                )
                lines.append(f"stop {number} {name_text(name)} {reason[0]} {said}")
        return lines

    def report(self):
        run, lines = self.run, []
        views = self.views()
        for name in sorted(views):
            state = "open"
            if name in run.decided:
                state = "committed" if run.decided[name][1] else "aborted"
            lines.append(f"action {name_text(name)} {state}")
            lines.extend("  " + step for step in views[name])
        lines.extend(self.stops() + run.marks)
        for place, one in enumerate(run.script.objects):
            lines.append(
                f"value {one.name} {state_text(run.value(run.nodes[one.node], place, True))}"
            )
        return "".join(line + "\n" for line in lines)

    def witness(self, name):
        """The deeds in the past of the last event that gives a step of the action's view; None
        where it was not created."""
        values, last, created = {}, None, False
        for event in self.run.events:
            for deed in event.deeds:
                if any(found == name for found, _ in self.steps_of(deed, values)):
                    last = event
                created = created or deed == ("create", name)
        if not created:
            return None
        lines = []
        for number, event in enumerate(self.run.events):
            if last.past >> number & 1:
                lines.extend(self.deed(deed) for deed in event.deeds)
        return "".join(line + "\n" for line in lines + ["legal"])

    def why(self, number):
        """The line of a stop, its cause, and the fewest letters that lead from there; None where
        the event stopped nobody."""
        run = self.run
        if number >= len(run.events) or not run.events[number].stop:
            return None
        _, reason = run.events[number].stop
        line = next(one for one in self.stops() if one.startswith(f"stop {number} "))
        return line, self.cause(reason), self.fewest(self.cause(reason), number)

    def cause(self, reason):
        for number, event in enumerate(self.run.events):
            if reason[0] == "abort" and ("abort", reason[1]) in event.deeds:
                return number
            if reason[0] == "crash" and ("crash", reason[1]) in event.deeds:
                crashes = [
                    one
                    for one in self.run.events[: number + 1]
                    if ("crash", reason[1]) in one.deeds
                ]
                if 1 + len(crashes) == reason[3]:
                    return number
        raise AssertionError("a stop without a cause")

    def fewest(self, first, last):
        """How few letters lead from one event to another: a search forward over all events."""
        events = self.run.events
        letters = {first: 0}
        for number in range(first + 1, len(events)):
            event = events[number]
            found = [
                letters[n]
                for n in range(first, number)
                if n in letters and events[n].node == event.node
            ]
            if event.got is not None and event.got.event in letters:
                found.append(letters[event.got.event] + 1)
            if found:
                letters[number] = min(found)
        return letters.get(last)
