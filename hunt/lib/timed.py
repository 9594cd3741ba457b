"""Runs by time, as docs/RUNS-BY-TIME.md tells them: no node tests for orphans, and each action has
a quiesce moment."""

import random

from generator import script_of
from hunting import Expected, Hunter
from lines import LineRefused, Run, refuse_if
from reading import Refused, parse
from texts import Texts, name_text

# Which letters bring aborts; all bring commits.
BRING_ABORTS = ("finish", "prepare", "news")


class TimedRun(Run):
    """The run of a script by time."""

    def __init__(self, script):
        super().__init__(script)
        self.untils = {}

    def orphan(self, past, name, visited):
        return None

    def first_informs(self, node, event, letter):
        new = {
            (True, name)
            for name, (bit, committed, _) in self.decided.items()
            if committed and event.past & bit
        }
        if letter.kind in BRING_ABORTS:
            new |= {
                (False, deed[3])
                for one in self.events[: letter.event + 1]
                if one.node == letter.sender
                for deed in one.deeds
                if deed[0] == "inform" and not deed[2]
            }
        for committed, name in sorted(one for one in new if one[1] not in node.informed):
            self.inform(node, event, name, committed)

    def arrive(self, letter):
        node = self.nodes[letter.to]
        node.moment = max(node.moment, letter.moment)
        event = self.open_event(node, letter)
        informs, before = len(event.deeds), self.state(node)
        getattr(self, "got_" + letter.kind)(node, event, letter, *letter.body)
        event.pause = self.pause_of(node, event.deeds[informs:])
        if event.pause:
            self.met.add(event.pause[0])
            self.restore(node, before)
            event.deeds, event.sent, event.note = event.deeds[:informs], [], "plain"
        else:
            self.met.add(f"{letter.kind} {event.note}")
        self.close_event(event)

    def pause_of(self, node, deeds):
        """Why an arrival pauses: its form, the action, the moment and the action's quiesce
        moment."""
        values = {name: action.value for name, action in self.actions.items()}
        for deed in deeds:
            for name, _ in Texts(self).steps_of(deed, values):
                if node.moment >= self.untils[name]:
                    return "quiet", name, node.moment, self.untils[name]
        for deed in deeds:
            if deed[0] == "abort" and node.moment < self.untils[deed[1]]:
                return "early", deed[1], node.moment, self.untils[deed[1]]
        return None

    def state(self, node):
        actions = {
            name: (one.deps, one.open_call, dict(one.children), list(one.view))
            for name, one in self.actions.items()
        }
        return (
            dict(node.informed),
            list(node.list),
            list(node.live),
            dict(node.kept),
            set(node.created),
            dict(node.secured),
            {name: set(votes) for name, votes in node.preparing.items()},
            dict(self.decided),
            actions,
        )

    def restore(self, node, before):
        *mine, self.decided, actions = before
        (
            node.informed,
            node.list,
            node.live,
            node.kept,
            node.created,
            node.secured,
            node.preparing,
        ) = mine
        self.actions = {name: one for name, one in self.actions.items() if name in actions}
        for name, (deps, open_call, children, view) in actions.items():
            one = self.actions[name]
            one.deps, one.open_call, one.children, one.view = deps, open_call, children, view

    # Lines

    def refuse_by_moments(self, holds, which, moment, until):
        if holds:
            raise LineRefused(f"{which} {moment} {until}")

    def may_ask(self, variable, call=True, child=True):
        name = super().may_ask(variable, call, child)
        self.quiesced = (self.nodes[name[-1][0]].moment, self.untils[name])
        return name

    def not_quiesced(self):
        moment, until = self.quiesced
        self.refuse_by_moments(moment >= until, "L10", moment, until)

    def line_begin(self, variable, node, until):
        moment = self.nodes[node].moment
        self.refuse_by_moments(moment >= until, "L10", moment, until)
        self.bound[variable] = self.begin(node)
        self.untils[self.bound[variable]] = until

    def line_ask(self, parent, variable, node, until):
        name = self.may_ask(parent, child=False)
        refuse_if(len(name) == 8, "too deep")
        self.not_quiesced()
        child = self.request(name, "ask", node)
        self.bound[variable], self.untils[child] = child, min(until, self.untils[name])

    def line_call(self, variable, place, op):
        name = self.may_ask(variable)
        self.not_quiesced()
        self.request(name, "call", self.script.places[place], op)

    def line_commit(self, variable, value):
        name = self.may_ask(variable)
        self.not_quiesced()
        self.request(name, "commit", value)

    def line_abort(self, variable):
        name = self.may_ask(variable, False, False)
        self.not_quiesced()
        self.request(name, "abort")

    def line_giveup(self, variable, child):
        self.variable(variable)
        self.variable(child)
        name, child = self.may_ask(variable, False, False), self.bound[child]
        refuse_if(not self.actions[name].children.get(child), "not open")
        self.not_quiesced()
        moment = self.quiesced[0]
        self.refuse_by_moments(moment < self.untils[child], "L11", moment, self.untils[child])
        self.request(name, "giveup", child)

    def line_tick(self, number, moment):
        node = self.nodes[number]
        refuse_if(moment <= node.moment, "nothing to do")
        node.moment = moment
        self.close_event(self.open_event(node))

    def line_expire(self, variable):
        name = self.variable(variable)
        node = self.nodes[name[0][0]]
        refuse_if(name not in node.created, "not open")
        refuse_if(name in node.informed, "nothing to do")
        self.refuse_by_moments(
            node.moment < self.untils[name], "L11", node.moment, self.untils[name]
        )
        event = self.open_event(node)
        self.decide(node, event, name, False)
        self.send_news(event, name, self.actions[name].deps)
        self.close_event(event)


class TimedTexts(Texts):
    """The report of a run by time: the events that paused stand in place of the stops."""

    def stops(self):
        lines = []
        for number, event in enumerate(self.run.events):
            if event.pause:
                form, name, moment, until = event.pause
                lines.append(f"{form} {number} {name_text(name)} {moment} {until}")
        return lines


class TimedExpected(Expected):
    """What the program has to write of one script by time."""

    def __init__(self, data):
        self.texts, self.met, self.events, self.refused = None, set(), 0, None
        try:
            self.run = TimedRun(parse(data, timed=True)).run()
        except Refused as fault:
            self.refused, self.met = fault.text, {fault.text.split()[-1]}
            return
        self.texts, self.events = TimedTexts(self.run), len(self.run.events)
        self.met = {" ".join(one.split()[:2]) for one in self.run.met}

    def of(self, words):
        return (3, self.refused) if self.refused else (0, self.texts.report())


class TimedHunter(Hunter):
    """One process that hunts with scripts by time."""

    def one(self, name):
        source = random.Random(name)
        data = script_of(source, timed=True, run=TimedRun)
        self.ask([["timed"]], data)
        expected = TimedExpected(data)
        self.backlog.append((name, data, expected, [["timed"]]))
        self.count(expected)
        while len(self.backlog) > 2 or len(data) > 4000 and self.backlog:
            self.judge(*self.backlog.pop(0))

    def difference(self, data, words):
        return TimedExpected(data).differs(words, self.program.run(words, data))
