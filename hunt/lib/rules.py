"""The step rules: what an action asks of its home, and what a node does with each letter
(docs/RULES.md)."""

from machine import Action, Machine, Op, ancestors, apply


class Rules(Machine):
    """A machine that takes requests, letters, restarts, tells and queries."""

    # Requests

    def begin(self, number):
        node = self.nodes[number]
        event = self.open_event(node)
        node.tops += 1
        name = ((number, node.count, node.tops),)
        self.create(node, event, name, {name[0][:2]})
        self.close_event(event)
        return name

    def create(self, node, event, name, deps):
        event.deeds.append(("create", name))
        node.created.add(name)
        self.actions[name] = Action(frozenset(deps))
        self.actions[name].view.append(("created",))

    def request(self, name, want, *args):
        """One request of an action. Returns the event, and the child that was asked for, or None
        where the action was stopped."""
        node, action = self.nodes[name[-1][0]], self.actions[name]
        event = self.open_event(node)
        reason = self.orphan(event.past, name, action.deps)
        made = None
        if reason:
            self.stop(event, name, reason)
            self.met.add("stopped at " + want)
        else:
            made = getattr(self, "want_" + want)(node, event, name, action, *args)
        self.close_event(event)
        return made

    def want_ask(self, node, event, name, action, place):
        action.asked += 1
        child = name + ((place, self.known_count(event.past, place), action.asked),)
        action.children[child] = True
        event.deeds.append(("ask", name, child))
        action.view.append(("asked", child))
        self.send(event, place, "start", (child, action.deps))
        return child

    def want_call(self, node, event, name, action, place, op):
        site = self.script.objects[place].node
        count = self.known_count(event.past, site)
        action.calls += 1
        action.open_call = (action.calls, site, count)
        event.deeds.append(("call", name, action.calls, place, op, count))
        action.view.append(("called", action.calls, place, op))
        self.send(event, site, "call", (name, action.calls, place, op, count, action.deps))

    def want_commit(self, node, event, name, action, value):
        action.ended, action.value = True, value
        event.deeds.append(("askcommit", name, value))
        action.view.append(("commit", value))
        self.send(event, self.deciding(name), "finish", (name, value, action.deps))

    def want_abort(self, node, event, name, action):
        action.ended = True
        event.deeds.append(("askabort", name))
        action.view.append(("abort",))
        self.send(event, self.deciding(name), "quit", (name,))

    def want_giveup(self, node, event, name, action, child):
        self.decide(node, event, child, False)

    def deciding(self, name):
        return name[-2][0] if len(name) > 1 else name[0][0]

    # Lines that make an event of a node

    def restart(self, number):
        node = self.nodes[number]
        node.calls_left, node.halted = None, False
        event = self.open_event(node)
        event.deeds.append(("crash", number))
        self.crashes[number] |= 1 << len(self.events)
        node.count += 1
        node.tops, node.kept, node.created, node.preparing = 0, {}, set(), {}
        node.live = [one for one in node.live if one.action[:1] in node.secured]
        node.have, node.acked = [0] * 9, [0] * 9
        self.close_event(event)

    def tell(self, number, to):
        event = self.open_event(self.nodes[number])
        self.send(event, to, "news", ())
        self.close_event(event)

    def query(self, number, family):
        event = self.open_event(self.nodes[number])
        self.send(event, family[0][0], "query", (family,))
        self.close_event(event)

    # Letters

    def arrive(self, letter):
        node = self.nodes[letter.to]
        event = self.open_event(node, letter)
        getattr(self, "got_" + letter.kind)(node, event, letter, *letter.body)
        self.met.add(f"{letter.kind} {event.note}")
        self.close_event(event)

    def got_start(self, node, event, letter, child, deps):
        if child[-1][1] != node.count:
            event.note = "missed"
            return self.send(event, letter.sender, "quit", (child,))
        if child in node.created:
            event.note = "again"
            return None
        reason = self.orphan(event.past, child, deps | {child[-1][:2]})
        if reason:
            return self.stop(event, child, reason)
        return self.create(node, event, child, deps | {child[-1][:2]})

    def got_call(self, node, event, letter, name, number, place, op, count, deps):
        def answer(*reply):
            self.send(event, name[-1][0], "answer", (name, number, reply))

        if count != node.count:
            event.note = "missed"
            return answer("missed")
        if any(node.informed.get(one) for one in ancestors(name)):
            event.note = "ended"
            return None
        if (name, number) in node.kept:
            event.note = "again"
            return answer(*node.kept[name, number])
        reason = self.orphan(event.past, name, deps)
        if reason:
            self.stop(event, name, reason)
            return answer("refused")
        holder = self.conflict(node, name, place, op)
        if holder:
            self.met.add("busy")
            event.deeds.append(("bounce", name, number, holder))
            reply = ("busy", holder)
        else:
            reply = apply(self.value(node, place), op)[1]
            event.deeds.append(("perform", name, number, reply))
            self.met.add(f"{op[0]} {reply[0]}")
            # (in a run by time its abort may be known here already)
            if False not in map(node.informed.get, ancestors(name)):
                node.live.append(Op(name, number, place, op, reply))
        node.kept[name, number] = reply
        return answer(*reply)

    def got_answer(self, node, event, letter, name, number, reply):
        action = self.actions.get(name)
        if (
            not self.here(name)
            or name not in node.created
            or action.ended
            or not action.open_call
            or action.open_call[0] != number
        ):
            event.note = "late"
            return None
        reason = self.orphan(event.past, name, action.deps)
        if reason:
            return self.stop(event, name, reason)
        _, site, count = action.open_call
        if self.known_count(event.past, site) > count:
            self.met.add("gone")
            seen = ("gone",)
        elif reply[0] in ("missed", "refused"):
            self.met.add("answer missed or refused and no orphan")
            event.note = "late"
            return None
        else:
            seen = reply
            if reply[0] != "busy":
                action.deps |= {(site, count)}
        action.open_call = None
        event.deeds.append(("got", name, number, seen))
        action.view.append(("got", number, seen))
        return None

    def is_late(self, node, child):
        parent = self.actions.get(child[:-1])
        return (
            not self.here(child[:-1])
            or child[:-1] not in node.created
            or parent.ended
            or not parent.children.get(child)
        )

    def child_ends(self, node, event, child):
        """The tests that a finish and a quit of a child share; whether one of them held."""
        if self.is_late(node, child):
            event.note = "late"
            return True
        reason = self.orphan(event.past, child[:-1], self.actions[child[:-1]].deps)
        if reason:
            self.stop(event, child[:-1], reason)
        return bool(reason)

    def got_finish(self, node, event, letter, name, value, deps):
        if len(name) == 1:
            return self.top_finishes(node, event, name, deps)
        if self.child_ends(node, event, name):
            return None
        reason = self.orphan(event.past, name, deps)
        if reason:
            self.decide(node, event, name, False)
            return self.stop(event, name, reason)
        self.actions[name[:-1]].deps |= deps
        return self.decide(node, event, name, True, deps)

    def top_finishes(self, node, event, name, deps):
        if not self.here(name) or name in node.informed or name in node.preparing:
            event.note = "late"
            return None
        reason = self.orphan(event.past, name, deps)
        if reason:
            self.decide(node, event, name, False)
            self.stop(event, name, reason)
            return self.send_news(event, name, deps)
        event.note, node.preparing[name] = "preparing", set()
        for to, count in sorted(deps):
            self.send(event, to, "prepare", (name, count))
        return None

    def got_quit(self, node, event, letter, name):
        if len(name) > 1:
            if not self.child_ends(node, event, name):
                self.decide(node, event, name, False)
        elif not self.here(name) or name in node.informed:
            event.note = "late"
        else:
            self.decide(node, event, name, False)
            self.send_news(event, name, self.actions[name].deps)

    def got_prepare(self, node, event, letter, family, count):
        def vote(yes):
            self.send(event, family[0][0], "vote", (family, count, yes))

        if family in node.informed:
            event.note = "late"
            return None
        if family in node.secured:
            event.note = "again"
            return vote(True)
        if count != node.count:
            event.note = "missed"
            return vote(False)
        node.secured[family] = count
        event.deeds.append(("secure", family, node.number, count))
        return vote(True)

    def got_vote(self, node, event, letter, family, count, yes):
        if not self.here(family) or family not in node.preparing or family in node.informed:
            event.note = "late"
            return None
        deps = self.actions[family].deps
        if not yes:
            self.met.add("vote no")
            self.decide(node, event, family, False)
            return self.send_news(event, family, deps)
        node.preparing[family].add((letter.sender, count))
        if not deps <= node.preparing[family]:
            event.note = "voted"
            return None
        self.decide(node, event, family, True, deps)
        return self.send_news(event, family, deps)

    def got_query(self, node, event, letter, family):
        if family not in node.informed:
            if self.here(family):
                event.note = "late"
                return None
            self.met.add("query aborts")
            self.decide(node, event, family, False)
        return self.send(event, letter.sender, "news", ())

    def got_news(self, node, event, letter):
        return None
