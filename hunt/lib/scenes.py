"""Scenes that the generator puts into scripts: a few lines in a row that aim at what lines chosen
one by one seldom meet. A scene yields a line, and looks at the run again before the next."""


def line(word, *args, cost=1):
    """A line of a script, as the generator takes it."""
    return word, args, " ".join(map(str, [word, *args])), cost


def last_letter(generator):
    """The line that delivers the letter that was sent last."""
    return line("deliver", max(1, len(generator.run.letters) - 1))


def open_actions(generator):
    """The variables of actions that can still ask for something, each with its action's name."""
    run = generator.run
    for variable in generator.variables:
        name = run.bound.get(variable)
        action = run.actions.get(name)
        if action and not action.ended and run.here(name):
            if name in run.nodes[name[-1][0]].created and not run.nodes[name[-1][0]].halted:
                yield variable, name, action


def tell_of_crash(generator, crashed, told):
    """The node restarts, and the other hears of it."""
    yield line("restart", crashed)
    if not generator.run.nodes[told].halted:
        yield line("tell", crashed, told)
        yield last_letter(generator)


def visited(generator, deps, but):
    """A node, other than these, of which a crash makes an orphan of whoever depends on these."""
    nodes = {node for node, count in deps if generator.run.nodes[node].count == count}
    left = sorted(nodes - set(but))
    return generator.random.choice(left) if left else None


def orphan_asks(generator):
    """A home learns that its action is an orphan; the action asks for something."""
    found = list(open_actions(generator))
    busy = [one for one in found if any(one[2].children.values())]
    if not found:
        return
    variable, name, action = generator.random.choice(busy or found)
    home = name[-1][0]
    crashed = visited(generator, action.deps, [home])
    if crashed is None:
        return
    yield from tell_of_crash(generator, crashed, home)
    waits = [child for child, is_open in action.children.items() if is_open]
    children = [one for one in generator.variables if generator.run.bound.get(one) in waits]
    if children and generator.random.random() < 0.7:
        yield line("giveup", variable, generator.random.choice(children))
    elif not action.open_call and not waits and generator.random.random() < 0.5:
        yield line("commit", variable, 0)
    else:
        yield line("abort", variable)


def letter_comes_late(generator):
    """A letter of an orphan arrives at a node that has learnt of the crash."""
    run = generator.run
    waiting = [
        one
        for one in run.letters[max(1, len(run.letters) - 60) :]
        if not (one.delivered or one.lost or run.nodes[one.to].halted)
        and one.kind in ("start", "call", "answer", "finish", "quit")
    ]
    finishing = [one for one in waiting if one.kind in ("finish", "quit")]
    if not waiting:
        return
    letter = generator.random.choice(finishing or waiting)
    name = letter.body[0]
    judged = run.actions.get(name[:-1] if letter.kind == "quit" else name)
    deps = next((part for part in letter.body if isinstance(part, frozenset)), None)
    if deps is None:
        deps = judged.deps if judged else frozenset()
    crashed = visited(generator, deps, [letter.to])
    if crashed is not None:
        yield from tell_of_crash(generator, crashed, letter.to)
        yield line("deliver", letter.number)


def vote_is_no(generator):
    """A node restarts before it is asked for its vote."""
    run = generator.run
    tops = [
        (variable, name)
        for variable, name, action in open_actions(generator)
        if len(name) == 1 and not action.open_call and not any(action.children.values())
        if len(action.deps) > 1
    ]
    if tops:
        yield line("commit", generator.random.choice(tops)[0], 0)
        yield last_letter(generator)
    asked = [
        one
        for one in run.letters[1:]
        if one.kind == "prepare" and one.sender != one.to and not (one.delivered or one.lost)
    ]
    if asked:
        letter = generator.random.choice(asked)
        yield line("restart", letter.to)
        yield line("deliver", letter.number)
        yield last_letter(generator)


def home_forgot(generator):
    """A node asks for the outcome of a family whose home has restarted."""
    run, found = generator.run, []
    for variable in generator.variables:
        family = (run.bound.get(variable) or ())[:1]
        for number in range(1, generator.script.nodes + 1):
            node = run.nodes[number]
            has_some = any(one.action[:1] == family for one in node.live)
            if family and family[0][0] != number and family not in node.informed and has_some:
                found.append((number, variable, family[0][0]))
    if not found:
        return
    number, variable, home = generator.random.choice(found)
    yield line("restart", home)
    if not run.nodes[number].halted:
        yield line("query", number, variable)
        yield last_letter(generator)


def too_deep(generator):
    """An action asks for a child within a child, until no name is left."""
    random, node = generator.random, generator.node
    found = [one for one in open_actions(generator) if not one[2].open_call]
    if not found:
        return
    variable, name, _ = max(found, key=lambda one: len(one[1]))
    for _ in range(9 - len(name)):
        child = generator.new(generator.variables)
        place = node() if random.random() < 0.3 else name[-1][0]
        yield line("ask", variable, child, place, *generator.until())
        if generator.run.bound.get(child) is None:
            return
        yield last_letter(generator)
        variable = child


def node_is_halted(generator):
    """A disk stops in an append; then lines come that need the node."""
    run, random = generator.run, generator.random
    node = generator.node()
    if not run.nodes[node].halted:
        yield line("stop", node, random.choice([0, 1, 2, 3, 3]))
        other = generator.node()
        if other == node or run.nodes[other].halted:
            return
        yield from tell_of_crash(generator, other, node)
    if not run.nodes[node].halted:
        return
    for _ in range(3):
        yield line_to(generator, node)
    if generator.script.bodies and random.random() < 0.7:
        body = random.choice(list(generator.script.bodies.values()))
        name = generator.new(generator.starts)
        yield line("start", name, node, body.name, cost=1 + body.cost)
        yield line("go", name)
    if random.random() < 0.6:
        yield line("restart", node)


def line_to(generator, node):
    """A line that needs this node."""
    run, random = generator.run, generator.random
    letters = [one.number for one in run.letters[1:] if one.to == node and not one.lost]
    mine, started = (
        [one for one in variables if (run.bound.get(one) or ((0,),))[-1][0] == node]
        for variables in (generator.variables, generator.starts)
    )
    words = ["begin", "tell", "stop"]
    words += ["deliver", "cut"] * bool(letters) + ["go", "go"] * bool(started)
    words += ["abort", "commit", "giveup", "ask", "query"] * bool(mine)
    word = random.choice(words)
    if word == "begin":
        return line("begin", generator.new(generator.variables), node)
    if word in ("tell", "stop"):
        return line(word, node, node)
    if word == "deliver":
        return line("deliver", random.choice(letters))
    if word == "cut":
        return line("cut", random.choice(letters), 5)
    if word == "go":
        return line("go", random.choice(started))
    variable = random.choice(mine)
    if word == "query":
        return line("query", node, variable)
    if word == "ask":
        return line("ask", variable, generator.new(generator.variables), node)
    more = {"commit": [0], "giveup": [random.choice(generator.variables)], "abort": []}
    return line(word, variable, *more[word])


SCENES = [
    orphan_asks,
    letter_comes_late,
    letter_comes_late,
    vote_is_no,
    home_forgot,
    too_deep,
    node_is_halted,
]
TIMED_SCENES = [too_deep]
