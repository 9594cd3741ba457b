"""Which rules, notes, refusals, faults and reasons for a stop a run can meet. After a long hunt
none of them may be 0."""

from reading import STEPS, TIMED_STEPS

NOTES = {
    "start": ["plain", "again", "missed", "stopped"],
    "call": ["plain", "again", "missed", "ended", "stopped"],
    "answer": ["plain", "late", "stopped"],
    "finish": ["plain", "late", "stopped", "preparing"],
    "quit": ["plain", "late", "stopped"],
    "prepare": ["plain", "late", "again", "missed"],
    "vote": ["plain", "late", "voted"],
    "query": ["plain", "late"],
    "news": ["plain"],
}
REFUSALS = {
    "begin": [3],
    "start": [3],
    "ask": [1, 3, 4, 5, 7, 8],
    "call": [1, 3, 4, 5, 6, 7],
    "commit": [1, 3, 4, 5, 6, 7],
    "abort": [1, 3, 4, 7],
    "giveup": [1, 3, 4, 7],
    "go": [1, 3, 4, 5, 6],
    "deliver": [2, 3],
    "cut": [2, 3],
    "lose": [2],
    "tell": [3, 9],
    "query": [1, 3, 9],
    "stop": [3],
}

OPERATIONS = [
    "read value",
    "write ok",
    "swap value",
    "size value",
    "put ok",
    "take value",
    "take empty",
    "add ok",
]
FAULTS = [f"S{n}" for n in range(1, 13)]

# Of scripts by time, in which no node restarts, no disk stops and nobody is stopped.
TIMED_NOTES = {
    "start": ["plain", "again"],
    "call": ["plain", "again", "ended"],
    "answer": ["plain", "late"],
    "finish": ["plain", "late", "preparing"],
    "quit": ["plain", "late"],
    "prepare": ["plain", "late", "again"],
    "vote": ["plain", "late", "voted"],
    "query": ["plain", "late"],
    "news": ["plain"],
}
TIMED_REFUSALS = {
    "begin": [10],
    "ask": [1, 4, 5, 7, 8, 10],
    "call": [1, 4, 5, 6, 7, 10],
    "commit": [1, 4, 5, 6, 7, 10],
    "abort": [1, 4, 7, 10],
    "giveup": [1, 4, 7, 10, 11],
    "deliver": [2],
    "lose": [2],
    "tell": [9],
    "query": [1, 9],
    "tick": [9],
    "expire": [1, 9, 11],
}


def notes_of(table):
    return [f"{kind} {note}" for kind, notes in table.items() for note in notes]


def refusals_of(table):
    return [f"{word} L{number}" for word, numbers in table.items() for number in numbers]


RULES = {
    "a line is taken": sorted(STEPS),
    "a letter arrives": notes_of(NOTES),
    "an operation is performed": OPERATIONS,
    "inside a rule": ["busy", "gone", "vote no", "query aborts"],
    "an action is stopped": [
        "stop abort",
        "stop crash",
        *("stopped at " + want for want in ["ask", "call", "commit", "abort", "giveup"]),
    ],
    "a line is refused": refusals_of(REFUSALS),
    "a letter is cut": ["cut short", "cut whole"],
    "a disk stops": ["halted taken", "halted lost"],
    "a script is refused": FAULTS,
}
TIMED_RULES = {
    "a line is taken": sorted(TIMED_STEPS),
    "a letter arrives": notes_of(TIMED_NOTES),
    "an operation is performed": OPERATIONS,
    "inside a rule": ["busy", "early", "quiet"],
    "a line is refused": refusals_of(TIMED_REFUSALS),
    "a script is refused": FAULTS,
}
# What the rules name and no run was seen to meet: a test before it decides.
NEVER = ["answer missed or refused and no orphan"]


def table(counts, timed=False):
    """The counts of all that can be met, as lines, and what was not met."""
    lines, missing = [], []
    for topic, keys in (TIMED_RULES if timed else RULES).items():
        lines.append(f"{topic}: " + ", ".join(f"{key} {counts.get(key, 0)}" for key in keys))
        missing.extend(key for key in keys if not counts.get(key))
    return lines, missing
