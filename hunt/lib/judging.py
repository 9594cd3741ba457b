"""hunt/judge: judges what a program writes of one script."""

import sys

from hunting import Expected
from laws import MOST_EVENTS, broken_laws
from program import NoProgram, Program, find
from texts import name_text
from timed import TimedExpected

USAGE = """usage: hunt/judge [PROGRAM] [timed] < SCRIPT

Runs a program on a script, and judges what it writes by a second implementation of the rules and by
laws on the printed texts: its report, its trace, the witness of each action, and the cause and the
letters of each stop. With `timed` the script is one by time, and its report is judged. PROGRAM is
./camelot, or any program with its commands; without it $CAMELOT, else the proved program of this
repository, is judged.

Status 0: all is as it must be. Status 1: something is not; a line says what. Status 2: nothing was
judged."""


def judged(program, data):
    """Judges all commands that run a script. Returns what is wrong, and a sentence on what was
    judged."""
    expected = Expected(data)
    if expected.refused:
        words = [["run"], ["trace"], ["witness", "1.1.1"], ["why", "0"]]
    else:
        words = [["run"], ["trace"]]
        words += [["witness", name_text(name)] for name in sorted(expected.texts.views())] + [
            ["witness", "8.1.9"]
        ]
        words += [["why", str(event)] for event in range(expected.events + 1)]
    wrong, told = [], {}
    for one in words:
        ended = program.run(one, data)
        told[one[0]] = ended.text
        why = expected.differs(one, ended)
        if why:
            wrong.append(f"{' '.join(one)}: {why}")
    if expected.refused:
        return wrong, f"the script is refused: {expected.refused.strip()}"
    wrong += [
        "the printed texts: " + one
        for one in broken_laws(expected.run.script, told["trace"], told["run"])
    ]
    small = expected.events <= MOST_EVENTS
    return wrong, (
        f"{expected.events} events, {len(expected.run.letters) - 1} letters, "
        f"{len(expected.texts.views())} witnesses, "
        f"{len(expected.texts.stops())} stops; "
        f"views against {'all cuts' if small else 'their pasts'}"
    )


def judged_timed(program, data):
    expected = TimedExpected(data)
    why = expected.differs(["timed"], program.run(["timed"], data))
    said = (
        f"the script is refused: {expected.refused.strip()}"
        if expected.refused
        else f"{expected.events} events by time"
    )
    return [f"timed: {why}"] if why else [], said


def main(words):
    if words and words[0] in ("-h", "--help", "help"):
        print(USAGE)
        return 0
    is_timed = bool(words) and words[-1] == "timed"
    words = words[:-1] if is_timed else words
    if len(words) > 1 or sys.stdin.isatty():
        print(USAGE, file=sys.stderr)
        return 2
    try:
        program = Program(find(words[0] if words else None), seconds=600)
        wrong, said = (judged_timed if is_timed else judged)(program, sys.stdin.buffer.read())
    except (NoProgram, OSError) as error:
        print(f"hunt/judge: {error}", file=sys.stderr)
        return 2
    for one in wrong:
        print(one)
    print(f"{'differs' if wrong else 'agrees'}: {said}")
    return 1 if wrong else 0


if __name__ == "__main__":
    sys.exit(main(sys.argv[1:]))
