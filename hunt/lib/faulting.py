"""hunt/faults: makes each allocation, each read and write, and each call of each disk fail in turn,
and spoils images of logs."""

import glob
import mmap
import os
import shutil
import struct
import subprocess
import sys
import tempfile

from hunting import Expected
from images import told
from lines import Run
from made import script_made, summary_of
from program import HUNT, TOP, NoProgram, Program, built, find
from reading import parse
from texts import name_text

USAGE = """usage: hunt/faults [PART..] [--program FILE]

Runs the program on the twenty scripts of hunt/scripts, which meet all rules, and makes things fail.
Each answer must be the one that the table of statuses in docs/COMMANDS.md says. The parts are
these, and without a word all of them:

  allocations  each allocation fails: alone, and with all later ones. Status 7 and no text, or the
               whole text
  streams      each read and each write of a stream fails, or moves one byte alone. Status 4; 5 and
               a prefix; the whole text
  disks        each command over files: each call on the file of each node fails: alone, and with
               all later ones. Status 6 and the node; or the answer for a run in which the node
               halts once
  letters      each letter of the scripts is cut at each length
  images       each image of a log that the scripts leave: every prefix, and every byte changed to
               eight values, by inspect and upgrade
  valgrind     the scripts once more, under valgrind where it is installed: no access to memory that
               is not the program's
  commands     words that are no command, and words at the ends of their ranges

Status 0: all answers are right. Status 1: some are not; a line says which. Status 2: nothing could
be tried."""

KINDS = {"allocation": 1, "read": 2, "write": 3, "disk": 4, "short read": 5, "short write": 6}
FIELDS = 4 + 7 + 9 + 1
VALUES = (0, 1, 2, 3, 6, 8, 9, 255)


class Faults:
    """The program, with the plan by which its calls fail."""

    def __init__(self, path, room):
        self.path, self.room = path, room
        plan = os.path.join(room, "plan")
        with open(plan, "wb") as file:
            file.write(bytes(8 * FIELDS))
        with open(plan, "r+b") as file:
            self.plan = mmap.mmap(file.fileno(), 8 * FIELDS)
        self.place = os.getcwd()
        os.makedirs(os.path.join(room, "files"))
        os.chdir(os.path.join(room, "files"))
        self.program = Program(
            path,
            environment={"HUNT_PLAN": plan, "HUNT_PRELOAD": built("failing", "-shared", "-fPIC")},
        )
        self.tried, self.wrong, self.met = 0, [], {}

    def run(self, words, data, kind=0, number=0, later=False, node=0):
        """Runs the program with this plan. Returns how it ended, and its counts of calls by kind
        and by node."""
        self.plan[:] = struct.pack(
            f"{FIELDS}q", kind, node, number, int(later), *[0] * (FIELDS - 4)
        )
        ended = self.program.run(words, data)
        found = struct.unpack(f"{FIELDS}q", self.plan[:])
        self.tried += 1
        return ended, found[4:11], found[11:20]

    def expect(self, fits, what, ended):
        key = ended.said()
        self.met[key] = self.met.get(key, 0) + 1
        if not fits:
            self.wrong.append(f"{what}: {ended.said()}, {ended.text[:60]!r}")

    def line(self, part):
        met = ", ".join(f"{key} {count}" for key, count in sorted(self.met.items()))
        print(f"{part}: {self.tried} runs ({met}), {len(self.wrong)} wrong", flush=True)
        for one in self.wrong[:10]:
            print("  " + one)
        wrong, self.tried, self.wrong, self.met = len(self.wrong), 0, [], {}
        return wrong


def scripts():
    for path in sorted(glob.glob(os.path.join(HUNT, "scripts", "*.cam"))):
        with open(path, "rb") as file:
            yield os.path.basename(path), file.read()


class Whole:
    """A text that does not change."""

    def __init__(self, ended):
        self.ended = ended

    def differs(self, words, ended):
        return ended != self.ended


def commands_of(expected):
    """The commands that run a script."""
    names = sorted(expected.texts.views())
    stops = [number for number, event in enumerate(expected.run.events) if event.stop]
    return [
        ["run"],
        ["trace"],
        ["witness", name_text(names[-1]) if names else "1.1.1"],
        ["why", str(stops[0] if stops else 0)],
    ]


def runs():
    """Each script with the commands that run it, and the inputs of the other commands."""
    found = []
    for name, data in scripts():
        found += [(name, one, data) for one in commands_of(Expected(data))]
    for path in sorted(glob.glob(os.path.join(TOP, "examples", "runs-by-time", "*.cam"))):
        with open(path, "rb") as file:
            found.append((os.path.basename(path), ["timed"], file.read()))
    image = bytes.fromhex("43414d454c4f540a0100000000000000050100000002" + "00")
    found += [
        ("an image", ["inspect"], image),
        ("an image", ["upgrade"], image),
        ("half an image", ["inspect"], image[:20]),
    ]
    return found + [
        ("a refused script", ["run"], b"nodes 2\nbegin A 3\n"),
        ("no script", ["gen", "7", "30"], b""),
        ("no script", ["storm", "7", "2", "2", "calm"], b""),
        ("no script", ["no", "form"], b""),
    ]


def allocations(faults):
    for name, words, data in runs():
        whole, counts, _ = faults.run(words, data)
        for number in range(1, counts[KINDS["allocation"]] + 1):
            for later in (False, True):
                ended, _, _ = faults.run(words, data, KINDS["allocation"], number, later)
                fits = ended == whole or (ended.status, ended.signal, ended.text) == (7, 0, "")
                faults.expect(
                    fits,
                    f"{name}, {' '.join(words)}: allocation {number} fails"
                    + " and all later" * later,
                    ended,
                )
    return faults.line("allocations")


def streams(faults):
    for name, words, data in runs():
        whole, counts, _ = faults.run(words, data)
        for kind in ("read", "write"):
            for number in range(1, counts[KINDS[kind]] + 1):
                ended, _, _ = faults.run(words, data, KINDS[kind], number)
                fits = (
                    (ended.status, ended.text) == (4, "read fault\n")
                    if kind == "read"
                    else (
                        ended.status == 5
                        and whole.text.startswith(ended.text)
                        and ended.text != whole.text
                    )
                )
                faults.expect(
                    fits and not ended.signal,
                    f"{name}, {' '.join(words)}: {kind} {number} fails",
                    ended,
                )
            for later in (False, True):
                ended, _, _ = faults.run(words, data, KINDS["short " + kind], 1, later)
                faults.expect(
                    ended == whole,
                    f"{name}, {' '.join(words)}: a {kind} moves one byte{', each' * later}",
                    ended,
                )
    return faults.line("streams")


def halted(script, appended, node):
    """The runs of a script in which this node halts at one of its appends."""
    for number in range(appended):
        for whole in (False, True):
            yield Run(script, {(node, number): whole}).run()


class MadeHalted:
    """What `gen SEED SIZE` writes of a run of its script."""

    def __init__(self, run, size):
        self.text = summary_of(run, size)

    def differs(self, words, ended):
        return (ended.status, ended.signal, ended.text) != (0, 0, self.text)


def expected_by(plain, expected):
    """For each node of a script what may be written of the runs in which it halts once."""
    return {
        node: [expected(run) for run in halted(plain.script, plain.nodes[node].appended, node)]
        for node in range(1, plain.script.nodes + 1)
    }


def fail_disks(faults, name, words, data, after):
    """Each call of each disk fails in a command over files; `after` has for each node what may be
    written besides its name."""
    words = words + ["files"]
    whole, _, counts = faults.run(words, data)
    alone, _, _ = faults.run(words[:-1], data)
    faults.expect(whole == alone, f"{name}, {' '.join(words)}: over files", whole)
    for node in range(1, 9):
        for number in range(1, counts[node] + 1):
            for later in (False, True):
                ended, _, _ = faults.run(words, data, KINDS["disk"], number, later, node)
                said = (ended.status, ended.signal, ended.text)
                fits = ended == whole
                if node in after:
                    fits = said == (6, 0, f"disk fault {node}\n") or any(
                        not one.differs(words, ended) for one in after[node]
                    )
                faults.expect(
                    fits,
                    f"{name}, {' '.join(words)}: call {number} of disk {node} fails"
                    + " and all later" * later,
                    ended,
                )


def disks(faults):
    for name, data in scripts():
        plain = Expected(data)
        after = expected_by(plain.run, lambda run, data=data: Expected(data, run))
        for words in commands_of(plain):
            fail_disks(faults, name, words, data, after)
    plain = Run(parse(script_made(7, 30))).run()
    after = expected_by(plain, lambda run: MadeHalted(run, 30))
    fail_disks(faults, "no script", ["gen", "7", "30"], b"", after)
    # A storm ends at a fault; whether it comes to that call depends on its threads.
    words = ["storm", "7", "4", "2", "calm"]
    whole = Whole(faults.run(words, b"")[0])
    fail_disks(faults, "no script", words, b"", {node: [whole] for node in range(1, 5)})
    return faults.line("disks")


def letters(faults):
    """Each letter of each script, cut at each length, in a line behind the script's last."""
    for name, data in scripts():
        run = Expected(data).run
        for letter in run.letters[1:]:
            length = run.length(letter)
            for size in range(length + 2):
                cut = data + f"cut {letter.number} {size}\n".encode()
                ended, _, _ = faults.run(["run"], cut)
                why = Expected(cut).differs(["run"], ended)
                what = f"{name}: letter {letter.number} cut at {size} of {length}: {why}"
                faults.expect(not why, what, ended)
    return faults.line("letters")


def images_of(faults):
    """The images that the scripts leave in files, each once, and one of a plain log."""
    found = {
        bytes.fromhex(
            "43414d454c4f540a01000000000000002f"
            + "01000000020202020000000300000004010000000200000001"
            + "0403000000040501010000000100000001"
            + "0000000200000000"
            + "00"
        )
    }
    for _, data in scripts():
        for word in glob.glob("cam*.log"):
            os.remove(word)
        faults.run(["run", "files"], data)
        for path in sorted(glob.glob("cam*.log")):
            with open(path, "rb") as file:
                found.add(file.read())
    return sorted(found, key=lambda image: (len(image), image))


def images(faults):
    logs = images_of(faults)
    plain = [b"CAMELOT\n" + image[42:] for image in logs if len(image) > 60]
    for image in logs + plain:
        spoilt = [image] + [image[:size] for size in range(len(image))]
        spoilt += [
            image[:at] + bytes([value]) + image[at + 1 :]
            for at in range(len(image))
            for value in VALUES
        ]
        for one in spoilt:
            for command in ("inspect", "upgrade"):
                ended, _, _ = faults.run([command], one)
                wanted = told(command, one)
                fits = (ended.status, ended.signal, ended.text.encode("latin-1")) == (
                    wanted[0],
                    0,
                    wanted[1],
                )
                faults.expect(fits, f"{command} of {one.hex()}", ended)
    for one in (
        b"CAMELOT\n" + bytes(262136),
        b"CAMELOT\n" + bytes(262137),
        b"CAMCKPT\n" + bytes(262137),
    ):
        for command in ("inspect", "upgrade"):
            ended, _, _ = faults.run([command], one)
            wanted = told(command, one)
            faults.expect(
                (ended.status, ended.text.encode("latin-1")) == wanted,
                f"{command} of {len(one)} bytes",
                ended,
            )
    return faults.line("images")


def valgrind(faults):
    tool = shutil.which("valgrind")
    if not tool:
        print("valgrind: not installed, and not tried")
        return 0
    for name, words, data in runs():
        command = [tool, "-q", "--error-exitcode=99", "--leak-check=no", faults.path, *words]
        done = subprocess.run(command, input=data, capture_output=True, check=False)
        whole, _, _ = faults.run(words, data)
        fits = (done.returncode, done.stdout.decode("latin-1")) == (whole.status, whole.text)
        faults.expect(
            fits, f"{name}, {' '.join(words)} under valgrind: {done.stderr[:200]!r}", whole
        )
    return faults.line("valgrind")


def commands(faults):
    usage = faults.run(["no", "form"], b"")[0]
    forms = [
        ["run"],
        ["trace"],
        ["witness", "1.1.1"],
        ["why", "0"],
        ["why", "4294967295"],
        ["gen", "0", "1"],
        ["gen", "18446744073709551615", "400"],
        ["inspect"],
        ["upgrade"],
        ["timed"],
        ["inspect", "files"],
        ["timed", "files"],
        ["witness", "/".join(["8.1000000000.1000000000"] * 8)],
    ]
    no_forms = [
        [],
        ["run", "run"],
        ["witness"],
        ["witness", ""],
        ["witness", "1.1"],
        ["witness", "9.1.1"],
        ["witness", "1.0.1"],
        ["witness", "01.1.1"],
        ["witness", "1.1.1000000001"],
        ["witness", "1.1.1/"],
        ["witness", "/".join(["1.1.1"] * 9)],
        ["why"],
        ["why", "01"],
        ["why", "-1"],
        ["why", "4294967296"],
        ["why", "1", "2"],
        ["gen", "7"],
        ["gen", "7", "0"],
        ["gen", "7", "401"],
        ["gen", "07", "1"],
        ["gen", "18446744073709551616", "1"],
        ["gen", "+1", "1"],
        ["--help"],
        ["-h"],
        ["Run"],
        ["run", ""],
        ["files"],
        ["files", "run"],
        ["run", "files", "files"],
    ]
    for words in forms:
        ended, _, _ = faults.run(words, b"nodes 1\n")
        faults.expect(ended.status != 2 and not ended.signal, f"{words} is a form", ended)
    for words in no_forms:
        ended, _, _ = faults.run(words, b"nodes 1\n")
        faults.expect(ended == usage and ended.status == 2, f"{words} is no form", ended)
    return faults.line("commands")


PARTS = {
    "allocations": allocations,
    "streams": streams,
    "disks": disks,
    "letters": letters,
    "images": images,
    "valgrind": valgrind,
    "commands": commands,
}


def main(words):
    if words and words[0] in ("-h", "--help", "help"):
        print(USAGE)
        return 0
    named = None
    if "--program" in words[:-1]:
        at = words.index("--program")
        named, words = words[at + 1], words[:at] + words[at + 2 :]
    unknown = [word for word in words if word not in PARTS]
    if unknown:
        print(
            f"hunt/faults: {unknown[0]!r} is no part; hunt/faults --help lists them",
            file=sys.stderr,
        )
        return 2
    room = tempfile.mkdtemp(dir="/dev/shm" if os.path.isdir("/dev/shm") else None)
    try:
        faults = Faults(find(named), room)
        return 1 if sum(PARTS[part](faults) for part in words or PARTS) else 0
    except (NoProgram, OSError, subprocess.CalledProcessError) as error:
        print(f"hunt/faults: {error}", file=sys.stderr)
        return 2
    finally:
        os.chdir("/")
        shutil.rmtree(room)


if __name__ == "__main__":
    sys.exit(main(sys.argv[1:]))
