"""hunt/syscalls: looks from outside, by the system calls of runs over files, that entries are
forced before letters tell of them."""

import glob
import os
import re
import shutil
import subprocess
import sys
import tempfile

from hunting import Expected
from lines import Run
from program import HUNT, NoProgram, find
from reading import parse

USAGE = """usage: hunt/syscalls [SCRIPT..] [--program FILE]

Runs scripts over files under strace, those of hunt/scripts where none is named, and looks at the
calls on each node's file:

  - an append writes the entry behind the closed gate, syncs, opens the gate by one byte, and syncs;
    a replacement of a list does so with its slot; nothing is written after the last sync;
  - the entries of the nodes come in the order of the events that have one, and each is whole before
    the next event's calls on any disk begin: so it is forced before any letter of its event is
    handed on, since the program does one event after another;
  - the bytes that were written make the file as it stands at the end, and `inspect` reads from it
    what the run says.

Status 0: all is as it must be. Status 1: something is not; a line says what. Status 2: nothing was
tried."""

CALL = re.compile(r"^(?:\d+ +)?(\w+)\((\d+)(?:<[^>]*>)?(?:, (.*))?\) += (-?\d+)")


class Calls:
    """The calls on the files of the nodes, in order: each as the node, its name, the place, and the
    bytes."""

    def __init__(self, text):
        self.nodes, self.all, self.at = {}, [], {}
        for line in text.split("\n"):
            opened = re.search(r'openat\(AT_FDCWD, "cam(\d)\.log".*= (\d+)$', line)
            if opened:
                self.nodes[opened.group(2)] = int(opened.group(1))
                continue
            found = CALL.match(line)
            if found and found.group(2) in self.nodes:
                self.take(
                    self.nodes[found.group(2)],
                    found.group(1),
                    found.group(3) or "",
                    int(found.group(4)),
                )

    def take(self, node, word, rest, result):
        if word == "lseek":
            if "SEEK_SET" in rest:
                self.at[node] = result
        elif word == "write":
            text = re.match(r'"(.*)"(?:\.\.\.)?, \d+$', rest).group(1)
            data = bytes(int(pair, 16) for pair in re.findall(r"\\x([0-9a-f]{2})", text))
            self.all.append((node, "write", self.at.get(node, 0), data))
            self.at[node] = self.at.get(node, 0) + len(data)
        elif word in ("fsync", "fdatasync"):
            self.all.append((node, "sync", 0, b""))
        elif word == "ftruncate":
            self.all.append((node, "cut", 0, b""))


def turns_of(calls):
    """The calls as turns: calls on one node's disk that end with the sync behind a gate that was
    opened, each with its node and its writes."""
    turns, now = [], []
    for node, word, at, data in calls:
        if now and now[0][0] != node:
            return (
                turns,
                f"a call on the disk of node {node} comes inside an append of node {now[0][0]}",
            )
        now.append((node, word, at, data))
        words = [one[1] for one in now]
        is_open = word == "sync" and len(now) >= 2 and now[-2][1] == "write" and now[-2][3] == b"\1"
        is_format = words == ["cut", "write", "sync"]
        if is_open or is_format:
            turns.append((node, now))
            now = []
    return turns, f"calls after the last sync: {now}" if now else None


def wrong_turn(node, calls):
    """What is wrong with the calls of one append, replacement or format."""
    words = [one[1] for one in calls]
    if words == ["cut", "write", "sync"]:
        return None
    if words == ["write", "sync", "write", "sync"]:
        entry, gate = calls[0], calls[2]
        if (
            gate[2] != entry[2] - 1
            or entry[3][-1:] != b"\0"
            or len(entry[3]) != 9 + int.from_bytes(entry[3][:8], "big")
        ):
            return f"node {node}: an append whose gate or length is wrong: {calls}"
        return None
    if (
        words == ["write", "sync"] * (len(words) // 2)
        and len(words) == 6
        or words == ["sync", "write", "write", "sync", "write", "sync"]
    ):
        return (
            None
            if calls[-2][2] in (8, 25)
            else f"node {node}: a replacement that opens no slot: {calls}"
        )
    if set(words) == {"write", "sync"} and calls[-2][2] in (8, 25):
        return None
    return f"node {node}: calls that are no append and no replacement: {words}"


def appending_nodes(data):
    """The nodes of the appends that a run makes, in order: a format and a Version for each node,
    and then one for each event with an entry."""
    run = CountingRun(parse(data))
    run.run()
    return run.appending


class CountingRun(Run):
    """A run that notes which node appends, in order. A restart replaces its list, and so opens a
    slot."""

    def __init__(self, script):
        super().__init__(script)
        self.appending = []

    def close_event(self, event):
        node = self.nodes[event.node]
        if self.appends(node, event):
            left = 4 if node.calls_left is None else min(4, node.calls_left)
            self.appending.append((node.number, left))
        super().close_event(event)


def look(path, data):
    """Runs a script over files under strace. Returns what is wrong."""
    with tempfile.TemporaryDirectory() as folder:
        log = os.path.join(folder, "calls")
        command = [
            "strace",
            "-f",
            "-xx",
            "-s",
            "1000000",
            "-e",
            "trace=openat,open,write,lseek,fsync,fdatasync,ftruncate",
            "-o",
            log,
            path,
            "run",
            "files",
        ]
        done = subprocess.run(command, input=data, cwd=folder, capture_output=True, check=False)
        status, text = Expected(data).of(["run"])
        if (done.returncode, done.stdout.decode("latin-1")) != (status, text):
            return [f"the report is another under strace: status {done.returncode}"], 0
        with open(log, encoding="latin-1") as file:
            trace = file.read()
        trace = re.sub(
            r'openat\(AT_FDCWD, "((?:\\x[0-9a-f]{2})*)"',
            lambda m: 'openat(AT_FDCWD, "'
            + bytes.fromhex(m.group(1).replace("\\x", "")).decode()
            + '"',
            trace,
        )
        calls = Calls(trace).all
        files = {}
        for name in glob.glob(os.path.join(folder, "cam*.log")):
            with open(name, "rb") as file:
                files[int(name[-5])] = file.read()
        return judged(calls, files, data), len(calls)


def judged(calls, files, data):
    wrong = []
    for node, bytes_written in rebuilt(calls).items():
        if files.get(node) != bytes_written:
            wrong.append(f"node {node}: the file is not what was written")
    wanted = appending_nodes(data)
    whole = [node for node, left in wanted if left == 4]
    if any(left < 4 for _, left in wanted):
        # A disk that was stopped makes a part of an append: only the order of the syncs is looked
        # at.
        return wrong + unsynced(calls)
    turns, rest = turns_of(calls)
    wrong += [rest] if rest else []
    wrong += [one for one in (wrong_turn(node, made) for node, made in turns) if one]
    nodes = parse(data).nodes
    appended = [node for node, made in turns if made[0][1] != "cut"]
    # Formatting: each node's first append is that of its Version.
    if sorted(appended[:nodes]) != list(range(1, nodes + 1)):
        wrong.append(f"the logs do not begin with a Version of each node: {appended[:nodes]}")
    if appended[nodes:] != whole:
        wrong.append(
            f"entries were appended by the nodes {appended[nodes:]}, and the run says {whole}"
        )
    return wrong


def rebuilt(calls):
    """Each file as the calls made it."""
    files = {}
    for node, word, at, data in calls:
        if word == "cut":
            files[node] = b""
        elif word == "write":
            old = files.get(node, b"")
            files[node] = old[:at] + data + old[at + len(data) :]
    return files


def unsynced(calls):
    """A gate or a slot that was opened while an earlier write was not synced."""
    waiting, wrong = {}, []
    for node, word, at, data in calls:
        if word == "sync":
            waiting[node] = False
        elif word == "write":
            if data == b"\1" and waiting.get(node):
                wrong.append(f"node {node}: a gate at {at} was opened before the entry was synced")
            waiting[node] = True
    return wrong


def main(words):
    if words and words[0] in ("-h", "--help", "help"):
        print(USAGE)
        return 0
    named = None
    if "--program" in words[:-1]:
        at = words.index("--program")
        named, words = words[at + 1], words[:at] + words[at + 2 :]
    if not shutil.which("strace"):
        print("hunt/syscalls: strace is not installed", file=sys.stderr)
        return 2
    failed = calls = 0
    scripts = words or sorted(glob.glob(os.path.join(HUNT, "scripts", "*.cam")))
    try:
        path = find(named)
        for name in scripts:
            with open(name, "rb") as file:
                wrong, made = look(path, file.read())
            calls += made
            failed += bool(wrong)
            for one in wrong[:5]:
                print(f"{name}: {one}")
    except (NoProgram, OSError) as error:
        print(f"hunt/syscalls: {error}", file=sys.stderr)
        return 2
    print(
        f"syscalls: {len(scripts)} scripts, {calls} calls on disks, "
        f"{failed} scripts with something wrong"
    )
    return 1 if failed else 0


if __name__ == "__main__":
    sys.exit(main(sys.argv[1:]))
