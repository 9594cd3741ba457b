#!/usr/bin/env python3
"""prove.py [PROGRAM..]   proves the program, the crate cam_cli if none is named, and what it stands on, crate beside crate, and builds it

Several provers of the kit work side by side, each in a room of its own: the sources once more, as hard links under out/prove, since in one
folder the kit lets two provers that have a crate in common wait for each other. Each room has the libraries that are proved already, as hard
links too; a library that a room has proved is linked back into the crate's own folder, so that an interrupted proof goes on where it was. What
is at the head of the longest chain comes first. At the end the kit builds the program in its own folder, and looks at every library once more.

RT_JOBS says how many provers work side by side; else there is one for each processor, and no more than memory has room for.
"""
import contextlib
import fcntl
import json
import os
import re
import shutil
import signal
import subprocess
import sys
import threading
import time

TOP = os.path.dirname(os.path.dirname(os.path.realpath(__file__)))
ROOMS = f"{TOP}/out/prove"
PROGRAMS = sys.argv[1:] or ["cam_cli"]
PARTS = ("src", "specs", "proofs")
# what a prover may take, by what was seen of the largest crate
BYTES_OF_A_PROVER = 4 << 30
# what is known of no crate yet: bytes of its sources that are proved in a second
BYTES_IN_A_SECOND = 6000


def say(text):
    print(f"camelot: {text}", file=sys.stderr, flush=True)


def clock(seconds):
    return f"{int(seconds) // 60}:{int(seconds) % 60:02}"


def crates():
    """The repository's libraries that each crate names."""
    named = {}
    with open(f"{TOP}/crates.txt", encoding="utf-8") as lines:
        for line in lines:
            crate, colon, libraries = line.partition("#")[0].partition(":")
            if colon:
                named[crate.split()[0]] = libraries.split()
    return {crate: [it for it in libraries if it in named] for crate, libraries in named.items()}


def below(named, program):
    """All that a program stands on, and the program itself, last."""
    order = []

    def visit(crate):
        if crate not in order:
            for it in named[crate]:
                visit(it)
            order.append(crate)

    visit(program)
    return order


def sources(crate):
    """How many bytes the crate's sources have."""
    return sum(
        os.path.getsize(f"{folder}/{name}")
        for part in PARTS
        for folder, _, names in os.walk(f"{TOP}/crates/{crate}/{part}")
        for name in names
    )


def reckoned(order):
    """How long each crate is reckoned to take: as it took here before, else as bench/RESULTS.md says, else by its size."""
    measured = {}
    with contextlib.suppress(OSError), open(f"{TOP}/bench/RESULTS.md", encoding="utf-8") as page:
        for crate, seconds in re.findall(r"^(\w+)\s+(\d+)\s", page.read(), re.M):
            measured.setdefault(crate, int(seconds))
    with contextlib.suppress(OSError, ValueError), open(f"{ROOMS}/seconds", encoding="utf-8") as it:
        measured.update(json.load(it))
    return {crate: max(measured.get(crate) or sources(crate) / BYTES_IN_A_SECOND, 1) for crate in order}


def provers():
    """How many provers work side by side."""
    if os.environ.get("RT_JOBS", "").isdigit():
        return max(int(os.environ["RT_JOBS"]), 1)
    with contextlib.suppress(OSError), open("/proc/meminfo", encoding="utf-8") as it:
        free = int(re.search(r"MemAvailable:\s+(\d+)", it.read())[1]) << 10
        return max(min(len(os.sched_getaffinity(0)), free // BYTES_OF_A_PROVER), 1)
    return os.cpu_count() or 1


def replace(made, place):
    """Puts a folder in the place of another, or of none."""
    old = f"{made}.old"
    shutil.rmtree(old, ignore_errors=True)
    if os.path.isdir(place):
        os.rename(place, old)
    os.rename(made, place)
    shutil.rmtree(old, ignore_errors=True)


def link(crate, there, here):
    """Links a crate's proved library from one copy of the tree into another."""
    library, made = f"{there}/crates/{crate}/out/rlib", f"{here}/crates/{crate}/out/rlib.linked"
    if os.path.isdir(library):
        shutil.rmtree(made, ignore_errors=True)
        os.makedirs(os.path.dirname(made), exist_ok=True)
        shutil.copytree(library, made, copy_function=os.link)
        replace(made, f"{here}/crates/{crate}/out/rlib")


class Proof:
    """What is proved, what is being proved, and by whom."""

    def __init__(self, program):
        named = crates()
        self.program, self.order = program, below(named, program)
        self.needs = {crate: named[crate] for crate in self.order}
        self.seconds = reckoned(self.order)
        self.chains = self.chains_of(self.seconds)
        self.took, self.done, self.running, self.failed, self.calls, self.linked = {}, [], {}, [], {}, set()
        self.changed, self.began, self.stops = threading.Condition(), time.monotonic(), False

    def chains_of(self, seconds):
        """How long the longest chain of crates takes from each of these up, with so many seconds for each."""
        chains = {}
        for crate in reversed(self.order):
            if crate in seconds:
                users = (chains[it] for it in chains if crate in self.needs[it])
                chains[crate] = seconds[crate] + max(users, default=0)
        return chains

    def next(self):
        """The crate that comes next, of those whose libraries are all proved; None where nothing is left to begin."""
        while not self.stops and not self.failed:
            waiting = [it for it in self.order[:-1] if it not in self.done and it not in self.running]
            ready = [it for it in waiting if all(need in self.done for need in self.needs[it])]
            if ready:
                return max(ready, key=self.chains.get)
            if not waiting:
                return None
            self.changed.wait()
        return None

    def call(self, crate, folder, words, **given):
        """Calls the kit on a crate, in a process group of its own, and returns its status."""
        call = subprocess.Popen(["rt", *words], cwd=f"{folder}/crates/{crate}", start_new_session=True, **given)
        with self.changed:
            self.calls[crate] = call
        if self.stops:
            self.stop()
        status = call.wait()
        with self.changed:
            del self.calls[crate]
        return status

    def jobs(self, crate, workers):
        """How many processors one prover may use: those that no other has, and two at the head of the longest chain."""
        longest = self.chains[crate] >= max(self.chains[it] for it in self.order if it not in self.done)
        return max(workers // len(self.running), min(workers, 2) if longest else 1)

    def prove(self, crate, room, jobs):
        """Proves one crate in a room, and links the library back."""
        for it in [*below(self.needs, crate)[:-1], crate]:
            if (it, room) not in self.linked and (it != crate or not os.path.isdir(f"{room}/crates/{crate}/out/rlib")):
                link(it, TOP, room)
                self.linked.add((it, room))
        told = f"{ROOMS}/{crate}.told"
        with open(told, "w", encoding="utf-8") as it:
            given = {"stdin": subprocess.DEVNULL, "stdout": it, "stderr": subprocess.STDOUT}
            status = self.call(crate, room, ["lib", "--jobs", str(jobs)], **given)
        if status == 0:
            link(crate, room, TOP)
            self.linked.add((crate, room))
            os.remove(told)
        return status

    def work(self, number, workers):
        """What one prover does, from its first crate to its last."""
        room = f"{ROOMS}/room-{number}"
        while True:
            with self.changed:
                crate = self.next()
                if not crate:
                    return
                self.running[crate] = time.monotonic()
                jobs = self.jobs(crate, workers)
            status = 1
            try:
                status = self.prove(crate, room, jobs)
            except (OSError, shutil.Error) as fault:
                say(f"{crate}: {fault}")
            finally:
                with self.changed:
                    self.took[crate] = time.monotonic() - self.running.pop(crate)
                    (self.done if status == 0 else self.failed).append(crate)
                    self.changed.notify_all()

    def left(self, workers):
        """About how many seconds are left: what the provers still have to do, or the longest chain, at the pace so far."""
        pace = sum(self.took[it] for it in self.done) / max(sum(self.seconds[it] for it in self.done), 1) if self.done else 1
        to_do = [it for it in self.order if it not in self.done]
        gone = {it: time.monotonic() - since for it, since in self.running.items()}
        rest = {it: max(self.seconds[it] * pace - gone.get(it, 0), 0) for it in to_do}
        return max(sum(rest.values()) / workers, max(self.chains_of(rest).values(), default=0))

    def stop(self):
        """Ends the provers that this call began."""
        self.stops = True
        for call in list(self.calls.values()):
            with contextlib.suppress(ProcessLookupError):
                os.killpg(call.pid, signal.SIGTERM)


class Screen:
    """What a person sees: on a terminal a line that changes, else a line for each crate that is done."""

    def __init__(self, proof, workers):
        self.proof, self.workers, self.told, self.is_terminal = proof, workers, 0, sys.stderr.isatty()

    def show(self):
        proof = self.proof
        for crate in proof.done[self.told :]:
            self.told += 1
            self.line(f"proved {crate}, {self.told} of {len(proof.order)}, in {clock(proof.took[crate])}; {self.rest()}")
        if self.is_terminal and proof.running:
            now = time.monotonic()
            names = ", ".join(f"{it.removeprefix('cam_')} {clock(now - since)}" for it, since in sorted(proof.running.items()))
            text = f"camelot: {len(proof.done)} of {len(proof.order)} proved; {names}; {self.rest()}"
            print(f"\r\033[K{text[: shutil.get_terminal_size().columns - 1]}", end="", file=sys.stderr, flush=True)

    def rest(self):
        return f"about {clock(self.proof.left(self.workers))} left"

    def line(self, text):
        if self.is_terminal:
            print("\r\033[K", end="", file=sys.stderr)
        say(text)


def furnish(room, order):
    """Makes a room of links to the sources as they are, or an old one anew; what checks keep in out/ stays."""
    for name in os.listdir(f"{room}/crates") if os.path.isdir(f"{room}/crates") else []:
        if name not in order:
            shutil.rmtree(f"{room}/crates/{name}")
    for crate in order:
        for part in (*PARTS, "c"):
            shutil.rmtree(f"{room}/crates/{crate}/{part}", ignore_errors=True)
            if os.path.isdir(f"{TOP}/crates/{crate}/{part}"):
                shutil.copytree(f"{TOP}/crates/{crate}/{part}", f"{room}/crates/{crate}/{part}", copy_function=os.link)
    if os.path.exists(f"{TOP}/HANDLES"):
        shutil.copy(f"{TOP}/HANDLES", f"{room}/HANDLES")
    # (a line of crates.txt whose crate is not there is refused)
    with open(f"{TOP}/crates.txt", encoding="utf-8") as lines, open(f"{room}/crates.txt", "w", encoding="utf-8") as it:
        it.writelines(line for line in lines if line.partition(":")[0].split(" ")[0] in order)


def show_end(told):
    """Shows the last lines that the kit wrote."""
    with contextlib.suppress(OSError), open(told, encoding="utf-8", errors="replace") as it:
        sys.stderr.writelines(it.readlines()[-20:])


def libraries(proof):
    """Proves all that the program stands on; whether it was done."""
    workers = min(provers(), len(proof.order))
    for number in range(workers):
        furnish(f"{ROOMS}/room-{number}", proof.order)
    say(f"proving {len(proof.order)} crates, {workers} at a time; Ctrl-C interrupts, and the next ./camelot --prove goes on from there")
    screen = Screen(proof, workers)
    hands = [threading.Thread(target=proof.work, args=[number, workers], daemon=True) for number in range(workers)]
    for hand in hands:
        hand.start()
    while any(hand.is_alive() for hand in hands):
        screen.show()
        time.sleep(0.2)
    screen.show()
    with open(f"{ROOMS}/seconds.new", "w", encoding="utf-8") as it:
        json.dump({**proof.seconds, **{crate: round(proof.took[crate], 1) for crate in proof.done if proof.took[crate] > 2}}, it)
    os.replace(f"{ROOMS}/seconds.new", f"{ROOMS}/seconds")
    return not proof.failed and not proof.stops, screen


def build(proof, screen):
    """Proves and builds the program in its own folder, where the kit looks at every library once more, and runs it once as the gate does."""
    told, program = f"{ROOMS}/{proof.program}.told", proof.program
    proof.running[program] = time.monotonic()
    statuses = []

    def run():
        folder = f"{TOP}/crates/{program}"
        with open(f"{folder}/args", encoding="utf-8") as words, open(f"{folder}/stdin", "rb") as text, open(told, "w", encoding="utf-8") as it:
            given = {"stdin": text, "stdout": subprocess.DEVNULL, "stderr": it}
            statuses.append(proof.call(program, TOP, ["run", "--", *words.read().split()], **given))

    hand = threading.Thread(target=run, daemon=True)
    hand.start()
    while hand.is_alive():
        screen.show()
        time.sleep(0.2)
    proof.took[program] = time.monotonic() - proof.running.pop(program)
    if statuses != [0] or proof.stops:
        proof.failed.append(program)
        return False
    os.remove(told)
    proof.done.append(program)
    screen.show()
    return True


def main():
    os.makedirs(ROOMS, exist_ok=True)
    with open(f"{ROOMS}/lock", "w", encoding="utf-8") as lock:
        try:
            fcntl.flock(lock, fcntl.LOCK_EX | fcntl.LOCK_NB)
        except BlockingIOError:
            say("another ./camelot --prove works here")
            return 1
        return prove_all()


def prove_all():
    for program in PROGRAMS:
        proof = Proof(program)

        def interrupted(number, _frame, proof=proof):
            proof.stop()

        for it in (signal.SIGINT, signal.SIGTERM, signal.SIGHUP):
            signal.signal(it, interrupted)
        is_done, screen = libraries(proof)
        is_done = is_done and build(proof, screen)
        if proof.stops:
            screen.line(f"interrupted, {len(proof.done)} of {len(proof.order)} proved; ./camelot --prove goes on from there")
            return 130
        if not is_done:
            for crate in proof.failed:
                show_end(f"{ROOMS}/{crate}.told")
                screen.line(f"{crate} was not proved or not built; {ROOMS}/{crate}.told has all that the kit said")
            return 1
        say(f"the proved program is there, after {clock(time.monotonic() - proof.began)}")
    # What is proved is in the crates' own folders.
    for name in os.listdir(ROOMS):
        if name.startswith("room-"):
            shutil.rmtree(f"{ROOMS}/{name}", ignore_errors=True)
    return 0


if __name__ == "__main__":
    sys.exit(main())
