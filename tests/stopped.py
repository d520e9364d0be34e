#!/usr/bin/env -S python3 -B
"""Ends the program at random moments, and looks at the keys that its store then has.

    tests/stopped.py [PROGRAM [STOPS [FIRST]]]    until STOPS (60) runs were stopped, by numbers at random from FIRST (1) on

The program is ./psa where none is named; it has to be one process, as the proved program is. All rounds are on one store,
a file on a disk, whose syncs take their time. In each, sixteen sessions create, copy, purge and destroy persistent keys,
each under identifiers of its own, with one worker or four, and while it runs the program is sent a signal that ends it
(SIGKILL, SIGTERM or SIGINT). As each worker makes the calls of its lines in their order, the keys of its sessions have to
be those after some of its first lines: the call that was under way has its key whole or not at all. A second run has to
tell exactly these keys, and leaves zeros in all cells that have none; open cells stay as they were. A run that ended before
it was sent the signal has made all calls. Of one that was stopped nobody saw a reply, so which of its calls were done by then
is not known here (`tests/crashes.py` knows it).

It prints how many runs were stopped, how many of them between their first call and their last, by which signals, and how
many left a closed cell that isn't zeros. The status is 1 where keys are others, or where no run was stopped in between.
"""

import collections
import os
import random
import signal
import subprocess
import sys
import tempfile
import time

sys.path.insert(0, os.path.join(os.path.dirname(os.path.realpath(__file__)), "reference"))

from program import program_of, require_same, run_script
from runs import Line, Run, text_of
from service import CELL_COUNT, PERSISTENT, Service
from store_file import OPEN, cell, cells_of_file

SESSIONS = range(1, 17)
IDENTIFIERS = {session: range(16 * session, 16 * session + 4) for session in SESSIONS}
LINES = 150
SIGNALS = (signal.SIGKILL, signal.SIGTERM, signal.SIGINT)


def line_at_random(chosen):
    session = chosen.choice(SESSIONS)
    identifier = lambda: chosen.choice(IDENTIFIERS[session])
    name, key = ("name", "k"), ("key", f"#{identifier():x}")
    place = {"usage": 3, "alg": chosen.choice((0, 0x04C01000)), "life": PERSISTENT, "id": identifier()}
    command = chosen.choice(("import", "import", "import", "copy", "destroy", "destroy", "purge"))
    if command == "import":
        data = chosen.randbytes(chosen.choice((1, 16, 500, 1024)))
        return Line(session, command, [name], place | {"type": 0x1001, "data": data})
    return Line(session, command, [name, key], place) if command == "copy" else Line(session, command, [key], {})


def take_signals():
    """Has a process end by each of the signals, which a shell may have it ignore."""
    for number in SIGNALS[1:]:
        signal.signal(number, signal.SIG_DFL)


def service_with(keys):
    return Service([*keys, *[None] * (CELL_COUNT - len(keys))])


def keys_after(lines, keys, cells):
    """The keys whose cells these are, after first lines of these on other keys; and after how many at least and at most."""
    run, found = Run(service_with(keys)), []
    for count in range(len(lines) + 1):
        if {cell(key) for key in run.service.keys.values()} == cells:
            found.append(([*run.service.keys.values()], count))
        if count < len(lines):
            run.make(lines[count])
    if not found:
        raise ValueError("no first calls leave these keys")
    return found[-1][0], found[0][1], found[-1][1]


def telling(keys):
    """A script that tells all keys, and is answered as where there are these."""
    run = Run(service_with(keys))
    for session in SESSIONS:
        for identifier in IDENTIFIERS[session]:
            for command in ("attributes", "export"):
                run.make(Line(session, command, [("key", f"#{identifier:x}")], {}))
    return run


class Rounds:
    """A store, its keys, and what was seen of the runs on it."""

    def __init__(self, program, folder, number):
        self.program, self.store, self.script = program, os.path.join(folder, "store"), os.path.join(folder, "script")
        self.chosen = random.Random(number)
        self.keys, self.inside, self.stopped, self.torn = [], collections.Counter(), 0, 0
        self.seconds = 0.1  # at most, from the file's first change on until a run is stopped
        run_script(program, self.store, "")

    def ends(self, lines, workers, number):
        """Whether a run ends before it is sent a signal, some time after its start or, mostly, its file's first change."""
        with open(self.script, "w") as file:
            file.write(text_of(lines))
        words, changed = [self.program, self.store, "run", "--workers", str(workers)], os.stat(self.store).st_mtime_ns
        waits = self.chosen.random() < 0.8
        how = {"stdout": subprocess.DEVNULL, "preexec_fn": take_signals}
        with open(self.script) as script, subprocess.Popen(words, stdin=script, **how) as ran:
            while waits and ran.poll() is None and os.stat(self.store).st_mtime_ns == changed:
                time.sleep(0.0002)
            try:
                ran.wait(self.chosen.uniform(0, self.seconds))
            except subprocess.TimeoutExpired:
                ran.send_signal(number)
        if ran.returncode == -number:
            return False
        if ran.returncode:
            raise ValueError(f"status {ran.returncode}")
        return True

    def round(self):
        workers, lines = self.chosen.choice((1, 4)), [line_at_random(self.chosen) for _ in range(LINES)]
        number = SIGNALS[self.stopped % len(SIGNALS)]
        has_ended = self.ends(lines, workers, number)
        left = [bytes_of_cell for bytes_of_cell in cells_of_file(self.store) if any(bytes_of_cell)]
        is_open = {bytes_of_cell for bytes_of_cell in left if bytes_of_cell[0] == OPEN}
        keys, least, most = [], 0, 0
        for worker in range(workers):
            own = lambda identifier: identifier // 16 % workers == worker
            cells = {one for one in is_open if own(int.from_bytes(one[4:8], "little"))}
            first = [key for key in self.keys if own(key.identifier)]
            then, *counts = keys_after([line for line in lines if line.session % workers == worker], first, cells)
            keys, least, most = keys + then, least + counts[0], most + counts[1]
        if has_ended and most < LINES:
            raise ValueError(f"only {most} of {LINES} calls count")
        told = telling(keys)
        require_same(run_script(self.program, self.store, text_of(told.lines)), told.replies())
        if sorted(filter(any, cells_of_file(self.store))) != sorted(is_open):
            raise ValueError("cells are not those of the keys, and zeros")
        self.keys = keys
        # towards signals in between, however fast program and disk are
        self.seconds *= 0.8 if has_ended else 1.1
        self.stopped += not has_ended
        self.inside[number.name] += 0 < least and most < LINES
        self.torn += len(left) > len(is_open)


def main():
    stops, first = (int(word) for word in (*sys.argv[2:], *("60", "1")[len(sys.argv[2:]) :]))
    with tempfile.TemporaryDirectory() as folder:
        trial, number = Rounds(program_of(sys.argv), folder, first), 0
        while trial.stopped < stops and number < 10 * stops:
            number += 1
            try:
                trial.round()
            except ValueError as difference:
                print(f"stopped: round {number}: {difference}")
                return 1
    inside = ", ".join(f"{count} by {name}" for name, count in trial.inside.most_common())
    torn = f"{trial.torn} with a cell that is closed and not zeros"
    print(f"stopped: {trial.stopped} of {number} runs, {trial.inside.total()} in between ({inside}), {torn}")
    return 0 if trial.inside.total() else 1


if __name__ == "__main__":
    sys.exit(main())
