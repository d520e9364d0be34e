#!/usr/bin/env -S python3 -B
"""Opens what crashes may leave of a store's file, by the calls that the program really made of it.

    tests/crashes.py [PROGRAM [IMAGES [FIRST]]]    at least IMAGES (1,000), of scripts by numbers at random from FIRST (1) on

The program is ./psa where none is named; it has to be one process, as the proved program is. A script creates, copies,
purges and destroys persistent keys by one worker, on the store that the script before it left, after bytes were put behind
the closed gates of some cells, as a creation or a destruction that was interrupted leaves them. Its run is traced: strace
tells each write of the file, with its bytes, and each sync. At each of these calls a crash may leave none of the writes
since the last sync, all of them, or each alone; and of the last one its first half, or any bytes in its place (of a file
that was to be longer any length between, and any bytes behind its old end). Each such image is put into a file, and a run
on that has to tell the keys after the calls that were done by then or, within a call that changes the file, those after
that one. It leaves exactly the cells of these keys, and zeros. First a store is made so, each image of which is none yet,
or has no key.

It prints how many scripts, calls of the file and images there were, each image once. The status is 1 where keys are others.
Where there is no strace nothing is tried.
"""

import itertools
import os
import random
import shutil
import subprocess
import sys

sys.path.insert(0, os.path.join(os.path.dirname(os.path.realpath(__file__)), "reference"))

from file_calls import calls_of_file, images_of, run_traced
from program import program_of, require_same, scratch
from runs import run_with_changes, text_of
from service import Service
from stopped import line_at_random, telling
from store_file import CELL_LENGTH, image, place_of, require_file

LINES, LEFT_OVER = 120, 3  # so many closed cells at most have bytes at first
CALLS_OF_A_CHANGE = 4  # a write and a sync, of the body and of the gate


class Script:
    """A script, and the keys in the cells after each of its changes of the file."""

    def __init__(self, lines, cells):
        self.lines = lines
        run, self.states = run_with_changes(lines, Service(cells))
        self.replies, self.told = run.replies(), {}

    def telling(self, number):
        """What a run tells of all keys after so many changes."""
        if number not in self.told:
            self.told[number] = telling([key for key in self.states[number] if key])
        return self.told[number]


class Trial:
    """The program, a store, and what was seen of the runs on it."""

    def __init__(self, program, folder, first):
        self.program, self.folder, self.chosen = program, folder, random.Random(first)
        self.store, self.crashed = os.path.join(folder, "store"), os.path.join(folder, "crashed")
        self.cells, self.calls, self.images = Service().cells, 0, set()  # the images by their hashes

    def traced(self, script):
        """The calls of the file that a script's run makes."""
        log = os.path.join(self.folder, "log")
        ran = run_traced(self.program, self.store, text_of(script.lines), log)
        if ran.returncode or ran.stderr:
            raise ValueError(f"status {ran.returncode} {ran.stderr[:200]}")
        require_same(ran.stdout.splitlines(), script.replies)
        return list(calls_of_file(log))

    def told(self, content, script):
        """What a run on an image tells of all keys, or None where it is no store."""
        with open(self.crashed, "wb") as file:
            file.write(content)
        self.images.add(hash(content))
        words, text = [self.program, self.crashed, "run"], text_of(script.telling(0).lines)
        ran = subprocess.run(words, input=text, capture_output=True, text=True)
        if (ran.returncode, ran.stderr) == (5, "not a store\n"):
            return None
        if ran.returncode or ran.stderr:
            raise ValueError(f"status {ran.returncode} {ran.stderr[:200]}")
        return ran.stdout.splitlines()

    def open_image(self, content, script, numbers):
        """A run on an image has to tell the keys after one of these numbers of changes."""
        printed = self.told(content, script)
        for number in numbers:
            if printed == script.telling(number).replies():
                return require_file(self.crashed, script.states[number])
        raise ValueError(f"the keys are those after none of {[*numbers]} changes")

    def leave_bytes(self):
        """Puts bytes behind the gates of some closed cells, and gives of how many."""
        closed = [number for number, key in enumerate(self.cells) if key is None]
        chosen = self.chosen.sample(closed, self.chosen.randrange(LEFT_OVER + 1))
        with open(self.store, "r+b") as file:
            for number in chosen:
                file.seek(place_of(number) + 1)
                file.write(self.chosen.randbytes(CELL_LENGTH - 1))
        return len(chosen)

    def content(self):
        with open(self.store, "rb") as file:
            return file.read()

    def try_making(self):
        """Images within the making of a store."""
        with open(self.store, "wb"):
            pass
        script = Script([], self.cells)
        calls = self.traced(script)
        for _, content in images_of(calls, b"", self.chosen):
            printed = self.told(content, script)
            if printed is not None and printed != script.telling(0).replies():
                raise ValueError("a store that is made has keys")
        self.calls += len(calls)

    def try_script(self):
        """Images within a script at random."""
        script, left = Script([line_at_random(self.chosen) for _ in range(LINES)], self.cells), self.leave_bytes()
        synced = self.content()
        calls, changes = self.traced(script), len(script.states) - 1
        of_opening = len(calls) - CALLS_OF_A_CHANGE * changes
        if of_opening < 0 or of_opening - calls[:of_opening].count(None) != left:
            raise ValueError(f"{len(calls)} calls of the file for {left} cells with bytes and {changes} changes")
        for count, content in images_of(calls, synced, self.chosen):
            done, within = divmod(max(count - of_opening, 0), CALLS_OF_A_CHANGE)
            self.open_image(content, script, range(done, done + 1 + (within > 0)))
        self.cells, self.calls = script.states[-1], self.calls + len(calls)
        if self.content() != image(self.cells):
            raise ValueError("the file is another one")


def main():
    program = program_of(sys.argv)
    wanted, first = (int(word) for word in (*sys.argv[2:], *("1000", "1")[len(sys.argv[2:]) :]))
    if not shutil.which("strace"):
        print("crashes: there is no strace, so nothing was tried")
        return 0
    with scratch() as folder:
        trial = Trial(program, folder, first)
        for number in itertools.count():
            try:
                trial.try_script() if number else trial.try_making()
            except ValueError as difference:
                print(f"crashes: script {number}: {difference}")
                return 1
            if len(trial.images) >= wanted:
                print(f"crashes: {number} scripts, {trial.calls} calls of the file, {len(trial.images)} images")
                return 0


if __name__ == "__main__":
    sys.exit(main())
