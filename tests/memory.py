#!/usr/bin/env -S python3 -B
"""Refuses the program memory once in a run, at each place where it asks for some.

    tests/memory.py [PROGRAM]    the program is ./psa where none is named; it has to be one process, as the proved one is

A command runs with its first call for memory refused, then with its second, and so on until it makes no further one. Each
run ends with status 7, `out of memory` and a beginning of the output, or as it does where nothing is refused. Its store then
has the keys after some first calls of the script (with several workers, each key whole), or after all of them, and nothing
else in its cells; a store that was to be made may also be none yet. The commands are a script at random with 1 and with 16
workers, on a new store and on one with keys, the generator, and an empty script on a store of the older layout with bytes
behind its cells, which the run makes larger.

./check doesn't run this: it takes a C compiler, and minutes. It prints how many calls were refused, and how many of these
runs ended with status 7. The status is 1 where one ended otherwise.
"""

import os
import random
import subprocess
import sys

sys.path.insert(0, os.path.join(os.path.dirname(os.path.realpath(__file__)), "reference"))

from program import program_of, require_same, scratch
from runs import replayed, run_with_changes, text_of
from scripts import Mix, Script
from service import Service
from store_file import OLDER_COUNT, cell, cells_of_file, image, key_of, older_image

HERE = os.path.dirname(os.path.realpath(__file__))
LINES, MISSES = 200, 8  # after so many numbers in a row of calls that don't come there is none
MIX = Mix(sessions=tuple(range(1, 17)), identifiers=tuple(range(1, 17)), persistent=0.6, creations=0.25, operations=32)
OUT_OF_MEMORY = "out of memory\n"


class Command:
    """A command, what its store and its file have at first, and the calls that it makes, if the test knows them."""

    def __init__(self, name, words, cells=None, lines=(), content=None):
        self.name, self.words, self.cells, self.lines = name, words, cells, lines
        self.content = content or (image(cells) if cells else b"")
        self.is_in_order = words[-1] == "1" or not lines
        run, self.states = run_with_changes(lines, self.service())
        self.replies = run.replies()
        self.known = {cell(key) for state in self.states for key in state}

    def service(self):
        return Service(self.cells) if self.cells else Service()

    def require_end(self, status, printed, cells):
        """The output is a beginning of the replies, or all of them, in the order of the lines or of the ranks; and so the cells."""
        if status:
            wanted = self.replies if self.is_in_order else []
            require_same(printed, wanted[: len(printed)])
            states = self.states
        elif self.is_in_order:
            require_same(printed, self.replies)
            states = self.states[-1:]
        else:
            run = replayed(self.lines, printed, self.service())
            require_same(printed, run.replies())
            states = [run.service.cells]
        if status and not self.is_in_order:
            # a copy has another key's bytes, which depend on the order
            if not all(bytes_of_cell in self.known or key_of(bytes_of_cell) for bytes_of_cell in cells):
                raise ValueError("a cell is neither a key's nor zeros")
        elif not any(cells == [*map(cell, state)] for state in states):
            raise ValueError("the keys are those after none of the first calls")


class Trial:
    """The program, with calls for memory refused, and a store."""

    def __init__(self, program, folder):
        self.program, self.store, self.library = program, os.path.join(folder, "store"), os.path.join(folder, "refusing.so")
        words = ["cc", "-O2", "-shared", "-fPIC", "-o", self.library, os.path.join(HERE, "refusing_malloc.c")]
        subprocess.run(words, check=True)
        self.refused = self.ended = 0

    def run(self, command, number):
        """Whether that call for memory came, and how the command ended."""
        if command.content:
            with open(self.store, "wb") as file:
                file.write(command.content)
        elif os.path.exists(self.store):
            os.unlink(self.store)
        told, tells = os.pipe()
        words, calls = [self.program, self.store, *command.words], {"LD_PRELOAD": self.library}
        calls |= {"REFUSED_CALL": str(number), "REFUSAL_TOLD": str(tells)}
        how = {"capture_output": True, "text": True, "pass_fds": [tells], "env": os.environ | calls}
        ran = subprocess.run(words, input=text_of(command.lines), **how)
        os.close(tells)
        with os.fdopen(told, "rb") as pipe:
            return pipe.read() != b"", ran

    def cells(self, command, status):
        """What a run afterwards leaves in the cells. A store that was to be made is none yet only where memory ran out."""
        length = os.path.getsize(self.store) if os.path.exists(self.store) else 0
        with open(os.devnull) as nothing:
            ran = subprocess.run([self.program, self.store, "run"], stdin=nothing, capture_output=True, text=True)
        is_unmade = status and not command.cells and (not length or (ran.returncode, ran.stderr) == (5, "not a store\n"))
        if is_unmade:
            return [*map(cell, command.service().cells)]
        if ran.returncode or not length:
            raise ValueError(f"a run afterwards ends with status {ran.returncode} {ran.stderr[:200]}")
        return cells_of_file(self.store)

    def try_call(self, command, number, wanted):
        """Whether a call for memory came, and was refused; the run then ended in one of the two ways."""
        came, ran = self.run(command, number)
        ends = ((0, ""), (7, OUT_OF_MEMORY)) if came else ((0, ""),)
        if (ran.returncode, ran.stderr) not in ends:
            raise ValueError(f"status {ran.returncode} {ran.stderr[:200]}")
        printed = ran.stdout.splitlines()
        if not command.lines:
            require_same(printed, wanted[: len(printed)] if ran.returncode else wanted)
        command.require_end(ran.returncode, printed if command.lines else [], self.cells(command, ran.returncode))
        self.refused += came
        self.ended += ran.returncode == 7
        return came

    def try_command(self, command):
        wanted, number, missed = self.run(command, -1)[1].stdout.splitlines(), 0, 0
        while missed < MISSES:
            missed = 0 if self.try_call(command, number, wanted) else missed + 1
            number += 1
        print(f"memory: {command.name}: {number - missed} calls")


def commands():
    for name, count in (("a new store", 0), ("a store with keys", 300)):
        service = Service()
        if count:
            before = Script(random.Random(1), service, MIX)
            before.write(count)
            service = Service(service.cells)
        cells = list(service.cells) if count else None
        script = Script(random.Random(2), service, MIX)
        script.write(LINES)
        for workers in ("1", "16"):
            words = ["run", "--seed", "0" * 64, "--workers", workers]
            yield Command(f"{name}, {workers} workers", words, cells, script.run.lines)
    older = older_image(cells[:OLDER_COUNT], b"\xa5" * 100_000)
    yield Command("an older store", ["run", "--workers", "1"], cells, content=older)
    yield Command("the generator", ["generate", "200"])


def main():
    with scratch() as folder:
        trial = Trial(program_of(sys.argv), folder)
        for command in commands():
            try:
                trial.try_command(command)
            except ValueError as difference:
                print(f"memory: {command.name}: {difference}")
                return 1
    print(f"memory: {trial.refused} calls for memory refused, one in each run; {trial.ended} runs ended with status 7")
    return 0


if __name__ == "__main__":
    sys.exit(main())
