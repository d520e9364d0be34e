#!/usr/bin/env -S python3 -B
"""Compares what the program prints for scripts at random with what the reference says.

    compare.py PROGRAM FIRST STORES RUNS LINES

makes STORES stores, from the numbers FIRST and on, and runs RUNS scripts of LINES lines on each, one after the other, by
words that are chosen at random too. With one worker the replies have to be those of the lines' order, with several those
of the order that the ranks say. After each run the store's file has to be the reference's, byte for byte. Every fourth
store is almost full after the first script, in which each session then has all the keys in memory that it may have. It ends
with status 1 where a script was answered otherwise, and prints how many calls there were, and how many of each status.
"""

import collections
import os
import random
import sys

from program import Options, require_same, run_script, scratch
from runs import replayed, text_of
from scripts import Mix, Script
from service import CELL_COUNT, Service
from store_file import require_file

USUAL = Mix()
MANY_KEYS = Mix(creations=0.3, persistent=0.1)
FULL = Mix(identifiers=tuple(range(1, 4 * CELL_COUNT)), by_identifier=0.5, persistent=0.6)
MIXES = (USUAL, USUAL, MANY_KEYS, FULL)


class Comparison:
    """The scripts that run on one store."""

    def __init__(self, program, store, number):
        self.program, self.store, self.random = program, store, random.Random(number)
        self.mix = MIXES[number % len(MIXES)]
        self.cells = Service().cells
        self.statuses = collections.Counter()

    def run(self, count):
        """Runs a script of so many lines. A ValueError says what differs."""
        options = Options(self.random)
        opened = lambda: Service(self.cells, options.seed, options.rules)
        script = Script(self.random, opened(), self.mix)
        if self.mix is FULL and not any(self.cells):
            script.fill(CELL_COUNT - self.random.randrange(4))
            script.crowd()
        script.write(len(script.run.lines) + count)
        run, printed = script.run, run_script(self.program, self.store, text_of(script.run.lines), options.words)
        if options.workers > 1:
            run = replayed(script.run.lines, printed, opened())
        self.statuses.update(reply.split()[2] for reply in run.replies())
        require_same(printed, run.replies())
        self.cells = run.service.cells
        require_file(self.store, self.cells)


def main():
    program, first, stores, runs, count = sys.argv[1], *map(int, sys.argv[2:])
    statuses, differs = collections.Counter(), False
    with scratch() as folder:
        for number in range(first, first + stores):
            comparison = Comparison(program, os.path.join(folder, f"store{number}"), number)
            for turn in range(1, runs + 1):
                try:
                    comparison.run(count)
                except ValueError as difference:
                    print(f"store {number}, script {turn}: {difference}")
                    differs = True
                    break
            statuses += comparison.statuses
    print(f"{sum(statuses.values())} calls: {', '.join(f'{status} {count}' for status, count in statuses.most_common())}")
    return 1 if differs else 0


if __name__ == "__main__":
    sys.exit(main())
