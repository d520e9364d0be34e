#!/usr/bin/env -S python3 -B
"""Replays what the program prints for sessions that share keys, in the order of the printed ranks.

    tests/concurrent.py [PROGRAM [CALLS [FIRST]]]

makes scripts at random, from the number FIRST (1) and on, until at least CALLS calls (100,000) were made. The program is
./psa where none is named. In a script sixteen sessions create, copy, use, purge and destroy keys that most of them name:
persistent ones of a few identifiers, those of the secure element, and each other's volatile ones; operations go on with
keys that others destroy meanwhile. Each script runs with 1, 2, 4 and 16 workers, one run after the other on one store.

The ranks of a run have to be 0 to n - 1, each once, and to rise in each session. Made on the reference in that order, the
calls have to have every reply that was printed, and the store's file has to be the reference's afterwards. With one worker
the order is that of the lines. For each number of workers a line tells how many calls there were, and how many of them
came next after a call of another worker; for all calls, how many had each status. The status is 1 where a run differs.
"""

import collections
import itertools
import os
import random
import sys

sys.path.insert(0, os.path.join(os.path.dirname(os.path.realpath(__file__)), "reference"))

from program import program_of, require_same, run_script, scratch
from runs import replayed, text_of
from scripts import Mix, Script
from service import Service
from store_file import require_file

# Short texts: the reference is not fast, and the turns matter here.
SHARED = Mix(
    sessions=(1, 1, 1, 1, *range(1, 17)),  # so that one comes to its limit of keys
    identifiers=tuple(range(1, 17)),
    persistent=0.6,
    in_element=0.15,
    by_identifier=0.6,
    creations=0.14,
    key_calls=0.14,
    operations=32,
    lengths=(0, 1, 15, 16, 17),
    strange_costs=(0, 100001),
)
LINES = 4000
WORKERS = (1, 2, 4, 16)


class Tally:
    """What was seen of the runs so far."""

    def __init__(self):
        self.calls, self.taken_over, self.statuses = collections.Counter(), collections.Counter(), collections.Counter()

    def add(self, workers, run):
        self.calls[workers] += len(run.lines)
        worker = [line.session % workers for line in run.lines]
        self.taken_over[workers] += sum(before != after for before, after in itertools.pairwise(worker))
        self.statuses.update(reply.split()[2] for reply in run.replies())

    def tell(self):
        for workers in WORKERS:
            print(f"{workers} workers: {self.calls[workers]} calls, {self.taken_over[workers]} after one of another worker")
        print(f"statuses: {', '.join(f'{status} {count}' for status, count in self.statuses.most_common())}")


def run_replayed(program, store, lines, workers, service):
    """Runs a script, and its calls on a service in the order of the ranks. A ValueError says what differs."""
    printed = run_script(program, store, text_of(lines), ["--workers", str(workers)])
    run = replayed(lines, printed, service)
    require_same(printed, run.replies())
    if workers == 1 and run.lines != lines:
        raise ValueError("the order is another one than the lines'")
    require_file(store, service.cells)
    return run


def main():
    program = program_of(sys.argv)
    wanted, first = (int(word) for word in (*sys.argv[2:], *("100000", "1")[len(sys.argv[2:]) :]))
    tally = Tally()
    with scratch() as folder:
        for number in itertools.count(first):
            script = Script(random.Random(number), Service(), SHARED)
            script.write(LINES)
            service = Service()
            for workers in WORKERS:
                try:
                    run = run_replayed(program, os.path.join(folder, str(number)), script.run.lines, workers, service)
                except ValueError as difference:
                    print(f"script {number}, {workers} workers: {difference}")
                    return 1
                tally.add(workers, run)
                service = Service(service.cells)
            if tally.calls.total() >= wanted:
                tally.tell()
                return 0


if __name__ == "__main__":
    sys.exit(main())
