#!/usr/bin/env -S python3 -B
"""Compares what sessions of several owners are told with what a store tells them that only their owner uses.

    tests/owners.py [PROGRAM [CALLS [FIRST]]]

makes scripts at random, from the number FIRST (1) and on, until at least CALLS calls (20,000) were made by 4 workers. The
program is ./psa where none is named. In a script sixteen sessions of five owners create, copy, use, purge and destroy keys,
of which all owners name some by the same identifiers; in every second script one owner comes to its quota. Each script runs
with 4, 16 and 1 workers, one run after the other on one store.

Made on the reference with owners in the order of the ranks, the calls have to have every reply that was printed, and the
store's file has to be the reference's afterwards. Then the calls of each owner alone, in that order, run over a store of
which nobody else has ever made a call, and its sessions have to have the same replies but for the ranks. A line tells how
many calls there were, and how many had each status. The status is 1 where a run differs.
"""

import collections
import itertools
import os
import random
import re
import sys

sys.path.insert(0, os.path.join(os.path.dirname(os.path.realpath(__file__)), "reference"))

from owners import OwnedService
from program import program_of, require_same, run_script, scratch
from runs import by_rank, replayed, text_of
from scripts import Mix, Script
from service import PERSISTENT
from store_file import require_file

OWNERS = (0, 1, 2, 7, 15)
SHARED = Mix(
    sessions=tuple(range(1, 17)),
    identifiers=(*range(1, 17), 0x3FFFFFF, 0x4000000, 0x4000007, 0x3FFFFFFF),
    persistent=0.6,
    in_element=0.15,
    by_identifier=0.6,
    creations=0.14,
    key_calls=0.14,
    operations=32,
    lengths=(0, 1, 15, 16, 17),
    strange_costs=(0, 100001),
)
LINES = 2000
WORKERS = (4, 4, 4, 16, 1)


def owner_lines(owners):
    """The lines that give sessions their owners. Those of owner 0 may be left out."""
    return "".join(f"{session} owner {owner}\n" for session, owner in owners.items())


def fill(script, owners, owner):
    """Writes creations of persistent keys by sessions of an owner until it has come to its quota."""
    own = [session for session in range(1, 17) if owners.get(session, 0) == owner]
    for identifier in itertools.count(1):
        place = {"life": PERSISTENT, "id": identifier}
        if not own or script.make(script.creation(script.random.choice(own), place)) == "INSUFFICIENT_STORAGE":
            return


def without_rank(reply):
    return re.sub(" @[0-9]+", "", reply, count=1)


class Stores:
    """The store that all owners use, and one for each that nobody else does."""

    def __init__(self, program, folder, owners):
        self.program, self.owners = program, owners
        self.shared = os.path.join(folder, "shared")
        self.own = {owner: os.path.join(folder, f"own{owner}") for owner in OWNERS}
        self.cells = OwnedService(owners).cells

    def owner(self, session):
        return self.owners.get(session, 0)

    def run(self, lines, workers):
        """Runs a script on the shared store, and each owner's calls of it on the owner's. A ValueError says what differs."""
        options = ["--workers", str(workers)]
        printed = run_script(self.program, self.shared, owner_lines(self.owners) + text_of(lines), options)
        run = replayed(lines, printed, OwnedService(self.owners, self.cells))
        require_same(printed, run.replies())
        self.cells = run.service.cells
        require_file(self.shared, self.cells)
        for owner in OWNERS:
            self.compare(owner, by_rank(lines, printed), printed)
        return run

    def compare(self, owner, order, printed):
        own = [line for line in order if self.owner(line.session) == owner]
        alone = run_script(self.program, self.own[owner], owner_lines(self.owners) + text_of(own))
        told = [reply for reply in printed if self.owner(int(reply.split(".")[0])) == owner]
        require_same([without_rank(reply) for reply in told], [without_rank(reply) for reply in alone])


def main():
    program = program_of(sys.argv)
    wanted, first = (int(word) for word in (*sys.argv[2:], *("20000", "1")[len(sys.argv[2:]) :]))
    statuses, by_four = collections.Counter(), 0
    for number in itertools.count(first):
        chance = random.Random(number)
        owners = {session: chance.choice(OWNERS) for session in range(1, 17)}
        owners = {session: owner for session, owner in owners.items() if owner or chance.random() < 0.5}
        script = Script(chance, OwnedService(owners), SHARED)
        if number % 2:
            fill(script, owners, chance.choice(OWNERS))
        script.write(LINES)
        with scratch() as folder:
            stores = Stores(program, folder, owners)
            for workers in WORKERS:
                try:
                    run = stores.run(script.run.lines, workers)
                except ValueError as difference:
                    print(f"script {number}, {workers} workers: {difference}")
                    return 1
                statuses.update(reply.split()[2] for reply in run.replies())
                by_four += len(run.lines) if workers == 4 else 0
        if by_four >= wanted:
            print(f"{statuses.total()} calls, {by_four} by 4 workers: {', '.join(f'{status} {count}' for status, count in statuses.most_common())}")
            return 0


if __name__ == "__main__":
    sys.exit(main())
