#!/usr/bin/env -S python3 -B
"""Compares what the program makes of policies at random with what the reference says.

    tests/policies.py PROGRAM FIRST POLICIES

makes keys with so many policies at random, from the random numbers of seed FIRST. Each is asked for, copied under another
policy, and used, and so is its copy, by the algorithms that their numbers name or are near to. The replies have to be
those of the reference. It ends with status 1 where they weren't, and prints how many calls there were, and how many of
each status.
"""

import collections
import os
import random
import sys

sys.path.insert(0, os.path.join(os.path.dirname(os.path.realpath(__file__)), "reference"))

import algorithms as alg
from program import require_same, run_script, scratch
from runs import Line, text_of
from scripts import KEYS, STRANGE, Script
from service import Service

MOST_LINES = 20000
LINES_OF_A_POLICY = 24  # and no more
USAGES = (0xFF07, 0x703, 0xF02, 0x4002, 0x302, 0x3003, 2, 0x10002)
LENGTHS = {0x1100: (1, 64, 65, 200), 0x2400: (16, 24, 32), 0x1200: (22,), 0x1203: (8,)}


class Policies(Script):
    """A script of keys with policies at random."""

    def number(self, numbers):
        """A number in a policy: mostly one of these or near to it, or none."""
        return self.often([0, *(self.variant(number) for number in 3 * numbers)], [*STRANGE, self.any_number()], 0.85)

    def near(self, number):
        """A number that one in a policy may permit, or may have a meet with."""
        return self.often([number, self.variant(number)], [self.any_number(), 0], 0.85)

    def give(self, session):
        """Makes a key with a policy, and a copy of it, and what they are used for."""
        pick, line = self.random.choice, lambda command, *words, **fields: Line(session, command, [*words], fields)
        key_type, likely = pick(KEYS)
        stated = {"usage": pick(USAGES), "alg": self.number(likely), "alg2": self.number(likely)}
        asked = {"usage": pick(USAGES), "alg": self.near(stated["alg"]), "alg2": self.near(stated["alg2"])}
        for fields in (stated, asked):
            if not fields["alg2"] and pick((True, False)):
                del fields["alg2"]
        numbers = [stated["alg"], stated.get("alg2", 0), asked["alg"]]
        data = self.random.randbytes(pick(LENGTHS[key_type]))
        self.make(line("import", ("name", "k"), type=key_type, **stated, data=data))
        self.make(line("copy", ("name", "c"), ("key", "$k"), **asked))
        for name in ("$k", "$c"):
            key = ("key", name)
            self.make(line("attributes", key))
            for used in {self.near(number) for number in numbers}:
                for call in self.uses(line, key, used):
                    self.make(call)
            self.make(line("destroy", key))

    def uses(self, line, key, number):
        """Calls that use a key by a number."""
        kind, encrypts = alg.class_of(number), self.random.choice((True, False))
        if kind == "mac":
            return [line("mac_compute", key, alg=number, data=b"what")]
        if kind == "aead":
            return [line("aead_encrypt", key, alg=number, nonce=bytes(12), data=b"why")]
        if kind == "derivation":
            step = 0x101 if number & ~0xFF == alg.HKDF else 0x102
            setup = line("kdf_setup", ("handle", "1"), alg=number)
            return [setup, line("kdf_input_key", ("handle", "1"), key, step=step), line("abort", ("handle", "1"))]
        return [line("cipher_encrypt" if encrypts else "cipher_decrypt", key, alg=number, data=bytes(32))]


def main():
    program, first, count = sys.argv[1], *map(int, sys.argv[2:])
    statuses, given, differs, source = collections.Counter(), 0, False, random.Random(first)
    with scratch() as folder:
        while given < count and not differs:
            script = Policies(source, Service())
            while given < count and len(script.run.lines) + LINES_OF_A_POLICY <= MOST_LINES:
                script.give(given % 16 + 1)
                given += 1
            replies = script.run.replies()
            statuses.update(reply.split()[2] for reply in replies)
            try:
                require_same(run_script(program, os.path.join(folder, "store"), text_of(script.run.lines)), replies)
            except ValueError as difference:
                print(f"policies up to {given}: {difference}")
                differs = True
    counts = ", ".join(f"{status} {number}" for status, number in statuses.most_common())
    print(f"{given} policies, {sum(statuses.values())} calls: {counts}")
    return 1 if differs else 0


if __name__ == "__main__":
    sys.exit(main())
