#!/usr/bin/env -S python3 -B
"""Disturbs runs of the program: their store's disk is full, or another process cuts the store's file off meanwhile.

    tests/disturbed.py [PROGRAM]    the program is ./psa where none is named; it has to be one process

A full disk is a file system in memory that takes fewer keys than a script makes. The creations that find no room are
STORAGE_FAILURE, and all that come after the first; the other keys are told. A second run has these, or ends with status 6
and leaves the file; once there is room a run has them, and makes one more. Where no file system can be mounted, as by
another user than root, none of this is tried, and a line says so.

A file that is cut off within a run, at some place that has been written: each call is answered all the same. A key whose
cell was cut is STORAGE_FAILURE or DATA_CORRUPT where it has to be read of the file again, and no other is; but where the cut
is within the key's own bytes, it has zeros from there on, since a record has no checksum. The file is then none of a store,
by its length. Made as long as it was, it has all keys but those that were cut, once cells are closed that are open without
a whole body, which an opening refuses by their numbers.

The status is 1 where the program answered otherwise.
"""

import itertools
import os
import random
import subprocess
import sys
import tempfile
import time

sys.path.insert(0, os.path.join(os.path.dirname(os.path.realpath(__file__)), "reference"))

from program import program_of
from store_file import KEY_AT, OPEN, STORE_LENGTH, place_of

KEY_LENGTH = 1000  # of each key here
NO_STORE = 5, [], "not a store\n"


def bytes_of(identifier):
    """What a key has, by its identifier."""
    return random.Random(identifier).randbytes(KEY_LENGTH)


def creation(identifier):
    return f"1 import k life=1 id={identifier:x} type=1001 usage=1 alg=0 data={bytes_of(identifier).hex()}\n"


def made(identifier):
    return f"SUCCESS {identifier:08x}"


def told(identifier):
    return f"SUCCESS {bytes_of(identifier).hex()}"


def answered(status, out, err):
    """Status, replies without their places, and the line on standard error."""
    return status, [line.split(" ", 2)[2] for line in out.splitlines()], err


class Trial:
    """The program, and a store that it opens."""

    def __init__(self, program, store):
        self.program, self.store = program, store

    def run(self, script):
        ran = subprocess.run([self.program, self.store, "run"], input=script, capture_output=True, text=True)
        return answered(ran.returncode, ran.stdout, ran.stderr)

    def content(self):
        with open(self.store, "rb") as file:
            return file.read()


def require(holds, what):
    if not holds:
        raise ValueError(what)


def require_run(said, replies):
    """A run has to end well, with these replies; a set of them permits each of its members."""
    status, out, err = said
    require((status, err) == (0, ""), f"status {status} {err[:200]}")
    require(len(out) == len(replies), f"{len(out)} replies and not {len(replies)}")
    for number, (reply, wanted) in enumerate(zip(out, replies), 1):
        permitted = wanted if isinstance(wanted, set) else {wanted}
        require(reply in permitted, f"reply {number} is {reply[:60]} and not {' or '.join(it[:60] for it in permitted)}")


# A full disk

KEYS_OF_DISK = 200


class SmallDisk:
    """A file system of so many KiB in memory, where it can be mounted."""

    def __init__(self, folder, size):
        self.folder = folder
        self.is_there = self.mounts(f"size={size}k")

    def mounts(self, options):
        words = ["mount", "-t", "tmpfs", "-o", options, "tmpfs", self.folder]
        return subprocess.run(words, capture_output=True).returncode == 0

    def grow(self, size):
        require(self.mounts(f"remount,size={size}k"), "a file system in memory doesn't grow")

    def __enter__(self):
        return self

    def __exit__(self, *failure):
        if self.is_there:
            subprocess.run(["umount", self.folder], check=True)


def try_full_disk(program, folder):
    """Whether a full disk could be tried."""
    with SmallDisk(folder, 96) as disk:
        if not disk.is_there:
            return False
        trial, keys = Trial(program, os.path.join(folder, "store")), range(1, KEYS_OF_DISK + 1)
        script = "".join(map(creation, keys))
        first = trial.run(script + "".join(f"1 export #{key:x}\n" for key in keys))
        count = sum(reply.startswith("SUCCESS 0") and len(reply) == len(made(1)) for reply in first[1][:KEYS_OF_DISK])
        require(0 < count < KEYS_OF_DISK, f"{count} keys of {KEYS_OF_DISK} find room")
        there = keys[:count]
        replies = [made(key) if key in there else "STORAGE_FAILURE" for key in keys]
        require_run(first, replies + [told(key) if key in there else "INVALID_HANDLE" for key in keys])
        exports, before = "".join(f"1 export #{key:x}\n" for key in keys), trial.content()
        second = trial.run(exports)
        if second != (6, [], "disk fault\n") or trial.content() != before:
            require_run(second, replies_of_exports(keys, there))
        disk.grow(2048)
        last = keys[count]
        require_run(trial.run(creation(last) + exports), [made(last), *replies_of_exports(keys, keys[: count + 1])])
        return True


def replies_of_exports(keys, there):
    return [told(key) if key in there else "INVALID_HANDLE" for key in keys]


# A file that is cut

KEYS_OF_CUT, ATTEMPTS = 120, 20
PARTS = (0, 1, KEY_AT + 100) * 2  # so many bytes are left of a cell that is cut: none, its gate, a part of its key
LOST = {"STORAGE_FAILURE", "DATA_CORRUPT"}


def has_open_cell(store, cell):
    with open(store, "rb") as file:
        file.seek(place_of(cell))
        return file.read(1) == bytes([OPEN])


def has_bytes_of(store, key):
    """Whether a key's own bytes stand in the cell that it was made in."""
    with open(store, "rb") as file:
        file.seek(place_of(key - 1) + KEY_AT)
        return file.read(KEY_LENGTH) == bytes_of(key)


def cut_within(trial, script, cell, length):
    """What a run answers whose store is cut to a length once a cell was opened; and whether some creations came after that:
    what had been written by then of the third last one is cut."""
    words = [trial.program, trial.store, "run"]
    with tempfile.TemporaryFile("w+") as text:
        text.write(script)
        text.seek(0)
        ran = subprocess.Popen(words, stdin=text, stdout=subprocess.PIPE, stderr=subprocess.PIPE, text=True)
        while ran.poll() is None and not has_open_cell(trial.store, cell):
            time.sleep(0.0005)
        os.truncate(trial.store, length)
        out, err = ran.communicate()
    return answered(ran.returncode, out, err), has_bytes_of(trial.store, KEYS_OF_CUT - 2)


def try_cut(program, store, part, chosen):
    """Whether the cut, which leaves such a part of a cell, came within a run's creations."""
    if os.path.exists(store):
        os.unlink(store)
    trial, keys = Trial(program, store), range(1, KEYS_OF_CUT + 1)
    require_run(trial.run(""), [])
    last = chosen.randrange(20, 50)  # once this cell is open, an earlier one is cut, of which a part is left
    cut = chosen.randrange(last)
    left = {key: told(key) for key in keys[:cut]}
    if part > KEY_AT:
        left[keys[cut]] = f"SUCCESS {bytes_of(keys[cut])[: part - KEY_AT].ljust(KEY_LENGTH, bytes(1)).hex()}"
    script = "".join(map(creation, keys)) + "".join(f"1 purge #{key:x}\n1 export #{key:x}\n" for key in keys)
    said, is_within = cut_within(trial, script, last, place_of(cut) + part)
    if not is_within:
        return False
    left[KEYS_OF_CUT] = told(KEYS_OF_CUT)
    exports = [{left[key]} if key in left else {told(key)} | LOST for key in keys]
    require_run(said, [*map(made, keys), *itertools.chain(*(("SUCCESS", reply) for reply in exports))])
    before = trial.content()
    require(trial.run("") == NO_STORE and trial.content() == before, "a file that was cut is opened")
    os.truncate(store, STORE_LENGTH)
    exported = dict(zip(keys, said[1][KEYS_OF_CUT + 1 :: 2]))
    lost = [key for key, reply in exported.items() if reply in LOST]
    first = min(key for key in keys if key not in left)
    require(lost == [*range(first, first + len(lost))], f"the lost keys are {lost}, and not from {first} on")
    require_left(trial, lost, ["INVALID_HANDLE" if key in lost else reply for key, reply in exported.items()])
    return True


def require_left(trial, lost, replies):
    """A run exports this of all keys, once cells of lost ones were closed that are open without a whole body."""
    exports = "".join(f"1 export #{key:x}\n" for key in range(1, KEYS_OF_CUT + 1))
    damages = [(5, [], f"damaged cell {key - 1}\n") for key in lost]
    while (said := trial.run(exports)) in damages:
        damaged = lost[damages.index(said)] - 1
        with open(trial.store, "r+b") as file:
            file.seek(place_of(damaged))
            file.write(bytes(1))
    require_run(said, replies)


def main():
    program, chosen = program_of(sys.argv), random.Random(1)
    with tempfile.TemporaryDirectory() as folder:
        small, store = os.path.join(folder, "small"), os.path.join(folder, "store")
        os.mkdir(small)
        try:
            is_full = try_full_disk(program, small)
            within = [any(try_cut(program, store, part, chosen) for _ in range(ATTEMPTS)) for part in PARTS]
        except ValueError as difference:
            print(f"disturbed: {difference}")
            return 1
    disk = "a full disk" if is_full else "no full disk, since no file system can be mounted here"
    print(f"disturbed: {disk}; {sum(within)} runs whose store was cut within their creations")
    return 0 if all(within) else 1


if __name__ == "__main__":
    sys.exit(main())
