#!/usr/bin/env -S python3 -B
"""Opens stores of the older layout, which an opening makes stores of the layout of now, and stops and disturbs it meanwhile.

    tests/growth.py [PROGRAM]    the program is ./psa where none is named; it has to be one process, as the proved program is

The older stores have keys, none, or one in each cell; bytes behind closed gates, which a creation or a destruction that was
interrupted leaves; and files that are longer than their cells, with cells that have keys among the bytes behind. A run of an
empty script, or of the generator, leaves the file of a store of the layout of now with the older cells, byte for byte, and
zeros: its length, the byte of the layout, and all others. A later run tells exactly the keys of the older store, and writes
nothing.

A run of an empty script is traced: strace tells each write of the file, with its bytes, and each sync, and these have to be
those of a growth, in its order. At each of them a crash may leave what tests/crashes.py says, and of the byte of the layout
any of 256 values. A run on each such image tells exactly the keys of the older store, and leaves the same file as the first
run did. So it is where this second opening is stopped too.

Each single call that an opening makes of the file fails once, alone and with all later ones of its kind, where strace refuses
it; and writes fail where the system permits no longer files, or the disk is full. Such a run ends with status 6 and `disk
fault`, and the next one goes on: it tells exactly the keys of the older store, and leaves the same file.

A store that had a key in each of its 512 cells takes keys until it has 2,048, in the run that made it larger.

It prints how many stores, calls of the file, images and failing runs there were. The status is 1 where the program answered
otherwise. Where there is no strace nothing is stopped, and no call refused; where no file system can be mounted, as by
another user than root, no disk is full. A line says so.
"""

import os
import random
import shutil
import sys

sys.path.insert(0, os.path.join(os.path.dirname(os.path.realpath(__file__)), "reference"))

from disturbed import SmallDisk
from file_calls import NAMES, calls_of_file, images_of, run_traced
from program import program_of, require_same, run_limited, run_script, scratch
from runs import Line, Run, asked, text_of
from service import AES_KEY, CELL_COUNT, DERIVE_KEY, HMAC_KEY, LAST_PERSISTENT, PERSISTENT, Key, Service
from store_file import CELL_LENGTH, CURRENT, LAYOUT_AT, OLDER_COUNT, OLDER_HEADER, OLDER_LENGTH, OPEN, STORE_LENGTH
from store_file import cell, image, older_image, opened, place_of, with_bytes

RAW_DATA = 0x1001
FAULT = 6, "", "disk fault\n"
# calls of the file that an opening makes, and how each fails
FAILURES = {"fsync": "EIO", "lseek": "EIO", "pread64": "EIO", "ftruncate": "ENOSPC", "pwrite64": "ENOSPC"}


def raw(identifier):
    data = identifier.to_bytes(4, "big") * (1 + identifier % 256)
    return Key(PERSISTENT, identifier, 0, RAW_DATA, 8 * len(data), 3, (0, 0), data)


def scattered():
    """Cells of which some have keys: the first, the last, and others."""
    cells = [None] * OLDER_COUNT
    cells[0] = Key(PERSISTENT, 5, 0, AES_KEY, 128, 0x703, (0x04C01000, 0x04404400), bytes(range(16)))
    cells[3] = Key(PERSISTENT, LAST_PERSISTENT, 0, HMAC_KEY, 8 * 20, 0xC01, (0x03800009, 0), b"\x0b" * 20)
    cells[4] = Key(PERSISTENT, 1, 0, DERIVE_KEY, 8 * 22, 0x4001, (0x08000109, 0), b"\xa5" * 22)
    cells[63], cells[64], cells[300], cells[OLDER_COUNT - 1] = raw(255), raw(256), raw(7), raw(77)
    return cells


BEHIND = [raw(identifier) for identifier in range(1000, 1000 + CELL_COUNT - OLDER_COUNT)]  # none of these is a store's key


def with_leftovers(content, chosen):
    """An older store some of whose closed cells aren't zeros: any bytes, whole bodies of keys, one byte."""
    left = {1: b"\0" + chosen.randbytes(CELL_LENGTH - 1), 2: b"\1" + cell(raw(2000))[1:], 62: b"\0" + cell(raw(2001))[1:]}
    left |= {65: b"\xff" + bytes(CELL_LENGTH - 1), 200: bytes(CELL_LENGTH - 1) + b"\1", 510: b"\xa4" * CELL_LENGTH}
    for number, bytes_of_cell in left.items():
        content = with_bytes(content, place_of(number), bytes_of_cell)
    return content


def older_stores(chosen):
    """Older stores, each by a name."""
    cells, full = scattered(), [raw(identifier) for identifier in range(1, OLDER_COUNT + 1)]
    leading, keys_behind = with_bytes(OLDER_HEADER, LAYOUT_AT, b"\xff"), b"".join(map(cell, BEHIND))
    yield "some keys", older_image(cells)
    yield "no key", older_image([])
    yield "a key in each cell", older_image(full)
    yield "closed cells with bytes", with_leftovers(older_image(cells), chosen)
    yield "600,000 bytes", older_image(cells, b"\xa5" * (600_000 - OLDER_LENGTH))
    yield "keys behind its cells", older_image(full, keys_behind)
    rubbish = keys_behind[: 700 * CELL_LENGTH]
    rubbish += bytes([OPEN]) + chosen.randbytes(STORE_LENGTH - OLDER_LENGTH - len(rubbish) - 1)
    yield "rubbish behind its cells", with_leftovers(older_image(cells, rubbish), chosen)
    yield "another layout's number", with_leftovers(older_image(cells, chosen.randbytes(1), leading), chosen)


class Growth:
    """An older store, and what it grows to."""

    def __init__(self, name, content):
        self.name, self.content = name, content
        self.cells = opened(content)
        self.grown = image(self.cells)
        identifiers = {key.identifier for key in self.cells if key} | {key.identifier for key in BEHIND[:20]}
        self.asking = asked(Service(self.cells), sorted(identifiers | {2000, 2001, LAST_PERSISTENT - 1}))

    def calls(self):
        """The calls of the file that make it grow, as they have to be."""
        yield None
        closed = [number for number in range(OLDER_COUNT) if self.content[place_of(number)] != OPEN]
        left = [number for number in closed if any(self.content[place_of(number) : place_of(number + 1)])]
        for number in left:
            at = place_of(number) + (self.content[place_of(number)] == 0)  # a gate that is 0 isn't written
            yield at, bytes(place_of(number + 1) - at)
        if left:
            yield None
        yield STORE_LENGTH, b""
        if len(self.content) > OLDER_LENGTH:
            yield OLDER_LENGTH, bytes(len(self.content) - OLDER_LENGTH)
        yield from (None, (LAYOUT_AT, bytes([CURRENT])), None)


class Trial:
    """The program, a store that it opens, and what was seen of that."""

    def __init__(self, program, folder, chosen):
        self.program, self.store, self.log = program, os.path.join(folder, "store"), os.path.join(folder, "log")
        self.chosen, self.stores, self.calls, self.images, self.faults = chosen, 0, 0, 0, 0

    def put(self, content):
        with open(self.store, "wb") as file:
            file.write(content)

    def content(self):
        with open(self.store, "rb") as file:
            return file.read()

    def require_grown(self, growth, what):
        if self.content() != growth.grown:
            raise ValueError(f"{what}: the file is another one")

    def require_keys(self, growth, what):
        """A run tells the keys of the older store, and leaves the file that it grows to."""
        printed = run_script(self.program, self.store, text_of(growth.asking.lines))
        try:
            require_same(printed, growth.asking.replies())
        except ValueError as difference:
            raise ValueError(f"{what}: {difference}") from None
        self.require_grown(growth, what)

    def traced(self):
        """The calls of the file that an empty script makes."""
        ran = run_traced(self.program, self.store, "", self.log)
        if ran.returncode or ran.stdout or ran.stderr:
            raise ValueError(f"status {ran.returncode}, {ran.stdout[:200]}, {ran.stderr[:200]}")
        return list(calls_of_file(self.log))

    def grow(self, growth):
        """Runs that change no key, and then one that tells all keys."""
        for words in (["run"], ["run", "--workers", "16"], ["generate", "4"]):
            self.put(growth.content)
            status, out, err = run_limited(self.program, self.store, words, "")
            if status or err or bool(out) != (words[0] == "generate"):
                raise ValueError(f"{words}: status {status}, {out[:200]}, {err[:200]}")
            self.require_grown(growth, words)
            self.require_keys(growth, f"after {words}")
        self.stores += 1

    def stop(self, growth):
        """Opens what crashes within a growth leave, and what they leave of one that goes on from there."""
        self.put(growth.content)
        calls = self.traced()
        if calls != list(growth.calls()):
            raise ValueError(f"its calls of the file are {[call and (call[0], len(call[1])) for call in calls]}")
        if self.traced() != [None]:
            raise ValueError("a store that has grown is written again")
        self.calls += len(calls)
        left = {content: f"{count} calls were made" for count, content in images_of(calls, growth.content, self.chosen)}
        seen = set()
        for content, what in left.items():
            self.open_image(growth, content, what, seen)
        for value in range(256):
            content = with_bytes(growth.grown, LAYOUT_AT, bytes([value]))
            self.open_image(growth, content, f"the layout was being written, and is {value}", seen)
        for content, what in left.items():
            self.put(content)
            for count, later in images_of(self.traced(), content, self.chosen):
                self.open_image(growth, later, f"{what}, and {count} by a second opening", seen)
        self.images += len(seen)

    def open_image(self, growth, content, what, seen):
        """Opens an image, where it wasn't seen before; these are known by their hashes."""
        if hash(content) not in seen:
            seen.add(hash(content))
            self.put(content)
            self.require_keys(growth, what)

    def fail(self, growth, what, run):
        """A run that ends with a fault of the disk, and the next one."""
        said = run()
        if said != FAULT:
            raise ValueError(f"{what}: {said} and not {FAULT}")
        if image(opened(self.content())) != growth.grown:
            raise ValueError(f"{what}: the file has other keys")
        self.require_keys(growth, f"after {what}")
        self.faults += 1

    def refuse_calls(self, growth):
        """Each call of the file fails, alone, or all later ones of its kind too."""
        for name, error in FAILURES.items():
            for later in ("", "+"):
                number = 1
                while self.refuse_call(growth, name, f"error={error}:when={number}{later}"):
                    number += 1

    def refuse_call(self, growth, name, how):
        """Whether a call came that was to fail; the run then ended so."""
        self.put(growth.content)
        ran = run_traced(self.program, self.store, "", self.log, f"{NAMES},pread64", "-e", f"inject={name}:{how}")
        with open(self.log) as log:
            came = "(INJECTED)" in log.read()
        said = ran.returncode, ran.stdout, ran.stderr
        if came:
            self.fail(growth, f"{name}, {how}", lambda: said)
        elif said != (0, "", ""):
            raise ValueError(f"{name}, {how}: {said}")
        return came

    def limit(self, growth):
        """No file may get longer than some lengths, or be written behind them."""
        for limit in (OLDER_LENGTH, 600_000, 1_500_000, STORE_LENGTH - 1):
            self.put(growth.content)
            run = lambda: run_limited(self.program, self.store, ["run"], "", limit)
            self.fail(growth, f"no file longer than {limit}", run)


def try_filling(trial):
    """A full store of the older layout, which takes keys in the run in which it grows."""
    full = [raw(identifier) for identifier in range(1, OLDER_COUNT + 1)]
    run = Run(Service(opened(older_image(full))))
    fields = {"type": RAW_DATA, "usage": 1, "alg": 0, "life": PERSISTENT}
    statuses = []
    for identifier in range(OLDER_COUNT + 1, CELL_COUNT + 2):
        line = Line(1, "import", [("name", "k")], fields | {"id": identifier, "data": identifier.to_bytes(2, "big")})
        statuses.append(run.make(line)[0])
    if statuses != ["SUCCESS"] * (CELL_COUNT - OLDER_COUNT) + ["INSUFFICIENT_STORAGE"]:
        raise ValueError("the reference answers otherwise")
    trial.put(older_image(full))
    require_same(run_script(trial.program, trial.store, text_of(run.lines)), run.replies())
    if trial.content() != image(run.service.cells):
        raise ValueError("the file is another one")
    trial.stores += 1


def try_full_disk(trial, folder):
    """A disk without room for the zeros, where holes are behind the cells; whether that could be tried."""
    with SmallDisk(folder, 1024) as disk:
        if not disk.is_there:
            return False
        growth = Growth("a full disk", older_image(scattered(), bytes(STORE_LENGTH - OLDER_LENGTH)))
        small = Trial(trial.program, folder, trial.chosen)
        small.put(older_image(scattered()))
        os.truncate(small.store, STORE_LENGTH)
        run = lambda: run_limited(small.program, small.store, ["run"], "")
        for _ in range(2):
            said = run()
            if said != FAULT:
                raise ValueError(f"{said} and not {FAULT}")
        disk.grow(4096)
        small.require_keys(growth, "once there is room")
        trial.stores, trial.faults = trial.stores + 1, trial.faults + 2
        return True


def try_all(program, folder):
    """What was tried, or the first that was answered otherwise."""
    chosen = random.Random(1)
    trial, name, has_strace = Trial(program, folder, chosen), "", bool(shutil.which("strace"))
    small = os.path.join(folder, "small")
    os.mkdir(small)
    try:
        for name, content in older_stores(chosen):
            growth = Growth(name, content)
            trial.grow(growth)
            trial.limit(growth)
            if has_strace:
                trial.stop(growth)
                trial.refuse_calls(growth)
        name = "keys until it is full"
        try_filling(trial)
        name = "a full disk"
        is_full = try_full_disk(trial, small)
    except ValueError as difference:
        return 1, f"{name}: {difference}"
    if not has_strace:
        print("growth: there is no strace, so no growth was stopped, and no call refused")
    if not is_full:
        print("growth: no full disk, since no file system can be mounted here")
    told = f"{trial.stores} older stores, {trial.calls} calls of the file, {trial.images} images"
    return 0, f"{told}, {trial.faults} runs with a call that failed"


def main():
    with scratch() as folder:
        status, told = try_all(program_of(sys.argv), folder)
    print(f"growth: {told}")
    return status


if __name__ == "__main__":
    sys.exit(main())
