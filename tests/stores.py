#!/usr/bin/env -S python3 -B
"""Opens files that are no store, or have a damaged cell, and files that may be opened, with the whole program.

    tests/stores.py [PROGRAM]    the program is ./psa where none is named

A store has one of two layouts: that of now, or the older one, whose file may be longer than its cells. What one is tried with
the other is tried with too, where a file can differ.

Files that are refused: status 5, the line on standard error, nothing on standard output, and the file as it was, byte for
byte. Whatever stands before the opening is found first, and leaves the file too: words, standard input, and the script.
Closed cells may hold anything: they are zeros once the store was opened, and the keys of the open ones are there. A store of
the older layout then has that of now, with these keys and no others.

Each of the 256 values of the byte that tells the layout, in a file of either length; and each length at which a file of a
layout is a store, or no longer one. Behind the cells of an older store stand bytes that count for nothing, cells with keys
among them and such as are damaged.

Each single bit of a store's header turned over, and each of a cell with a key: the file is refused, and stays as it was, or
all other keys are what they were. The reference says which, and what that cell's key then is.

Files that can't be written past some length, since the system permits no larger ones: an opening that has to write there
ends with status 6. A creation or destruction that has to is STORAGE_FAILURE; its key is then gone, and so it is with each
further one while the first key's cell can't be closed. A run without that limit has the other keys again.

A file that the program wrote when policies had one algorithm, and stores the older layout, former.store.gz: its keys mean
what they meant then.

The status is 1 where the program answered otherwise.
"""

import gzip
import multiprocessing.pool
import os
import sys
from dataclasses import replace

sys.path.insert(0, os.path.join(os.path.dirname(os.path.realpath(__file__)), "reference"))

from program import USAGE, program_of, run_limited, scratch
from runs import asked, text_of
from service import AES_KEY, CELL_COUNT, HMAC_KEY, OF_THE_ELEMENT, PERSISTENT, Key, Service
from store_file import CELL_LENGTH, HEADER, KEY_AT, LAYOUT_AT, NO_STORE, OLDER_COUNT, OLDER_HEADER, OLDER_LENGTH, OPEN, RECORD_AT
from store_file import STORE_LENGTH, cell, cells_in, image, older_image, opened, place_of, with_bytes

RAW_DATA = 0x1001
KEYS = [Key(PERSISTENT, place + 1, 0, RAW_DATA, 24, 1, (0, 0), bytes([place, 1, 2])) for place in range(6)]
GOOD, OLDER = image(KEYS), older_image(KEYS)
# of both layouts, each by a name, a store of the keys and the number of its last cell
LAYOUTS = (("", GOOD, CELL_COUNT - 1), ("an older store, ", OLDER, OLDER_COUNT - 1))
DAMAGED = 3
KEY = KEYS[DAMAGED]
EXPORT = f"1 export #{KEY.identifier:x}\n"
PARTS = 4  # so many runs at once, where there are many
BAD_CELL = bytes([OPEN]) * CELL_LENGTH


def key_like(identifier):
    """A key that may stand in any cell."""
    return replace(KEY, identifier=identifier, data=bytes([identifier % 251, 3, 4]))


def with_cell(place, bytes_of_cell, store=GOOD):
    return with_bytes(store, place_of(place), bytes_of_cell)


def no_stores():
    """Files whose length or header is none of a store's, each by a name."""
    whole, older = GOOD + bytes(3 * len(GOOD)), OLDER + bytes(4 * len(GOOD))
    for length in (1, 10, len(HEADER) - 1, len(HEADER), OLDER_LENGTH - 1, STORE_LENGTH + 1, 4 * STORE_LENGTH):
        yield f"{length} bytes", whole[:length]
        yield f"{length} bytes of an older store", older[:length]
    for length in (OLDER_LENGTH, OLDER_LENGTH + 1, 600_000, STORE_LENGTH - 1):
        yield f"{length} bytes", whole[:length]
    for name, store, _ in LAYOUTS:
        for place, value in ((0, 0), (7, ord("e")), (9, 1), (len(HEADER) - 1, 255)):
            yield f"{name}a header with {value} at {place}", with_bytes(store, place, bytes([value]))
        yield f"{name}zeros", bytes(len(store))


def bytes_behind(count):
    """What may stand behind the cells of an older store, by a name; each has at least one byte."""
    yield "a5", b"\xa5" * count
    yield "any bytes", os.urandom(count)
    for name, key in (("one key over and over", key_like(77)), ("a key that is there", KEY), ("other keys", None)):
        cells = [key or key_like(1000 + number) for number in range(CELL_COUNT - OLDER_COUNT)]
        yield name, b"".join(map(cell, cells)).ljust(count, b"\0")[:count]


def older_stores():
    """Files of the older layout, each by a name; and some that aren't quite, of its lengths."""
    for value in range(256):
        header = with_bytes(HEADER, LAYOUT_AT, bytes([value]))
        yield f"a layout of {value}", older_image(KEYS, header=header)
        # of the layout of now such a file has keys in all its cells
        behind = b"".join(cell(key_like(number)) for number in range(OLDER_COUNT + 1, CELL_COUNT + 1))
        yield f"a layout of {value} in a long file", older_image(KEYS, behind, header)
    for length in (OLDER_LENGTH + 1, OLDER_LENGTH + CELL_LENGTH, 600_000, 2 * OLDER_LENGTH, STORE_LENGTH - 1, STORE_LENGTH):
        for name, behind in bytes_behind(length - OLDER_LENGTH):
            yield f"an older store of {length} bytes, {name} behind its cells", older_image(KEYS, behind)


def damages():
    """Cells that an opening refuses, each by a name."""
    changed = lambda **values: cell(replace(KEY, **values))
    patched = lambda place, piece: with_bytes(cell(KEY), place, piece)
    yield "another magic", patched(RECORD_AT, b"p")
    yield "a magic that doesn't end with 0", patched(RECORD_AT + 7, b"\1")
    yield "another version", patched(RECORD_AT + 8, b"\1")
    yield "a volatile lifetime", changed(lifetime=0)
    yield "a lifetime of the secure element", changed(lifetime=OF_THE_ELEMENT)
    yield "a persistent lifetime of the secure element", changed(lifetime=OF_THE_ELEMENT + 1)
    yield "an unknown type", changed(key_type=0x1002)
    yield "a type that doesn't permit the length", changed(key_type=AES_KEY)
    yield "bits of another length", changed(bits=32)
    yield "bits within a byte", changed(bits=23)
    yield "an unknown usage", changed(usage=9)
    yield "SIGN_HASH without SIGN_MESSAGE", changed(key_type=HMAC_KEY, usage=0x1000)
    yield "VERIFY_HASH without VERIFY_MESSAGE", changed(key_type=HMAC_KEY, usage=0x2400)
    yield "a key of no bytes", changed(bits=0, data=b"")
    yield "a key of 1,025 bytes", changed(bits=8 * 1025, data=bytes(1025))
    yield "a length past the cell", patched(RECORD_AT + 32, b"\0\0\0\1")
    yield "a byte after the key", patched(KEY_AT + len(KEY.data), b"\1")
    yield "a byte at the cell's end", patched(CELL_LENGTH - 1, b"\1")
    yield "identifier 0", changed(identifier=0)
    yield "an identifier of volatile keys", changed(identifier=0x40000000)
    yield "the identifier of cell 1", changed(identifier=KEYS[1].identifier)
    for place in (1, 3, 8, 15):
        yield f"no zero at {place}", patched(place, b"\1")


def cells_that_open():
    """Cells 3 that an opening takes, each by a name, and with the key that is then there, if one is."""
    for name, values in (
        ("a key of 1,024 bytes", {"bits": 8 * 1024, "data": bytes(range(256)) * 4}),
        ("the last identifier", {"identifier": 0x3FFFFFFF}),
        ("any algorithms", {"algorithms": (0xFFFFFFFF, 0x80000001)}),
        ("a second algorithm alone", {"algorithms": (0, 1)}),
    ):
        key = replace(KEY, **values)
        yield name, cell(key), key
    # a record with a second algorithm, byte by byte
    spelled = bytes.fromhex("505341004b455900 00000000 01000000 0110 0800 01000000 00000000 00444004 01000000 ff")
    key = replace(KEY, bits=8, algorithms=(0, 0x04404400), data=b"\xff")
    yield "a spelled record", with_bytes(cell(None), 0, cell(key)[:RECORD_AT] + spelled), key
    for gate in (0, 1, OPEN - 1, 0xFF):
        yield f"a closed gate of {gate}", with_bytes(cell(KEY), 0, bytes([gate])), None
        yield f"any bytes behind a closed gate of {gate}", bytes([gate]) + os.urandom(CELL_LENGTH - 1), None


# calls of session 1 on the keys 1 to 3, where nothing can be written behind these, and their replies
FAILING = (
    ("import k life=1 id=a type=1001 usage=1 alg=0 data=aa", "STORAGE_FAILURE"),
    ("export #a", "INVALID_HANDLE"),
    ("import k life=1 id=b type=1001 usage=1 alg=0 data=bb", "STORAGE_FAILURE"),
    ("destroy #1", "STORAGE_FAILURE"),
    ("export #1", "INVALID_HANDLE"),
    ("import v type=1001 usage=3 alg=0 data=cc", "SUCCESS 40100000"),
    ("copy c $v life=1 id=c usage=1 alg=0", "STORAGE_FAILURE"),
    ("export $v", "SUCCESS cc"),
    ("purge #2", "SUCCESS"),
    ("export #2", "SUCCESS 010102"),
)
# and those of a run after it, of which the first may find its key or not
AFTERWARDS = (
    ("export #1", "SUCCESS 000102", "INVALID_HANDLE"),
    ("export #2", "SUCCESS 010102"),
    ("export #3", "SUCCESS 020102"),
    ("export #a", "INVALID_HANDLE"),
    ("export #b", "INVALID_HANDLE"),
    ("export #c", "INVALID_HANDLE"),
    ("import k life=1 id=a type=1001 usage=1 alg=0 data=aa", "SUCCESS 0000000a"),
)


# calls on the keys of the file that the program wrote when policies had one algorithm; what they compute stands in FIPS 197,
# RFC 4231, RFC 4493, SP 800-38D and RFC 5869
FORMER = (
    ("attributes #1", "SUCCESS 00000001000000012400008000000702" + "04c01000"),
    ("attributes #8", "SUCCESS 00000001000000081100002000000800" + "03908009"),
    ("attributes #7", "SUCCESS 0000000100000007120300400000" + "8007ffffffff"),
    ("export #7", "SUCCESS 70617373776f7264"),
    ("export #3", "INVALID_HANDLE"),
    ("export #1", "NOT_PERMITTED"),
    ("export #3fffffff", "SUCCESS 000102030405060708090a0b0c0d0e0f1011121314151617"),
    ("cipher_encrypt #3fffffff alg=04404400 data=00112233445566778899aabbccddeeff", "SUCCESS dda97ca4864cdfe06eaf70a0ec0d7191"),
    ("cipher_encrypt #3fffffff alg=04c01000 data=", "NOT_PERMITTED"),
    ("copy c #1 usage=700 alg=04c01000 alg2=04404000", "SUCCESS 40100000"),
    ("attributes $c", "SUCCESS 00000000401000002400008000000700" + "04c01000"),
    ("copy d #1 usage=700 alg=0 alg2=04c01000", "SUCCESS 40100001"),
    ("cipher_encrypt $d alg=04c01000 data=", "NOT_PERMITTED"),
    ("copy e #1 usage=700 alg=04404000", "INVALID_ARGUMENT"),
    (
        "mac_compute #2 alg=03800009 data=7768617420646f2079612077616e7420666f72206e6f7468696e673f",
        "SUCCESS 5bdcc146bf60754e6a042426089575c75a003f089d2739839dec58b964ec3843",
    ),
    ("mac_compute #2 alg=03840009 data=", "NOT_PERMITTED"),
    ("mac_compute #4 alg=03c00200 data=", "SUCCESS bb1d6929e95937287fa37d129b756746"),
    ("aead_encrypt #5 alg=05500200 nonce=000000000000000000000000 data=", "SUCCESS 58e2fccefa7e3061367f1d57a4e7455a"),
    ("kdf_setup 1 alg=08000109", "SUCCESS"),
    ("kdf_input_bytes 1 step=202 data=000102030405060708090a0b0c", "SUCCESS"),
    ("kdf_input_key 1 #6 step=101", "SUCCESS"),
    ("kdf_input_bytes 1 step=203 data=f0f1f2f3f4f5f6f7f8f9", "SUCCESS"),
    (
        "kdf_output_bytes 1 len=42",
        "SUCCESS 3cb25f25faacd57a90434f64d0362f2a2d2d0a90cf1a5a4c5db02d56ecc4c5bf34007208d5b887185865",
    ),
)


class Trial:
    """The program, and a file that it opens."""

    def __init__(self, program, path):
        self.program, self.path, self.count, self.has_failed = program, path, 0, False

    def fail(self, what):
        print(f"stores: {what}")
        self.has_failed = True

    def run(self, words, script, limit=None):
        """Status and outputs of the program on the file, which may have a limit."""
        self.count += 1
        return run_limited(self.program, self.path, words, script, limit)

    def put(self, content):
        with open(self.path, "wb") as file:
            file.write(content)

    def open(self, name, content, wanted, after=None, words=("run",), script=EXPORT, limit=None):
        """Runs the program on a file; status and outputs are wanted, and the file afterwards, by default as it was."""
        self.put(content)
        said = self.run(words, script, limit)
        with open(self.path, "rb") as file:
            is_left = file.read() == (content if after is None else after)
        if said != wanted or not is_left:
            self.fail(f"{name}: {said} and not {wanted}{'' if is_left else ', and the file is another one'}")

    def answer(self, name, calls, limit=None):
        """Runs a script of one session's calls; to each one of its replies has to come."""
        said = self.run(("run",), "".join(f"1 {call}\n" for call, *_ in calls), limit)
        replies = [line.split(" ", 2)[2] for line in said[1].splitlines()]
        if said[::2] != (0, "") or len(replies) != len(calls):
            self.fail(f"{name}: {said}")
        for reply, (call, *wanted) in zip(replies, calls):
            if reply not in wanted:
                self.fail(f"{name}: {call}: {reply} and not {' or '.join(wanted)}")


def refused(status, line):
    return status, "", line + "\n"


def try_refusals(trial):
    damaged = refused(5, f"damaged cell {DAMAGED}")
    for name, content in no_stores():
        trial.open(name, content, refused(5, NO_STORE))
    for layout, store, last in LAYOUTS:
        for name, bytes_of_cell in damages():
            trial.open(layout + name, with_cell(DAMAGED, bytes_of_cell, store), damaged)
        trial.open(f"{layout}the last cell", with_cell(last, BAD_CELL, store), refused(5, f"damaged cell {last}"))
        two = with_cell(DAMAGED, BAD_CELL, with_cell(last, BAD_CELL, store))
        trial.open(f"{layout}two cells", two, damaged)
    beyond = with_cell(OLDER_COUNT, BAD_CELL)
    trial.open("a cell that an older store hasn't", beyond, refused(5, f"damaged cell {OLDER_COUNT}"))
    same = with_cell(CELL_COUNT - 1, cell(KEY))
    trial.open("the same identifier in the last cell", same, refused(5, f"damaged cell {CELL_COUNT - 1}"))
    longer = with_cell(DAMAGED, BAD_CELL, older_image(KEYS, b"\xa5" * 1000))
    trial.open("an older store with bytes behind its cells, a damaged cell", longer, damaged)
    for name, content, of_opening in (
        ("a damaged cell", with_cell(DAMAGED, BAD_CELL), damaged),
        ("no store", GOOD[:10], refused(5, NO_STORE)),
    ):
        trial.open(f"{name}, generate", content, of_opening, words=("generate", "4"))
        trial.open(f"{name}, no script", content, of_opening, script="")
    for name, content in (
        ("a damaged cell", with_cell(DAMAGED, BAD_CELL)),
        ("no store", GOOD[:10]),
        ("an older store", OLDER),
        ("an older store with bytes behind its cells", older_image(KEYS, b"\xa5" * 1000)),
    ):
        trial.open(f"{name}, wrong words", content, refused(1, USAGE), words=("run", "run"))
        trial.open(f"{name}, a bad line", content, refused(2, "line 1: unknown command"), script="1 frob\n")


def try_openings(trial):
    for layout, store, _ in LAYOUTS:
        for name, bytes_of_cell, key in cells_that_open():
            reply = f"SUCCESS {key.data.hex()}" if key else "INVALID_HANDLE"
            script = EXPORT.replace(f"{KEY.identifier:x}", f"{key.identifier:x}") if key else EXPORT
            content, after = with_cell(DAMAGED, bytes_of_cell, store), with_cell(DAMAGED, cell(key))
            trial.open(layout + name, content, (0, f"1.1 @0 {reply}\n", ""), after, script=script)


def try_opening(trial, name, content, more=()):
    """Opens a file as the reference does, and asks for its keys, those of the good store, and some more; whether it opens."""
    cells = opened(content)
    if isinstance(cells, str):
        trial.open(name, content, refused(5, cells))
        return False
    run = asked(Service(cells), sorted({key.identifier for key in (*KEYS, *filter(None, cells))} | set(more)))
    replies = "".join(f"{reply}\n" for reply in run.replies())
    trial.open(name, content, (0, replies, ""), image(cells), script=text_of(run.lines))
    return True


def try_layouts(trial):
    """Prints how many files there were, and how many of them were opened as stores of each layout."""
    count, cells = 0, []
    for name, content in older_stores():
        count += 1
        if try_opening(trial, name, content, (77, OLDER_COUNT + 1, 1000, CELL_COUNT)):
            cells.append(cells_in(content))
    older = cells.count(OLDER_COUNT)
    print(f"stores: {count} files of either layout by length and header, {older} of them older, {len(cells) - older} of now")


def try_bits(trial, store, places):
    """Turns each bit of these places over; gives how many such files are opened."""
    turned = lambda place, bit: with_bytes(store, place, bytes([store[place] ^ 1 << bit]))
    named = ((f"bit {bit} of byte {place}", turned(place, bit)) for place in places for bit in range(8))
    return sum(try_opening(trial, name, content) for name, content in named)


def try_all_bits(program, folder):
    """The same of all bits of the header of each layout and of a cell, by several at once; how many runs there were, and
    whether one failed."""
    in_cell = range(place_of(DAMAGED), place_of(DAMAGED + 1))
    parts = [(store, range(len(HEADER))) for store in (GOOD, OLDER, older_image(KEYS, bytes(STORE_LENGTH - OLDER_LENGTH)))]
    parts += [(GOOD, in_cell[part::PARTS]) for part in range(PARTS)]
    trials = [Trial(program, os.path.join(folder, f"store{number}")) for number in range(len(parts))]
    with multiprocessing.pool.ThreadPool(PARTS) as pool:
        opened_so = sum(pool.starmap(try_bits, [(trial, *part) for trial, part in zip(trials, parts)]))
    count = sum(trial.count for trial in trials)
    print(f"stores: {count} files with a bit turned over, {opened_so} of them opened")
    return count, any(trial.has_failed for trial in trials)


def try_failing_writes(trial):
    limit = place_of(DAMAGED)
    fault = refused(6, "disk fault")
    trial.open("a file that can't be extended", b"", fault, limit=limit)
    for layout, store, last in LAYOUTS:
        trial.open(f"{layout}a cell that can't be cleared", with_cell(last, b"\0\1", store), fault, limit=limit)
    trial.put(image(KEYS[:DAMAGED]))
    trial.answer("writes that fail", FAILING, limit)
    trial.answer("after writes that failed", AFTERWARDS)


def try_former_file(trial):
    with gzip.open(os.path.join(os.path.dirname(os.path.realpath(__file__)), "former.store.gz")) as file:
        former = file.read()
    name = "a file with one algorithm in each policy"
    if len(former) != OLDER_LENGTH or not former.startswith(OLDER_HEADER):
        trial.fail(f"{name} is none of the older layout")
    # it grows in the first of the two runs
    trial.put(former)
    for _ in range(2):
        trial.answer(name, FORMER)
        with open(trial.path, "rb") as file:
            if file.read() != image(opened(former)):
                trial.fail(f"{name} has lost a key")


def main():
    with scratch() as folder:
        trial = Trial(program_of(sys.argv), os.path.join(folder, "store"))
        try_refusals(trial)
        try_openings(trial)
        try_layouts(trial)
        try_failing_writes(trial)
        try_former_file(trial)
        count, has_failed = try_all_bits(trial.program, folder)
    has_failed |= trial.has_failed
    print(f"stores: {trial.count + count} runs, {'failed' if has_failed else 'passed'}")
    return 1 if has_failed else 0


if __name__ == "__main__":
    sys.exit(main())
