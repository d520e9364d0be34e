"""The calls that a run makes of its store's file, as strace tells them, and what a crash may leave at each of them."""

import re
import subprocess

NAMES = "lseek,write,pwrite64,fsync,fdatasync,ftruncate"
LONGEST = 3_000_000  # bytes of a write
ENDED = re.compile(r"\d+ +\+\+\+ .*")
SEEK = re.compile(r"\d+ +lseek\(.*\) += (\d+)")
WRITE = re.compile(r'\d+ +p?write(?:64)?\(\d+, "([0-9a-fx\\]*)", \d+(?:, (\d+))?\) += (\d+)')
SYNC = re.compile(r"\d+ +f(?:data)?sync\(\d+\) += 0")
LENGTH = re.compile(r"\d+ +ftruncate\(\d+, (\d+)\) += 0")


def run_traced(program, store, text, log, names=NAMES, *more):
    """Runs a script, whose calls of these names on its store's file strace writes down. It takes more options of strace."""
    words = ["strace", "-f", "-P", store, "-xx", "-s", str(LONGEST), "-e", f"trace={names}", "-e", "signal=none", *more]
    return subprocess.run([*words, "-o", log, program, store, "run"], input=text, capture_output=True, text=True)


def calls_of_file(log):
    """The writes of a file, as place and bytes, and its syncs, as None, in the order of a trace. A longer file ends by no bytes."""
    place = 0
    with open(log) as traced:
        for line in map(str.strip, traced):
            if seek := SEEK.fullmatch(line):
                place = int(seek[1])
            elif write := WRITE.fullmatch(line):
                at, piece = int(write[2] or place), bytes.fromhex(write[1].replace("\\x", ""))[: int(write[3])]
                place = at + len(piece)
                yield at, piece
            elif length := LENGTH.fullmatch(line):
                yield int(length[1]), b""
            elif SYNC.fullmatch(line):
                yield None
            elif not ENDED.fullmatch(line):
                raise ValueError(f"a call of the file that isn't known: {line[:200]}")


def with_writes(content, writes):
    """A file's bytes after some writes."""
    whole = bytearray(content)
    for at, piece in writes:
        whole.extend(bytes(max(0, at + len(piece) - len(whole))))
        whole[at : at + len(piece)] = piece
    return bytes(whole)


def torn(before, write, chosen):
    """What the last write may leave besides none of it and all: its first half, or any bytes in its place; and of a file that
    was to be longer any length between, with any bytes behind the old end."""
    at, piece = write
    if piece:
        yield with_writes(before, [(at, piece[: len(piece) // 2])])
        yield with_writes(before, [(at, chosen.randbytes(len(piece)))])
    elif at > len(before):
        yield before + chosen.randbytes(chosen.randrange(at - len(before) + 1))


def left_by_crash(synced, pending, chosen):
    """What a crash may leave, where these writes were made since the bytes were synced."""
    yield synced
    if pending:
        before = with_writes(synced, pending[:-1])
        yield with_writes(before, pending[-1:])
        yield from torn(before, pending[-1], chosen)
    if len(pending) > 1:
        yield from (with_writes(synced, [write]) for write in pending)


def images_of(calls, synced, chosen):
    """What crashes may leave at each call, with how many were made by then. What is met again stands once in a row."""
    pending, seen = [], None
    for count, call in enumerate(calls, 1):
        if call is None:
            synced, pending = with_writes(synced, pending), []
        else:
            pending.append(call)
        for content in left_by_crash(synced, pending, chosen):
            if (count, content) != seen:
                seen = count, content
                yield count, content
    if pending:
        raise ValueError("the file isn't synced in the end")
