#!/usr/bin/env -S python3 -B
"""Opens STORE by several runs at once, by another user, and where it is no regular file, with the whole program.

    tests/openings.py PROGRAM    the program has to be one process, as the proved one is

A run that doesn't open STORE ends with status 6 and two lines on standard error, without having read its input, and leaves
all files as they were. Of eight runs at once one has STORE: all are started on one file, and that one ends when the seven
others have ended. A file that is made is its owner's alone, whatever the umask is. Words that are no command make none.

Files that the system doesn't let be opened are tried as nobody, where this is run as root. Else they are tried as the user
who runs this, and other users' files aren't tried.

The status is 1 where the program ended otherwise.
"""

import fcntl
import os
import pwd
import shutil
import socket
import stat
import struct
import subprocess
import sys
import tempfile
import termios
import threading
import time

sys.path.insert(0, os.path.join(os.path.dirname(os.path.realpath(__file__)), "reference"))

from program import USAGE, program_of, scratch
from store_file import STORE_LENGTH

SECONDS = 20  # at most, for what takes milliseconds
RUNS, CREATIONS = 8, 15
LOCKED = "is locked by another run"
DENIED = "can't be opened: Permission denied (os error 13)"
MISSING = "can't be opened: No such file or directory (os error 2)"
EXISTS = "can't be opened: File exists (os error 17)"
A_CALL = "1 import k life=1 id=77 type=1001 usage=1 alg=0 data=00\n"


def refused(why):
    return 6, "", f"disk fault\nSTORE {why}\n"


WRONG_WORDS = 1, "", USAGE + "\n"


class Begun:
    """A run that has begun. Its input is a pipe that has a script, and stays open until `end`."""

    def __init__(self, program, store, words=("run",), script=A_CALL, **how):
        self.input, self.more = os.pipe()
        os.write(self.more, script.encode())
        how |= {"stdin": self.input, "stdout": subprocess.PIPE, "stderr": subprocess.PIPE, "text": True}
        self.ran = subprocess.Popen([program, store, *words], **how)

    def unread(self):
        """How many bytes of the script were not read."""
        return struct.unpack("i", fcntl.ioctl(self.input, termios.FIONREAD, bytes(4)))[0]

    def has_ended(self):
        return self.ran.poll() is not None

    def end(self):
        """Status and outputs of the run, after the end of its input."""
        os.close(self.more)
        out, err = self.ran.communicate(timeout=SECONDS)
        os.close(self.input)
        return self.ran.returncode, out, err

    def kill(self):
        self.ran.kill()
        return self.end()


def comes(condition):
    """Whether a condition comes true in time."""
    until = time.monotonic() + SECONDS
    while not condition():
        if time.monotonic() > until:
            return False
        time.sleep(0.001)
    return True


def tree(folder):
    """All that is below a folder, with what a run could change of it."""
    seen = {}
    for at, folders, files in os.walk(folder):
        for name in (*folders, *files):
            path = os.path.join(at, name)
            status = os.lstat(path)
            seen[path] = status.st_mode, status.st_size, status.st_mtime_ns, status.st_ino
    return seen


class Trial:
    """The program, and a folder whose files it opens."""

    def __init__(self, program, folder):
        self.program, self.folder, self.count, self.has_failed = program, folder, 0, False

    def path(self, name):
        return os.path.join(self.folder, name)

    def require(self, holds, what):
        if not holds:
            print(f"openings: {what}")
            self.has_failed = True

    def begin(self, store, words=("run",), script=A_CALL, **how):
        self.count += 1
        return Begun(self.program, store, words, script, **how)

    def holder(self, store):
        """A run that has opened a store: it has read its input, and waits for more."""
        run = self.begin(store)
        if not comes(lambda: run.unread() == 0 or run.has_ended()) or run.has_ended():
            raise ValueError(f"a run on {store} didn't begin: {run.kill()}")
        return run

    def run(self, name, store, wanted, words=("run",), **how):
        """A run that ends as is wanted: with the replies of `A_CALL`, or without any, and then it leaves all as it was."""
        before, run = tree(self.folder), self.begin(store, words, **how)
        reads = wanted[0] == 0 and words[:1] == ("run",)
        # a run that is refused ends before its input does
        if not reads and not comes(run.has_ended):
            run.ran.kill()
        unread, said = run.unread(), run.end()
        self.require(said == wanted, f"{name}, {words}: {said} and not {wanted}")
        self.require(reads or unread == len(A_CALL), f"{name}, {words}: standard input was read")
        self.require(wanted[0] == 0 or tree(self.folder) == before, f"{name}, {words}: a file was made or has changed")

    def refuse(self, name, store, why, wrong_words=None, **how):
        """Each command is refused, and wrong words too, where nothing else is wanted."""
        for words in (("run",), ("run", "--workers", "4"), ("generate", "4")):
            self.run(name, store, refused(why), words, **how)
        for words in ((), ("walk",), ("run", "--workers", "17"), ("generate", "0")):
            self.run(name, store, wrong_words or refused(why), words, **how)


ANSWERED = 0, "1.1 @0 SUCCESS 00000077\n", ""


def creations(number):
    """Identifiers and bytes of the keys that one of the runs makes."""
    return [(1 + number * CREATIONS + place, f"{number:02x}{place:02x}") for place in range(CREATIONS)]


def try_runs_at_once(trial, store):
    """Eight runs on one store, of which one has it."""
    line = lambda key, data: f"1 import k life=1 id={key:x} type=1001 usage=1 alg=0 data={data}\n"
    scripts = ["".join(line(*creation) for creation in creations(number)) for number in range(RUNS)]
    runs = [trial.begin(store, script=script) for script in scripts]
    trial.require(comes(lambda: sum(run.has_ended() for run in runs) == RUNS - 1), "not all runs but one have ended")
    having = [number for number, run in enumerate(runs) if not run.has_ended()]
    unread = [run.unread() for run in runs]
    ends = [run.end() for run in runs]
    for number in range(RUNS):
        replies = "".join(f"1.{n} @{n - 1} SUCCESS {key:08x}\n" for n, (key, _) in enumerate(creations(number), 1))
        wanted = (0, replies, "") if number in having else refused(LOCKED)
        trial.require(ends[number] == wanted, f"run {number} of {RUNS}: {ends[number]} and not {wanted}")
        trial.require(number in having or unread[number] == len(scripts[number]), f"run {number} has read its input")
    keys = [(number, *creation) for number in range(RUNS) for creation in creations(number)]
    later = trial.begin(store, script="".join(f"1 export #{key:x}\n" for _, key, _ in keys)).end()
    replies = [f"SUCCESS {data}" if number in having else "INVALID_HANDLE" for number, _, data in keys]
    wanted = 0, "".join(f"1.{n} @{n - 1} {reply}\n" for n, reply in enumerate(replies, 1)), ""
    trial.require(later == wanted, f"after {RUNS} runs: {later} and not {wanted}")


def try_lock(trial):
    """A store that one run has, by each of its names; and one whose run was killed."""
    store, link, name = trial.path("locked"), trial.path("link"), trial.path("other_name")
    holder = trial.holder(store)
    os.symlink("locked", link)
    os.link(store, name)
    for path in (store, link, name):
        trial.refuse("a store that another run has", path, LOCKED)
    said = holder.end()
    trial.require(said == ANSWERED, f"the run that had the store: {said} and not {ANSWERED}")
    for path in (store, link, name):
        trial.run("wrong words, the store is free", path, WRONG_WORDS, ("walk",))
    taken = 0, "1.1 @0 ALREADY_EXISTS\n", ""
    trial.run("a link", link, taken)
    trial.require(os.path.islink(link) and os.path.getsize(store) == STORE_LENGTH, "a link isn't one any more")

    other = trial.path("killed")
    status, *_ = trial.holder(other).kill()
    trial.require(status == -9, f"the run that was killed: status {status}")
    trial.run("a store whose run was killed", other, ANSWERED)


def try_modes(trial):
    """A file that is made is its owner's alone; one that is there keeps its mode."""
    mode = lambda store: stat.S_IMODE(os.stat(store).st_mode)
    for umask in (0o000, 0o022, 0o077, 0o777):
        store = trial.path(f"under_{umask:o}")
        trial.run(f"umask {umask:o}", store, ANSWERED, umask=umask)
        trial.require(mode(store) == 0o600 & ~umask, f"umask {umask:o}: the file's mode is {mode(store):o}")
    store = trial.path("for_all_to_read")
    with open(store, "w"):
        os.chmod(store, 0o644)
    trial.run("a file of mode 644", store, ANSWERED)
    trial.require(mode(store) == 0o644, f"a file of mode 644 now has {mode(store):o}")


def try_kinds(trial):
    """What is no regular file, or leads to none."""
    os.mkdir(trial.path("directory"))
    os.mkfifo(trial.path("pipe"))
    at = trial.path("socket")
    with socket.socket(socket.AF_UNIX) as bound:
        bound.bind(at)
    with open(trial.path("file"), "w"):
        pass
    links = {"to_nothing": "nothing", "to_no_folder": "no/file", "to_itself": "to_itself", "to_a_link": "to_nothing"}
    links |= {"to_a_directory": "directory", "to_a_pipe": "pipe", "to_a_device": "/dev/null"}
    for name, target in links.items():
        os.symlink(target, trial.path(name))
    for name, why in (
        ("directory", "is a directory"),
        ("directory/.", "is a directory"),
        ("pipe", "is a pipe"),
        ("socket", "is a socket"),
        ("/dev/null", "is a device"),
        ("/dev/full", "is a device"),
        ("to_nothing", "is a dangling link"),
        ("to_no_folder", "is a dangling link"),
        ("to_a_link", "is a dangling link"),
        ("to_itself", "can't be opened: Too many levels of symbolic links (os error 40)"),
        ("to_a_directory", "is a directory"),
        ("to_a_pipe", "is a pipe"),
        ("to_a_device", "is a device"),
        ("file/below", "can't be opened: Not a directory (os error 20)"),
        ("n" * 256, "can't be opened: File name too long (os error 36)"),
    ):
        trial.refuse(name, trial.path(name), why)
    trial.refuse("nothing", trial.path("no/file"), MISSING, WRONG_WORDS)
    trial.refuse("no name", "", MISSING, WRONG_WORDS)
    for words in ((), ("walk",), ("run", "--workers", "17"), ("generate", "0"), ("generate", "20001")):
        trial.run("wrong words, no file", trial.path("none"), WRONG_WORDS, words)


def try_rights(trial, user):
    """Files that the system doesn't let a user open, and one that is the user's own."""
    as_user = {"user": user.pw_uid, "group": user.pw_gid, "extra_groups": []} if os.geteuid() == 0 else {}

    def made(name, folder_mode, file_mode=None, owner=user):
        path = trial.path(name)
        os.mkdir(path)
        if file_mode is not None:
            with open(os.path.join(path, "store"), "w") as file:
                os.fchmod(file.fileno(), file_mode)
                os.fchown(file.fileno(), owner.pw_uid, owner.pw_gid)
        os.chown(path, owner.pw_uid, owner.pw_gid)
        os.chmod(path, folder_mode)
        return os.path.join(path, "store")

    trial.refuse("a file to read alone", made("to_read", 0o700, 0o400), DENIED, **as_user)
    trial.refuse("a file to write alone", made("to_write", 0o700, 0o200), DENIED, **as_user)
    trial.refuse("a folder to read alone", made("folder_to_read", 0o500), DENIED, WRONG_WORDS, **as_user)
    # no look into the folder says whether the file is there
    trial.refuse("a folder that can't be entered", made("closed", 0o600, 0o600), DENIED, **as_user)
    os.chmod(trial.path("closed"), 0o700)
    if as_user:
        root = pwd.getpwuid(0)
        trial.refuse("another user's file", made("others", 0o755, 0o600, root), DENIED, **as_user)
        trial.refuse("another user's file to read", made("others_to_read", 0o755, 0o644, root), DENIED, **as_user)
    else:
        print("openings: other users' files aren't tried, since this isn't run as root")
    own = made("own", 0o700)
    trial.run("the user's own folder", own, ANSWERED, **as_user)
    found = os.stat(own)
    wanted = user.pw_uid, 0o600
    trial.require((found.st_uid, stat.S_IMODE(found.st_mode)) == wanted, f"the user's file: {found}")


def try_changes(trial, rounds):
    """A path that leads to another kind of file all the time, while runs open it."""
    os.mkdir(trial.path("changing"))
    store, target = trial.path("changing/store"), trial.path("changing/target")
    has_ended = threading.Event()

    def change():
        spare = trial.path("changing/spare")
        makes = (lambda: os.mkfifo(spare), lambda: os.symlink("target", spare), lambda: os.close(os.open(spare, os.O_CREAT)))
        number = 0
        while not has_ended.is_set():
            makes[number % 3]()
            os.rename(spare, store)
            if number % 2:
                os.unlink(store)
            number += 1

    changing = threading.Thread(target=change)
    changing.start()
    permitted = {f"STORE {why}" for why in ("is a pipe", "is a dangling link", MISSING, EXISTS)}
    for _ in range(rounds):
        status, out, err = trial.begin(store).end()
        fault, *why = err.splitlines() or [""]
        is_refused = status == 6 and not out and fault == "disk fault" and len(why) == 1 and why[0] in permitted
        # two runs in turn may meet one file
        trial.require((status == 0 and not err) or is_refused, f"a path that changes: {status}, {err}")
    has_ended.set()
    changing.join()
    trial.require(not os.path.lexists(target), "a file was made through a link")


def try_all(program, folder):
    trial = Trial(program, folder)
    for _ in range(2):
        try_runs_at_once(trial, trial.path("store_of_one"))
        os.unlink(trial.path("store_of_one"))
        with open(trial.path("store_of_one"), "w"):
            pass  # in the second round the file is there
    try_lock(trial)
    try_modes(trial)
    try_kinds(trial)
    try_changes(trial, 200)
    try_rights(trial, pwd.getpwnam("nobody") if os.geteuid() == 0 else pwd.getpwuid(os.geteuid()))
    return trial


def main():
    if len(sys.argv) != 2:
        print(__doc__.split("\n\n")[1], file=sys.stderr)
        return 2
    # nobody has to reach program and stores
    with scratch() as folder, tempfile.TemporaryDirectory() as reached:
        os.chmod(folder, 0o755)
        os.chmod(reached, 0o755)
        program = shutil.copy(program_of(sys.argv), reached)
        os.chmod(program, 0o755)
        try:
            trial = try_all(program, folder)
        except (ValueError, subprocess.TimeoutExpired) as failure:
            print(f"openings: {failure}")
            return 1
    print(f"openings: {trial.count} runs, {'failed' if trial.has_failed else 'passed'}")
    return 1 if trial.has_failed else 0


if __name__ == "__main__":
    sys.exit(main())
