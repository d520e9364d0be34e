"""The program that is compared, and the words that it is run by."""

import functools
import os
import resource
import signal
import subprocess
import tempfile

USAGE = "usage: psa_host STORE (run [--workers N] [--seed HEX64] [--rules LABELS] | generate N)"
RULES = ("no-export", "no-copy", "no-ecb", "aes256")


class Options:
    """Options of a run that are chosen at random, in any of the ways in which words may say them."""

    def __init__(self, random):
        self.workers = random.choice((1, 1, 1, 2, 4, 16))
        self.seed = random.choice((bytes(32), random.randbytes(32)))
        self.rules = random.choice(((), (), random.choices(RULES, k=random.randrange(1, 6))))
        options = [("--workers", str(self.workers), self.workers == 1)]
        options += [("--seed", random.choice((self.seed.hex(), self.seed.hex().upper())), not any(self.seed))]
        options += [("--rules", ",".join(self.rules), not self.rules)]
        self.words = []
        for name, value, is_default in random.sample(options, len(options)):
            if not is_default or value and random.random() < 0.5:
                self.words += random.choice(([name, value], [f"{name}={value}"]))


def program_of(words):
    """The program that a test's words name, or ./psa."""
    here = os.path.dirname(os.path.realpath(__file__))
    return os.path.realpath(words[1] if len(words) > 1 else os.path.join(here, "..", "..", "psa"))


def scratch():
    """A folder for stores, in memory where there is such a place: a disk's time is of no interest."""
    return tempfile.TemporaryDirectory(dir="/dev/shm" if os.access("/dev/shm", os.W_OK) else None)


def run_script(program, store, text, words=()):
    """The reply lines of a script that has to be answered."""
    ran = subprocess.run([program, store, "run", *words], input=text, capture_output=True, text=True)
    if ran.returncode or ran.stderr:
        raise ValueError(f"status {ran.returncode} {ran.stderr[:200]}")
    return ran.stdout.splitlines()


def permit_no_larger_files(length):
    signal.signal(signal.SIGXFSZ, signal.SIG_IGN)  # so that a write fails and doesn't end the program
    resource.setrlimit(resource.RLIMIT_FSIZE, (length, length))


def run_limited(program, store, words, text, limit=None):
    """Status and outputs of the program, for which no file may get longer than a limit, if there is one."""
    limits = limit and functools.partial(permit_no_larger_files, limit)
    words, how = [program, store, *words], {"capture_output": True, "text": True, "restore_signals": False}
    ran = subprocess.run(words, input=text, preexec_fn=limits, **how)
    return ran.returncode, ran.stdout, ran.stderr


def require_same(printed, wanted):
    """Raises a ValueError that tells the first line which differs, if there is one."""
    if printed != wanted:
        at = next((i for i, pair in enumerate(zip(printed, wanted)) if pair[0] != pair[1]), min(len(printed), len(wanted)))
        raise ValueError(f"\n  printed {printed[at : at + 1]}\n  wanted  {wanted[at : at + 1]}")
