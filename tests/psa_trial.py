#!/usr/bin/env -S python3 -B
"""Runs ./psa where the program isn't proved, over a toolchain that tells what it was given, and answers as it is told.

    tests/psa_trial.py

A trial of the program itself takes a minute or more. Here stands what ./psa makes of one: that the script comes whole, also
where it pauses; that a terminal is refused; and that the status is the program's, or one of ./psa's own where the trial
has no answer of the program. The answers are what `rt try` prints.

The status is 1 where ./psa ended otherwise.
"""

import os
import pty
import shutil
import subprocess
import sys
import tempfile
import time

TOP = os.path.dirname(os.path.dirname(os.path.realpath(__file__)))
LIMIT = 4 * 1024 * 1024  # the longest script
SCRIPT = b"1 export #1\n1 export #2\n"

# reads what is there at once, as far as it goes, and answers as the file `answer` says
TOOLCHAIN = """#!/usr/bin/env -S python3 -B
import os, sys
folder = os.path.dirname(os.path.realpath(sys.argv[0]))
with open(os.path.join(folder, "words"), "w") as words:
    words.write(repr(sys.argv[1:]))
with open(os.path.join(folder, "given"), "wb") as given:
    given.write(os.read(0, 1 << 26))
with open(os.path.join(folder, "answer")) as answer:
    status, said = answer.read().split("\\n", 1)
print("a reply line")
sys.stderr.write(said)
sys.exit(int(status))
"""

NO_ANSWER = "checked: no-answer: {}\nraces: not looked for, since a kit has no ThreadSanitizer\nrun=no-answer proved=no\n"
OUTPUTS = "standard output or to standard error"
ANSWERS = (  # of the toolchain, and the statuses that ./psa ends with
    (0, "checked: ended status=0\nrun=ended status=0 runners=1 races=unchecked proved=no\n", 0),
    (2, "line 1: bad key\nchecked: ended status=2\nrun=ended status=2 runners=1 races=unchecked proved=no\n", 2),
    (6, NO_ANSWER.format("the program did not end within the time limit"), 124),
    (6, NO_ANSWER.format(f"the program wrote more than 1048576 bytes to {OUTPUTS}, the limit on each"), 124),
    (6, NO_ANSWER.format("AddressSanitizer cannot start here"), 125),
    (1, "error: the crate has a fault\nrun=none proved=no\n", 125),
    (1, "", 125),
)


class Trial:
    """A tree without a proved program, and its toolchain."""

    def __init__(self, folder):
        self.folder, self.count, self.has_failed = folder, 0, False
        self.psa, tools = os.path.join(folder, "psa"), os.path.join(folder, "tools")
        for script in ("psa", "build"):
            shutil.copy(os.path.join(TOP, script), folder)
        os.makedirs(os.path.join(folder, "crates", "psa_host", "src"))
        os.mkdir(tools)
        self.put("crates.txt", "psa_host:\n")
        self.put("tools/rt", TOOLCHAIN)
        os.chmod(os.path.join(tools, "rt"), 0o755)
        self.variables = {**os.environ, "PATH": f"{tools}:{os.environ['PATH']}"}

    def put(self, name, text):
        with open(os.path.join(self.folder, name), "w") as file:
            file.write(text)

    def given(self):
        with open(os.path.join(self.folder, "tools", "given"), "rb") as given:
            return given.read()

    def require(self, holds, what):
        if not holds:
            print(f"psa_trial: {what}")
            self.has_failed = True

    def answers(self, status, said):
        self.put("tools/answer", f"{status}\n{said}")

    def run(self, words, stdin, pieces=()):
        """Status and outputs of ./psa with these words, and what the toolchain was given, if it was called."""
        self.count += 1
        given = os.path.join(self.folder, "tools", "given")
        if os.path.exists(given):
            os.unlink(given)
        outputs = {"stdout": subprocess.PIPE, "stderr": subprocess.PIPE, "cwd": self.folder, "env": self.variables}
        ran = subprocess.Popen([self.psa, *words], stdin=stdin, **outputs)
        for piece in pieces:
            ran.stdin.write(piece)
            ran.stdin.flush()
            time.sleep(0.5)  # for a pipe that pauses
        out, err = ran.communicate(timeout=60)
        return ran.returncode, out, err.decode(), self.given() if os.path.exists(given) else None


def try_answers(trial):
    for status, said, wanted in ANSWERS:
        trial.answers(status, said)
        ended, out, err, given = trial.run(("store", "run"), subprocess.PIPE, [SCRIPT])
        trial.require(ended == wanted, f"status {ended} and not {wanted} after {said!r}")
        trial.require(out == b"a reply line\n" and said in err and given == SCRIPT, f"{out}, {err}, {given}")
        own = [line for line in err.splitlines()[1:] if line.startswith("psa: ")]
        trial.require(bool(own) == (wanted >= 124), f"{own} after status {wanted}")


def try_inputs(trial):
    trial.answers(0, ANSWERS[0][1])
    *_, given = trial.run(("store", "run"), subprocess.PIPE, [SCRIPT, SCRIPT])
    trial.require(given == 2 * SCRIPT, f"a script that pauses: {given}")
    with open(os.path.join(trial.folder, "tools", "words")) as words:
        wanted = repr(["try", "--", os.path.join(trial.folder, "store"), "run"])
        trial.require(words.read() == wanted, f"the words are not {wanted}")
    with tempfile.TemporaryFile() as script:
        script.write(b"#" * (LIMIT + 1000))
        script.seek(0)
        *_, given = trial.run(("store", "run"), script)
    trial.require(given is not None and len(given) == LIMIT + 1, "a script that is too long")

    ours, theirs = pty.openpty()
    ended, out, err, given = trial.run(("store", "run"), theirs)
    trial.require(ended == 125 and not out and "< FILE" in err and given is None, f"a terminal: {ended}, {err}, {given}")
    ended, *_, given = trial.run(("store", "generate", "4"), theirs)
    trial.require(ended == 0 and given == b"", f"generate: {ended}, {given}")
    ended, *_, given = trial.run(("--help",), theirs)
    trial.require(ended == 0 and given == b"", f"--help: {ended}, {given}")
    os.close(ours)
    os.close(theirs)


def main():
    with tempfile.TemporaryDirectory() as folder:
        trial = Trial(os.path.realpath(folder))
        try_answers(trial)
        try_inputs(trial)
    print(f"psa_trial: {trial.count} runs, {'failed' if trial.has_failed else 'passed'}")
    return 1 if trial.has_failed else 0


if __name__ == "__main__":
    sys.exit(main())
