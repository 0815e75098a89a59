"""The program, as the trials call it, and how they tell of their way."""

import os
import pathlib
import subprocess
import sys
import tempfile

import models

TOP = pathlib.Path(__file__).resolve().parents[2]
# Where folders are made: in memory, where the machine has such a place, since each commit is synced.
ROOM = "/dev/shm" if pathlib.Path("/dev/shm").is_dir() else None
PROGRAM = TOP / "crates" / "privilege_cli" / "out" / "privilege_cli"


def build():
    """Builds the program, where it isn't built from these sources, by the script `privilege`."""
    with tempfile.TemporaryDirectory() as folder:
        kept = {**os.environ, "PRIVILEGE_DIR": folder}
        if subprocess.run([TOP / "privilege", "local"], cwd=folder, env=kept, stdin=subprocess.DEVNULL).returncode:
            sys.exit(1)


def over(folder, words, text):
    """What the program writes over the folder `store` in this one, and its status."""
    kept = {**os.environ, "PRIVILEGE_DIR": str(folder)}
    done = subprocess.run([PROGRAM, *words], input=text, stdout=subprocess.PIPE, stderr=subprocess.DEVNULL, cwd=folder, env=kept)
    return done.stdout, done.returncode


def answered(words, text):
    """What the program writes in an empty folder of its own, and its status."""
    with tempfile.TemporaryDirectory(dir=ROOM) as folder:
        return over(folder, words, text)


def differ(words, text):
    return answered(words, text) != models.answered(words, text)


def shorter(words, text):
    """The text with as many lines left out as the program and the models may lack and still differ."""
    lines = text.splitlines(keepends=True)
    size = max(1, len(lines) // 2)
    while size:
        at = 0
        while at < len(lines):
            fewer = lines[:at] + lines[at + size:]
            if differ(words, b"".join(fewer)):
                lines = fewer
            else:
                at += size
        size //= 2
    return b"".join(lines)


def compare(words, text):
    """The status of the program. Ends the trial with status 1 where the models differ from it in the bytes or the status."""
    given = answered(words, text)
    if given != models.answered(words, text):
        if len(text) < 100_000:
            text = shorter(words, text)
        print(f"{words} on {len(text)} bytes, {text[:2000]!r}")
        print(f"  the program: {answered(words, text)}\n  the models:  {models.answered(words, text)}")
        sys.exit(1)
    return given[1]


class Progress:
    """Says on standard error how far a trial is, at each tenth of it."""

    def __init__(self, count):
        self.done, self.count = 0, count

    def step(self):
        self.done += 1
        if self.done * 10 // self.count != (self.done - 1) * 10 // self.count:
            print(f"{self.done} of {self.count}", file=sys.stderr, flush=True)
