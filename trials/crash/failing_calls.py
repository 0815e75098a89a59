#!/usr/bin/env python3
"""failing_calls.py: has each system call of a run of `local` on a folder fail in turn, alone and with all later ones of its kind.
Needs `strace`, which makes them fail. Takes some minutes.

A link that the machine refuses changes nothing of the answers, the status and the files. Of each other kind of call the answers are
to be a front of the right ones, and the folder recovers, by the model of a folder, to the state of the last answered command or of the
one behind it; so does it for the next run, in which no call fails. Ends with status 1 where that is otherwise."""

import collections
import os
import pathlib
import re
import shutil
import subprocess
import sys
import tempfile

import folder_model
import models
import program

DEVICE = b"layout\nuser 5001 admin\ninstall pk - a1 * p\ninstall pl au a2 5001 p q\n"
SCRIPT = b"set ADMIN c * p deny\ninstall pm - a3 * q\nremove a1 *\n"
# A link may be refused. Of the others an error is one of the machine.
KINDS = {"link": "EPERM", "fsync": "EIO", "unlink": "EIO", "write": "ENOSPC", "ftruncate": "EIO", "statx": "EACCES", "openat": "EACCES",
         "getdents64": "EIO", "flock": "ENOLCK", "read": "EIO", "pread64": "EIO"}


def texts(store):
    return {os.fsencode(path.name): path.read_bytes() for path in store.iterdir()}


class Runs:
    def __init__(self, scratch):
        self.scratch, self.store = scratch, scratch / "store"
        self.before = {}

    def run(self, words=()):
        """A run over the folder as it was at first, under strace."""
        shutil.rmtree(self.store, ignore_errors=True)
        self.store.mkdir()
        for name, text in self.before.items():
            (self.store / os.fsdecode(name)).write_bytes(text)
        return self.bare(["strace", "-qq", "-o", str(self.scratch / "log"), *words], SCRIPT)

    def bare(self, words, script):
        environment = {**os.environ, "PRIVILEGE_DIR": str(self.scratch)}
        done = subprocess.run([*words, program.PROGRAM, "local"], input=script, env=environment, stdout=subprocess.PIPE, stderr=subprocess.DEVNULL)
        return done.stdout, done.returncode

    def counts(self):
        kinds = collections.Counter()
        for line in (self.scratch / "log").read_text().splitlines():
            kinds[re.match(r"\w*", line)[0]] += 1
        return kinds


def main():
    program.build()
    with tempfile.TemporaryDirectory(dir=program.ROOM) as name:
        runs = Runs(pathlib.Path(name))
        runs.bare([], DEVICE)
        runs.before = texts(runs.store)
        right, status = runs.run()
        after, kinds = texts(runs.store), runs.counts()
        held = folder_model.recovered(runs.before)
        states = [held]
        for count in range(1, SCRIPT.count(b"\n") + 1):
            device = folder_model.device_of(held)
            for _ in models.answers(b"".join(SCRIPT.splitlines(keepends=True)[:count]), device):
                pass
            states.append(folder_model.files_of(device))
        if status or folder_model.recovered(after) != states[-1]:
            sys.exit("the run without a failure is otherwise")
        failed = collections.Counter()
        for kind, error in KINDS.items():
            for number in range(1, kinds[kind] + 1):
                for when in (f"{number}", f"{number}+"):
                    answers, status = runs.run(["-e", f"trace={kind}", "-e", f"inject={kind}:error={error}:when={when}"])
                    left = texts(runs.store)
                    about = f"{kind} {when} fails with {error}: answers {answers}, status {status}"
                    if kind == "link":
                        if (answers, status, left) != (right, 0, after):
                            sys.exit(about)
                        failed[kind] += 1
                        continue
                    if not right.startswith(answers):
                        sys.exit(about)
                    done = answers.count(b"\n")
                    if folder_model.recovered(left) not in states[done:done + 2]:
                        sys.exit(f"{about}, and the folder recovers to another state")
                    found = runs.bare([], b"status\n")
                    if found[1] or folder_model.recovered(texts(runs.store)) not in states[done:done + 2]:
                        sys.exit(f"{about}, and the next run answers {found}")
                    failed[kind] += status == 6
    print("each failing call is as it should be; with status 6, or a link that was refused: " + ", ".join(f"{count} of {kind}" for kind, count in failed.items()))


main()
