#!/usr/bin/env python3
"""no_memory.py: has each allocation of the built program fail in turn, and then every one from it on: of `local` on the device over
a folder of its own, on a second script over the folder that the device left, and over that folder as a stop in the middle of a
commit leaves it; of `smack-load` and `smack-access`; and of words that are no command. Each allocation of the program is one request to
the C library, which `fail_alloc.c` refuses. Takes some minutes.

The only change may be status 1, with a front of the answers, none cut. The folder is then, by the model of a folder, at the state of
the last answered command, and the next run finds it there. Ends with status 1 at any other change. Needs `gcc`."""

import os
import pathlib
import subprocess
import sys
import tempfile

import folder_model
import models
import program
from set_model import files_of

TRIALS = pathlib.Path(__file__).resolve().parents[1]
DEVICE = next((TRIALS.parent / "examples").rglob("device/input")).read_bytes()
RULES = b"A X rw\nB X x\nA X x w\n"
LATER = b"""\
template
System ~PROCESS~ rwx
~PROCESS~ ~AUTHOR~ r
end
install org.tizen.browser web org.tizen.player * http://tizen.org/privilege/camera
remove org.example.camera 5001
batch
set ADMIN * * http://tizen.org/privilege/call deny
set ADMIN * 5001 http://tizen.org/privilege/call allow
end
erase USER_TYPE_GUEST # # #
list ADMIN # # #
nouser 5002
check User::Pkg::org.tizen.browser 5001 http://tizen.org/privilege/camera
access System User::Pkg::org.tizen.browser w
"""


# Words that are no command, of each kind: none, a name that is none, one that is near, too few and too many words, one that is wrong in
# its place, an empty one, one that is not ASCII, and one that begins with a dash.
WRONG_WORDS = [
    [], ["x"], ["chekc", "c", "s", "u", "p"], ["smack-access", "A", "X"], ["check", "c", "s", "u", "p", "q"], ["local", "x"],
    ["serve", "0"], ["agent", "10", "maybe"], ["smack-access", "A", "X", "q"], ["check", "c", "s", "", "p"], [""], ["\xe9"], ["--help"],
    ["serve", "-1"],
]


def files_in(folder):
    store = folder / "store"
    return {os.fsencode(path.name): path.read_bytes() for path in store.iterdir()} if store.is_dir() else {}


def stopped(files):
    """The files of a folder whose save was stopped behind its guard: whole backups, and no primary whole."""
    backups = {name + b"~": text for name, text in files.items()}
    return {name: text[:len(text) // 2] for name, text in files.items()} | backups | {b"guard": b""}


def state_after(files, script, answers):
    """The files of the state that a folder has after so many answers to a script."""
    held = folder_model.recovered(files)
    device = folder_model.device_of(held)
    commit, given = device.commit, models.answers(script, device)
    for _ in range(answers):
        next(given)
    return files_of(device) if device.commit != commit else held


class Trial:
    """A run over a folder with these files, and what comes of it where memory is wanting."""

    def __init__(self, shim, title, words, text, files=None):
        self.shim, self.title, self.words, self.text, self.files = shim, title, words, text, files or {}
        with tempfile.TemporaryDirectory(dir=program.ROOM) as name:
            counted = pathlib.Path(name) / "count"
            self.wanted, self.status, self.after = self.run(counted)
            self.requests = int(counted.read_text())
        wanted_status = 2 if words in WRONG_WORDS else 0
        assert self.status == wanted_status, (title, self.status)
        assert self.status == 0 or self.wanted == b"fault command line\n", (title, self.wanted)

    def run(self, counted, **failing):
        """What is written, the status, and the files of the folder afterwards."""
        with tempfile.TemporaryDirectory(dir=program.ROOM) as name:
            folder = pathlib.Path(name)
            if self.files:
                (folder / "store").mkdir()
            for own, text in self.files.items():
                (folder / "store" / os.fsdecode(own)).write_bytes(text)
            kept = {**os.environ, "PRIVILEGE_DIR": name, "LD_PRELOAD": str(self.shim), "FAIL_ALLOC_COUNT": str(counted), **failing}
            done = subprocess.run([program.PROGRAM, *self.words], input=self.text, stdout=subprocess.PIPE, stderr=subprocess.DEVNULL, env=kept)
            files = files_in(folder)
            self.found = program.over(folder, ["local"], b"status\n") if self.words == ["local"] else None
            self.rest = files_in(folder)
        return done.stdout, done.returncode, files

    def fault(self, written, status, files):
        """What is wrong with a run that found no memory."""
        if status != 1:
            return f"status {status}"
        if self.words != ["local"]:
            return None if not written and files == self.files else "something was written"
        *_, last = [b"", *written.splitlines(keepends=True)]
        if not self.wanted.startswith(written) or last.startswith(b"row ") or (last and not last.endswith(b"\n")):
            return "no front of the answers"
        held = state_after(self.files, self.text, written.count(b"\n"))
        if folder_model.recovered(files) != held:
            return "the folder is not at the last answered command"
        answer = b"commit %d\n" % folder_model.device_of(held).commit, 0
        if self.found != answer or self.rest != folder_model.at_rest(files, held):
            return f"the next run finds another state: {self.found}"
        return None

    def each_fails(self, **on):
        """Fails each request in turn, or from each on all."""
        without_effect = 0
        for number in range(1, self.requests + 1):
            written, status, files = self.run("/dev/null", FAIL_ALLOC=str(number), **on)
            if (written, status, files) == (self.wanted, self.status, self.after):
                without_effect += 1
                continue
            fault = self.fault(written, status, files)
            if fault:
                sys.exit(f"{self.title}, request {number}{' and all later ones' if on else ''}: {fault}, {len(written)} bytes written")
        return without_effect

    def report(self):
        alone, on = self.each_fails(), self.each_fails(FAIL_ALLOC_ON="1")
        changed = f"status 1 {self.requests - alone} times and {self.requests - on} times"
        print(f"{self.title}: each of {self.requests} requests failed alone, and with all later ones: {changed}", flush=True)


def main():
    if len(sys.argv) > 1:
        sys.exit(__doc__)
    program.build()
    with tempfile.TemporaryDirectory() as name:
        shim = pathlib.Path(name) / "fail_alloc.so"
        subprocess.run(["gcc", "-O2", "-shared", "-fPIC", "-o", shim, TRIALS / "lib" / "fail_alloc.c", "-ldl"], check=True)
        first = Trial(shim, "local on the device", ["local"], DEVICE)
        first.report()
        Trial(shim, "local on a second script", ["local"], LATER, first.after).report()
        Trial(shim, "local after a stop within a commit", ["local"], LATER, stopped(first.after)).report()
        Trial(shim, "smack-load", ["smack-load"], b"", first.after).report()
        Trial(shim, "smack-access", ["smack-access", "A", "X", "rx"], RULES).report()
        Trial(shim, "sample", ["sample", "1"], b"").report()
        for words in WRONG_WORDS:
            Trial(shim, " ".join(["the words", *map(ascii, words)]), words, b"").report()


main()
