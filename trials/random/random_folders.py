#!/usr/bin/env python3
"""random_folders.py COUNT SEED: runs `local` on so many random scripts over folders that earlier runs left, some of them damaged
in between, and compares what is written, the status and the files of the folder with the model of a folder
(`folder_model.py`). 1,000 take a minute. Ends with status 1 at the first difference."""

import collections
import os
import pathlib
import random
import shutil
import sys
import tempfile

import folder_model
import models
import program
import random_scripts
from set_damages import Damages

RUNS = 4
OTHERS = [b"notes", b"A~", b"lists", b"rules"]


def files_in(folder):
    return {os.fsencode(path.name): path.read_bytes() for path in folder.iterdir()}


def write(folder, files):
    shutil.rmtree(folder, ignore_errors=True)
    folder.mkdir()
    for name, text in files.items():
        (folder / os.fsdecode(name)).write_bytes(text)


def is_kept(name):
    """Whether a folder can have a file of this name."""
    return name not in (b".", b"..") and b"/" not in name


class Folders:
    """Changes of a folder's files, drawn by a `random.Random`."""

    def __init__(self, draw):
        self.draw = draw

    def damaged(self, files):
        """Files that are changed as another program might, or as a stop or an old folder leaves them."""
        files = dict(files)
        kind = self.draw.randrange(9)
        own = [name for name in files if folder_model.is_own(name)]
        if kind < 3 and own:
            damages = Damages(self.draw)
            damages.one(damages.of_sets)(files)
        elif kind == 3 and own:
            files[self.draw.choice(own)] = self.draw.randbytes(self.draw.randrange(20))
        elif kind == 4 and own:
            del files[self.draw.choice(own)]
        elif kind == 5:
            files[b"guard"] = b""
        elif kind == 6 and own:
            # a save that was stopped behind its guard: whole backups, and primaries in any state
            files |= {name + b"~": text for name, text in files.items() if folder_model.is_own(name) and not name.endswith(b"~")}
            files[b"guard"] = b""
            for name in own:
                files[name] = files[name][:self.draw.randrange(len(files[name]) + 1)]
        elif kind == 7:
            # as a person may leave it, or as another program's folder is
            files = {name: text for name, text in files.items() if name not in (b"guard", b"list")}
        elif kind == 8 and b"list" in files:
            # as an earlier release leaves it, or one that is not known yet
            first = self.draw.choice([b"", b"", b"", b"version 1\n", b"version 3\n", 2 * folder_model.VERSION])
            files[b"list"] = first + files[b"list"].removeprefix(folder_model.VERSION)
        files[self.draw.choice(OTHERS)] = self.draw.randbytes(3)
        return {name: text for name, text in files.items() if is_kept(name)}


def compare(folder, files, script):
    """Runs the script over the folder with these files. Its files afterwards, and the status."""
    store = folder / "store"
    write(store, files)
    given = *program.over(folder, ["local"], script), files_in(store)
    wanted = folder_model.answered(files, lambda device: models.answers(script, device))
    if given != wanted:
        print(f"over {files}\non {script!r}")
        for what, own, model in zip(("written", "status"), given, wanted):
            print(f"  {what}: {own!r}, and by the model {model!r}")
        for name in sorted({*given[2], *wanted[2]}):
            if given[2].get(name) != wanted[2].get(name):
                print(f"  {name}: {given[2].get(name)!r}, and by the model {wanted[2].get(name)!r}")
        sys.exit(1)
    return given[2], given[1]


def main():
    if len(sys.argv) != 3 or not all(word.isdecimal() for word in sys.argv[1:]):
        sys.exit(__doc__)
    count, seed = map(int, sys.argv[1:])
    draw = random.Random(seed)
    scripts, folders = random_scripts.Scripts(draw), Folders(draw)
    statuses, progress = collections.Counter(), program.Progress(count)
    program.build()
    with tempfile.TemporaryDirectory(dir=program.ROOM) as name:
        files = {}
        for number in range(count):
            if number % RUNS == 0:
                files = {}
            elif draw.random() < 0.4:
                files = folders.damaged(files)
            files, status = compare(pathlib.Path(name), files, scripts.script())
            statuses[status] += 1
            progress.step()
    print(f"{count} runs over folders, as in the model: " + ", ".join(f"status {status} {times} times" for status, times in sorted(statuses.items())))


main()
