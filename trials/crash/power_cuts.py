#!/usr/bin/env python3
"""power_cuts.py [COUNT [SEED]]: cuts the power between any two system calls of commits, mounts and repairs, and looks at what the
next run finds, in so many folders (10,000: some minutes). Needs `strace`.

`local` is run under `strace`, which records each call that changes a folder. The calls are gone through again on a model of a
file system: files with what is on the medium of them and what is not yet, and names of files, in which links are links. A
sync of a file has its bytes on the medium, and a sync of the folder its names. A stop leaves each name as it was at some moment
since the last sync of the folder, and each file that was written since its own last sync as anything at all: as it was, as it
is, a front of either, or other bytes. Such a folder is made, links as links, and is to recover to the state of the last answered
command or of the one then under way, by a model of recovery and by the next run of `local`, which is to leave the files of that
state alone, no `~`, and each file with one name. Every other folder is a stop of a run on an earlier such folder: of a mount, a
repair, or the commits behind it; some of them have a list of version 1. Ends with status 1 at the first folder that is otherwise."""

import collections
import os
import pathlib
import random
import re
import shutil
import subprocess
import sys
import tempfile

import folder_model
import program

CALLS = "openat,open,creat,write,pwrite64,ftruncate,fsync,fdatasync,link,linkat,unlink,unlinkat,rename,renameat,renameat2"
LINE = re.compile(r"^(?:\d+ +)?(\w+)\((.*)\) += (-?\d+)")
TEXT = re.compile(r'"((?:\\x[0-9a-f]{2})*)"')
SCRIPT = b"""\
layout
user 5001 admin
install pk - a1 * p
install pl au a2 5001 p q
set ADMIN c * p deny
set ADMIN c * p deny
remove a1 *
bucket extra none
set extra c u p bucket:ADMIN
install pm - a3 * q
drop extra
nouser 5001
"""


class File:
    """A file of the model: what it holds, what is on the medium of it, or None where it never was made sure of, and what it
    was written to hold since."""

    def __init__(self, bytes_=b"", sure=None):
        self.bytes, self.sure, self.since = bytes_, sure, []

    def change(self, bytes_):
        self.bytes = bytes_
        self.since.append(bytes_)

    def make_sure(self):
        self.sure, self.since = self.bytes, []

    def left(self, draw):
        """What a stop may leave of it."""
        if self.sure is not None and not self.since:
            return self.sure
        texts = [self.sure or b"", *self.since]
        text = draw.choice(texts)
        kind = draw.randrange(5)
        if kind == 0:
            return text[:draw.randrange(len(text) + 1)]
        if kind == 1:
            return draw.randbytes(draw.randrange(len(text) + 2))
        if kind == 2:
            return bytes(len(text))
        return text


class Folder:
    """The folder of the model: the names that it has, with their files, those on the medium, and what each name that
    changed since led to."""

    def __init__(self, files=None):
        self.names = dict(files or {})
        self.sure, self.since = dict(self.names), {}
        self.open = {}

    def change(self, name, file):
        self.since.setdefault(name, [self.sure.get(name)]).append(file)
        if file is None:
            self.names.pop(name, None)
        else:
            self.names[name] = file

    def make_sure(self):
        self.sure, self.since = dict(self.names), {}

    def apply(self, call):
        kind, *words = call
        if kind == "open":
            descriptor, name, makes, cuts = words
            if makes and name not in self.names:
                self.change(name, File())
            self.open[descriptor] = [self.names[name], 0]
            if cuts:
                self.names[name].change(b"")
        elif kind == "write":
            descriptor, text = words
            file, at = self.open[descriptor]
            file.change(file.bytes[:at].ljust(at, b"\0") + text + file.bytes[at + len(text):])
            self.open[descriptor][1] += len(text)
        elif kind == "cut":
            descriptor, length = words
            file = self.open[descriptor][0]
            if len(file.bytes) != length:
                file.change(file.bytes[:length].ljust(length, b"\0"))
        elif kind == "sync":
            self.open[words[0]][0].make_sure()
        elif kind == "sync folder":
            self.make_sure()
        elif kind == "link":
            name, other = words
            self.change(other, self.names[name])
        elif kind == "unlink":
            self.change(words[0], None)

    def left(self, draw):
        """What a stop may leave: names with their files, each with what is left of it."""
        names = dict(self.sure)
        for name, files in self.since.items():
            file = draw.choice(files)
            if file is None:
                names.pop(name, None)
            else:
                names[name] = file
        texts = {}
        for file in names.values():
            texts.setdefault(file, file.left(draw))
        copies = {file: File(text, text) for file, text in texts.items()}
        return {name: copies[file] for name, file in names.items()}


def bytes_of(text):
    return bytes.fromhex(text.replace("\\x", ""))


def calls_of(log, store):
    """The calls of a log on this folder, each with how many answers were written before it."""
    calls, answers, opened = [], 0, {}
    inside = os.fsencode(store) + b"/"
    for line in log.read_text().splitlines():
        found = LINE.match(line)
        if not found or int(found[3]) < 0:
            continue
        kind, words, result = found[1], found[2], int(found[3])
        texts = [bytes_of(text) for text in TEXT.findall(words)]
        descriptor = int(match[0]) if (match := re.match(r"\d+", words)) else -1
        if kind in ("openat", "open", "creat"):
            path = texts[0]
            opened.pop(result, None)
            if path in (inside[:-1], inside):
                opened[result] = "folder"
            elif path.startswith(inside) and path != inside + b"..":
                opened[result] = "file"
                calls.append((answers, ("open", result, path[len(inside):], "O_CREAT" in words, "O_TRUNC" in words)))
        elif kind in ("write", "pwrite64"):
            if descriptor == 1:
                answers += texts[0].count(b"\n")
            elif opened.get(descriptor) == "file":
                calls.append((answers, ("write", descriptor, texts[0][:result])))
        elif kind == "ftruncate" and opened.get(descriptor) == "file":
            calls.append((answers, ("cut", descriptor, int(words.split(",")[1]))))
        elif kind in ("fsync", "fdatasync"):
            if opened.get(descriptor) == "folder":
                calls.append((answers, ("sync folder",)))
            elif opened.get(descriptor) == "file":
                calls.append((answers, ("sync", descriptor)))
        elif kind in ("link", "linkat"):
            calls.append((answers, ("link", texts[0][len(inside):], texts[1][len(inside):])))
        elif kind in ("unlink", "unlinkat"):
            calls.append((answers, ("unlink", texts[0][len(inside):])))
        elif kind.startswith("rename"):
            sys.exit(f"a call that the model does not know: {line}")
    return calls


def lay(store, files, copied=False):
    """Makes a folder of the model on the machine, links as links, or as files of their own, as a copy of the folder has them."""
    shutil.rmtree(store, ignore_errors=True)
    store.mkdir()
    first = {}
    for name, file in files.items():
        path = store / os.fsdecode(name)
        if file in first and not copied:
            os.link(first[file], path)
        else:
            path.write_bytes(file.bytes)
            first[file] = path


def texts_of(files):
    return {name: file.bytes for name, file in files.items()}


def aged(files):
    """The folder as an earlier release left it, with a list of version 1, which the next mount writes anew."""
    text = files[b"list"].bytes.removeprefix(folder_model.VERSION)
    return {**files, b"list": File(text, text)}


def found_in(store):
    return {os.fsencode(path.name): path.read_bytes() for path in store.iterdir()}


class Runs:
    """Runs of `local` on folders of the model."""

    def __init__(self, scratch, draw):
        self.scratch, self.draw = scratch, draw
        self.store, self.log = scratch / "store", scratch / "log"

    def run(self, script):
        environment = {**os.environ, "PRIVILEGE_DIR": str(self.scratch)}
        done = subprocess.run(
            ["strace", "-qq", "-xx", "-s", "1000000", "-e", f"trace={CALLS}", "-o", self.log, program.PROGRAM, "local"],
            input=script, env=environment, stdout=subprocess.PIPE, stderr=subprocess.PIPE,
        )
        if done.returncode:
            sys.exit(f"a run ends with {done.returncode}, and says {done.stderr.decode()}")
        return done.stdout

    def recorded(self, files, script):
        """The calls of a run on a folder, the states of the folder at each answer, and what it answers."""
        lay(self.store, files)
        answers = self.run(script)
        calls = calls_of(self.log, self.store)
        states, folder = {}, Folder(files)
        states[0] = folder_model.recovered(texts_of(files))
        for number, call in calls:
            if number and number not in states:
                states[number] = folder_model.recovered(texts_of(folder.names))
            folder.apply(call)
        last = answers.count(b"\n")
        for number in range(1, last + 1):
            states.setdefault(number, folder_model.recovered(texts_of(folder.names)))
        if texts_of(folder.names) != found_in(self.store):
            sys.exit("the model of the file system has other files than the folder")
        return calls, states

    def looked_at(self, files):
        """What the next run leaves of a folder, or of a copy of it: its files, and the most names that one has."""
        lay(self.store, files, self.draw.random() < 0.2)
        environment = {**os.environ, "PRIVILEGE_DIR": str(self.scratch)}
        done = subprocess.run([program.PROGRAM, "local"], input=b"status\n", env=environment, stdout=subprocess.PIPE, stderr=subprocess.PIPE)
        most = max((path.lstat().st_nlink for path in self.store.iterdir()), default=1)
        return done.stdout, done.returncode, done.stderr.decode(), found_in(self.store), most


def main():
    if not all(word.isdecimal() for word in sys.argv[1:]) or len(sys.argv) > 3:
        sys.exit(__doc__)
    count = int(sys.argv[1]) if len(sys.argv) > 1 else 1_000
    draw = random.Random(int(sys.argv[2]) if len(sys.argv) > 2 else 1)
    program.build()
    progress, kinds = program.Progress(count), collections.Counter()
    lines = SCRIPT.splitlines(keepends=True)
    with tempfile.TemporaryDirectory(dir=program.ROOM) as name:
        runs = Runs(pathlib.Path(name), draw)
        left, done = {}, 0
        while done < count:
            # A run on a folder that a stop left, or on none, and stops at some of its calls.
            begin = draw.choice([left, left, {}])
            if b"list" in begin and b"guard" not in begin and draw.random() < 0.3:
                begin = aged(begin)
            first = folder_model.device_of(folder_model.recovered(texts_of(begin))).commit
            script = b"".join(lines[first % len(lines):][:draw.randrange(1, 5)]) if first < len(lines) else b"set ADMIN c * q allow\n"
            calls, states = runs.recorded(begin, script)
            cuts = sorted(draw.randrange(len(calls) + 1) for _ in range(40))
            folder, at = Folder(begin), 0
            for cut in cuts:
                for _, call in calls[at:cut]:
                    folder.apply(call)
                at = cut
                answered = calls[cut][0] if cut < len(calls) else max(states)
                left = folder.left(draw)
                texts = texts_of(left)
                wanted = [states[answered], states.get(answered + 1, states[answered])]
                held = folder_model.recovered(texts)
                if held not in wanted:
                    sys.exit(f"behind call {cut} of {calls} the folder {texts} recovers to {held}, and not to {wanted}")
                answer, status, said, files, most = runs.looked_at(left)
                commit = b"commit %d\n" % folder_model.device_of(held).commit
                if (answer, status, files, most) != (commit, 0, folder_model.at_rest(texts, held), 1):
                    sys.exit(f"on the folder {texts} the next run answers {answer}, ends with {status}, says {said}, and leaves {files} with {most} names")
                linked = len(set(left.values())) < len(left)
                kinds["with its guard" if b"guard" in left else "with backups" if any(name.endswith(b"~") for name in left) else "of primaries"] += 1
                kinds["with links"] += linked
                done += 1
                progress.step()
                if done == count:
                    break
    print(f"{count} folders after a stop, each found as the state before or after: " + ", ".join(f"{number} {kind}" for kind, number in sorted(kinds.items())))


main()
