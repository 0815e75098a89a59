#!/usr/bin/env python3
"""Copies a store while a service commits to it as fast as it can, and looks at each copy; then puts copies back, and
is killed at it.

    backups.py [BACKUPS [RESTORES]]     500 backups, 200 ways back

The service keeps 200 packages. What each commit leaves follows from its number, so of each copy it is known what it
has to be: by the program's own answers over it, and by the number. A way back that is killed at any moment leaves
the old state or that of the backup. PROGRAM is the built program. It ends with 0 where nothing was wrong."""
import os
import random
import shutil
import signal
import subprocess
import sys
import tempfile
import threading
import time

TOP = os.path.dirname(os.path.dirname(os.path.dirname(os.path.realpath(__file__))))
PROGRAM = os.environ.get("PROGRAM", f"{TOP}/crates/privilege_cli/out/privilege_cli")
PACKAGES = 200
problems = []


def problem(text):
    problems.append(text)
    print(f"PROBLEM: {text}", flush=True)


def command_of(number):
    """The command that is commit `number`: packages come and go, and policies change, so that files do too."""
    if number == 1:
        return "layout"
    if number <= PACKAGES + 1:
        return f"install pkg{number} - app{number} * p{number % 7} q{number % 5}"
    at = number % 30
    if number % 2 == 0:
        return f"set . c{number % 41} * p{number % 3} " + ("allow" if number % 4 else "deny")
    # The odd numbers of a round of 60 install packages, and those of the next one remove them.
    if number // 60 % 2 == 0:
        return f"install extra{at} - extraapp{at} * p{number}"
    return f"remove extraapp{at} *"


class Model:
    """What the store has after each commit: the policies of the root bucket, and the installs. The commands are
    those of the sequence that are not refused, so the commit's number is the command's."""

    def __init__(self, count):
        self.commands = []
        installed = set()
        number = 0
        while len(self.commands) < count:
            number += 1
            command = command_of(number)
            words = command.split()
            if words[0] == "install":
                if words[3] in installed:
                    continue
                installed.add(words[3])
            elif words[0] == "remove":
                if words[1] not in installed:
                    continue
                installed.remove(words[1])
            self.commands.append(command)

    def state(self, number):
        """The rows of the root bucket, and those of MANIFESTS."""
        root, installs = {}, {}
        for command in self.commands[:number]:
            words = command.split()
            if words[0] == "layout":
                root["*", "*", "*"] = "bucket:MAIN"
            elif words[0] == "set":
                root[tuple(words[2:5])] = words[5]
            elif words[0] == "install":
                installs[words[3]] = (words[1], words[5:])
            else:
                del installs[words[1]]
        rows = [f"row {' '.join(key)} {root[key]}" for key in sorted(root)]
        grants = sorted((f"User::Pkg::{package}", it) for package, named in installs.values() for it in set(named))
        return rows, [f"row {client} * {it} allow" for client, it in grants]


def ask(folder, text, words=("local",)):
    """What the program answers over a copy of this folder."""
    with tempfile.TemporaryDirectory() as room:
        shutil.copytree(folder, f"{room}/store", symlinks=True)
        run = subprocess.run([PROGRAM, *words], input=text, capture_output=True, text=True, env={"PRIVILEGE_DIR": room})
        return run.returncode, run.stdout.splitlines()


def is_state(folder, number, model):
    """Whether the folder stands for the state of that commit."""
    rows, grants = model.state(number)
    wanted = [f"commit {number}", *rows, f"rows {len(rows)}"]
    if number:
        wanted += [*grants, f"rows {len(grants)}"]
    status, lines = ask(folder, "status\nlist . # # #\n" + ("list MANIFESTS # # #\n" if number else ""))
    return status == 0 and lines == wanted


def backups(count, model, room):
    service = subprocess.Popen([PROGRAM, "serve", "64"], env={"PRIVILEGE_DIR": room}, stderr=subprocess.DEVNULL)
    while not os.path.exists(f"{room}/admin.socket"):
        time.sleep(0.02)
    acknowledged, ended = [0], threading.Event()

    def commit():
        run = subprocess.Popen(
            [PROGRAM, "admin"], env={"PRIVILEGE_DIR": room}, stdin=subprocess.PIPE, stdout=subprocess.PIPE, text=True
        )
        for at, command in enumerate(model.commands):
            if ended.is_set():
                break
            run.stdin.write(command + "\n")
            run.stdin.flush()
            line = run.stdout.readline()
            if not line.startswith(f"ok {at + 1}"):
                problem(f"commit {at + 1}, {command}: {line}")
                break
            acknowledged[0] = at + 1
        run.stdin.close()
        run.wait()

    committer = threading.Thread(target=commit)
    committer.start()
    while acknowledged[0] < PACKAGES + 1:
        time.sleep(0.05)
    begun, first, longest, numbers = time.monotonic(), acknowledged[0], 0, set()
    script = f"{TOP}/packaging/privilege-backup"
    for at in range(count):
        before, started = acknowledged[0], time.monotonic()
        run = subprocess.run([script, f"{room}/store", f"{room}/backup"], capture_output=True, text=True, env={**os.environ, "PRIVILEGE": PROGRAM})
        after = acknowledged[0]
        longest = max(longest, time.monotonic() - started)
        if run.returncode or not run.stdout.startswith("commit "):
            problem(f"backup {at}: {run.returncode} {run.stdout} {run.stderr}")
            continue
        number = int(run.stdout.split()[1])
        numbers.add(number)
        if not before <= number <= after + 1:
            problem(f"backup {at} is of commit {number}, and {before} to {after} were acknowledged")
        elif not is_state(f"{room}/backup", number, model):
            kept = tempfile.mkdtemp()
            problem(f"backup {at} is no state of commit {number}: it is kept in {kept}")
            shutil.copytree(f"{room}/backup", f"{kept}/store")
        shutil.rmtree(f"{room}/backup")
    took = time.monotonic() - begun
    print(
        f"{count} backups of {len(numbers)} states in {took:.0f} s, the longest in {longest:.1f} s, under {acknowledged[0] - first} commits"
        f" ({(acknowledged[0] - first) / took:.0f} a second), of {PACKAGES} packages and more",
        flush=True,
    )
    if acknowledged[0] == len(model.commands):
        problem("the commits were used up")
    ended.set()
    committer.join()
    subprocess.run([PROGRAM, "admin"], input="stop\n", text=True, env={"PRIVILEGE_DIR": room}, stdout=subprocess.DEVNULL)
    service.wait()
    return acknowledged[0]


def restores(count, model, room, last):
    """Backups of two states are put back in turn, each call killed at a random moment; now and then one may end."""
    random.seed(1)
    env = {**os.environ, "PRIVILEGE": PROGRAM}
    states = [last]
    subprocess.run([f"{TOP}/packaging/privilege-backup", f"{room}/store", f"{room}/state{last}"], env=env, stdout=subprocess.DEVNULL)
    # A second one, with fewer packages.
    fewer = 60
    os.mkdir(f"{room}/other")
    subprocess.run([PROGRAM, "local"], input="\n".join(model.commands[:fewer]) + "\n", text=True, env={"PRIVILEGE_DIR": f"{room}/other"}, stdout=subprocess.DEVNULL)
    os.rename(f"{room}/other/store", f"{room}/state{fewer}")
    states.append(fewer)
    begun = time.monotonic()
    subprocess.run([f"{TOP}/packaging/privilege-restore", f"{room}/state{fewer}", f"{room}/store"], env=env, capture_output=True)
    whole = time.monotonic() - begun
    now, ended, changed, guards = fewer, 0, 0, 0
    for at in range(count):
        to = states[at % 2]
        run = subprocess.Popen(
            [f"{TOP}/packaging/privilege-restore", f"{room}/state{to}", f"{room}/store"],
            env=env,
            stdout=subprocess.PIPE,
            stderr=subprocess.DEVNULL,
            start_new_session=True,
        )
        time.sleep(random.random() * whole * 1.3)
        os.killpg(run.pid, signal.SIGKILL)
        said = run.communicate()[0]
        guards += os.path.exists(f"{room}/store/guard")
        found = [it for it in {now, to} if is_state(f"{room}/store", it, model)]
        if len(found) != 1:
            problem(f"way back {at}, killed: neither {now} nor {to}")
            break
        if said and found != [to]:
            problem(f"way back {at} said {said}, and is {found}")
        ended += bool(said)
        changed += found != [now]
        now = found[0]
        for name in os.listdir(room):
            if name.startswith("store."):
                shutil.rmtree(f"{room}/{name}")
    print(f"{count} ways back killed: {ended} had ended, {changed} changed the state, {guards} left a guard", flush=True)


def main():
    count = int(sys.argv[1]) if len(sys.argv) > 1 else 500
    ways = int(sys.argv[2]) if len(sys.argv) > 2 else 200
    model = Model(100000)
    # In memory where the machine has such a place: there the commits are fastest.
    where = os.environ.get("TMPDIR") or ("/dev/shm" if os.access("/dev/shm", os.W_OK) else None)
    with tempfile.TemporaryDirectory(dir=where) as room:
        last = backups(count, model, room)
        restores(ways, model, room, last)
    print(f"{len(problems)} problems")
    return 1 if problems else 0


sys.exit(main())
