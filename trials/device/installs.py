#!/usr/bin/env python3
"""Installs packages one by one at a running service, each with its Smack rules behind it, while clients ask.

    installs.py [PACKAGES [CLIENTS]]     200 packages, four clients

The kernel's files are queues here, of which this script has the other end and keeps what they were told. No check
may fail: each is answered, with what stands at a commit no older than the last one that was acknowledged before it
was asked. Behind each package its rules are there; at the end, and behind the removal of every third, what the
queues were told is what the program's own smack-load gives over a backup. PROGRAM is the built program. It ends with
0 where nothing was wrong."""
import os
import random
import subprocess
import sys
import tempfile
import threading
import time

TOP = os.path.dirname(os.path.dirname(os.path.dirname(os.path.realpath(__file__))))
PROGRAM = os.environ.get("PROGRAM", f"{TOP}/crates/privilege_cli/out/privilege_cli")
problems = []


def problem(text):
    problems.append(text)
    print(f"PROBLEM: {text}", flush=True)


def modes(word):
    return set(word.lower()) - {"-"}


def apply(rules, line):
    """What a rule, of three words or of four, makes of the modes of its pair."""
    words = line.split()
    pair = tuple(words[:2])
    if len(words) == 3:
        rules[pair] = modes(words[2])
    else:
        rules[pair] = (rules.get(pair, set()) | modes(words[2])) - modes(words[3])


class Kernel:
    """Queues in the place of load2 and change-rule, and the rules that came of what was written there."""

    def __init__(self, folder):
        self.folder, self.rules, self.lines, self.seen = folder, {}, 0, {}
        os.mkdir(folder)
        for name in ["load2", "change-rule"]:
            os.mkfifo(f"{folder}/{name}")
            self.seen[name] = threading.Event()
            threading.Thread(target=self.read, args=[name], daemon=True).start()

    def read(self, name):
        with os.fdopen(os.open(f"{self.folder}/{name}", os.O_RDWR), "r", encoding="ascii") as it:
            for line in it:
                if line == "end\n":
                    self.seen[name].set()
                    continue
                self.lines += 1
                apply(self.rules, line)

    def settled(self):
        """The pairs that have modes, once all that was written is read."""
        for name, seen in self.seen.items():
            seen.clear()
            with open(f"{self.folder}/{name}", "w", encoding="ascii") as it:
                it.write("end\n")
            seen.wait()
        return {pair: it for pair, it in self.rules.items() if it}


def main():
    packages = int(sys.argv[1]) if len(sys.argv) > 1 else 200
    count = int(sys.argv[2]) if len(sys.argv) > 2 else 4
    where = os.environ.get("TMPDIR") or ("/dev/shm" if os.access("/dev/shm", os.W_OK) else None)
    with tempfile.TemporaryDirectory(dir=where) as room:
        run(room, packages, count)
    print(f"{len(problems)} problems")
    return 1 if problems else 0


def run(room, packages, count):
    kernel = Kernel(f"{room}/smackfs")
    env = {**os.environ, "PRIVILEGE_DIR": room, "PRIVILEGE": PROGRAM, "SMACKFS": f"{room}/smackfs", "LOADED": f"{room}/loaded/rules"}
    service = subprocess.Popen([PROGRAM, "serve", "64"], env=env, stderr=subprocess.DEVNULL)
    while not all(os.path.exists(f"{room}/{it}.socket") for it in ["client", "admin", "agent"]):
        time.sleep(0.02)
    admin = subprocess.Popen([PROGRAM, "admin"], env=env, stdin=subprocess.PIPE, stdout=subprocess.PIPE, text=True)
    commits, installed, ended, checks = [0], [], threading.Event(), [0] * count

    def command(text):
        admin.stdin.write(text + "\n")
        admin.stdin.flush()
        line = admin.stdout.readline()
        if line != f"ok {commits[0] + 1}\n":
            problem(f"{text}: {line}")
        commits[0] += 1

    def ask(at):
        chance = random.Random(at)
        while not ended.is_set():
            least, there = commits[0], len(installed)
            if not there:
                time.sleep(0.01)
                continue
            package = installed[chance.randrange(there)]
            words = [PROGRAM, "check", f"User::Pkg::{package}", "s", "5001", "p"]
            got = subprocess.run(words, env=env, capture_output=True, text=True)
            answer = got.stdout.split()
            if got.returncode or answer[0] != "allow" or int(answer[1]) < least or answer[2:] != ["MANIFESTS", words[2], "*", "p"]:
                if package in installed:
                    problem(f"check of {package}: {got.returncode} {got.stdout} {got.stderr}")
            checks[at] += 1

    def load(*words):
        got = subprocess.run([f"{TOP}/packaging/load-smack-rules", *words], env=env, capture_output=True, text=True)
        if got.returncode or got.stderr:
            problem(f"load-smack-rules {words}: {got.returncode} {got.stderr}")

    def compare(what):
        """What the queues were told, beside the program's own rules over a backup."""
        backup = f"{room}/copy/store"
        os.makedirs(f"{room}/copy", exist_ok=True)
        subprocess.run([f"{TOP}/packaging/privilege-backup", f"{room}/store", backup], env=env, check=True, stdout=subprocess.DEVNULL)
        text = subprocess.run([PROGRAM, "smack-load"], env={"PRIVILEGE_DIR": f"{room}/copy"}, capture_output=True, text=True, check=True)
        subprocess.run(["rm", "-r", backup], check=True)
        wanted = {}
        for line in text.stdout.splitlines():
            apply(wanted, line)
        wanted = {pair: it for pair, it in wanted.items() if it}
        found = kernel.settled()
        if found != wanted:
            problem(f"{what}: {len(found)} pairs, and {len(wanted)} are wanted")
        print(f"{what}: {len(found)} pairs, by {kernel.lines} lines", flush=True)

    command("layout")
    command("user 5001 admin")
    clients = [threading.Thread(target=ask, args=[at]) for at in range(count)]
    for it in clients:
        it.start()
    begun, longest = time.monotonic(), 0
    for at in range(packages):
        author = f"author{at % 5}" if at % 2 else "-"
        command(f"install pkg{at} {author} app{at} * p")
        installed.append(f"pkg{at}")
        started = time.monotonic()
        load("--package", f"pkg{at}")
        longest = max(longest, time.monotonic() - started)
        if (f"User::Pkg::pkg{at}", "User::Home") not in kernel.settled():
            problem(f"the rules of pkg{at} are not there")
    took = time.monotonic() - begun
    print(f"{packages} packages with their rules in {took:.1f} s, the longest load {longest:.2f} s; {sum(checks)} checks meanwhile", flush=True)
    compare("behind the installs")
    for at in range(0, packages, 3):
        installed.remove(f"pkg{at}")
        command(f"remove app{at} *")
        load("--package", f"pkg{at}")
        if any(f"User::Pkg::pkg{at}" in pair for pair in kernel.settled()):
            problem(f"rules of pkg{at} are left")
    compare("behind the removals")
    load("--all")
    compare("behind --all")
    ended.set()
    for it in clients:
        it.join()
    print(f"{sum(checks)} checks by {count} clients, {commits[0]} commits", flush=True)
    admin.stdin.write("stop\n")
    admin.stdin.close()
    admin.wait()
    service.wait()


sys.exit(main())
