#!/usr/bin/env python3
"""Kills `local` at random moments while it commits, and asks the next run on the same folder what it finds. That is to be the
state after some number of the lines: not fewer than were answered, not more than were written. The folder then has the files
of its list, the list, and nothing else. Before that, a second run beside one that holds the folder is to be refused: it answers
nothing, says so on standard error, and ends with the status of a failed call, while the first goes on.

Runs the built program, `local`, with PRIVILEGE_DIR naming a new folder; the state is in the folder `store` in it. Ends with
status 1 at the first that is otherwise, and with 2 where `local` keeps no state in a folder. A killed program loses nothing that the machine holds, so this shows the order of the calls and the repair
of a folder, not that a sync reaches the disk. Some thousand kills, as `kill_commits.py 3000`, take some minutes."""

import os
import pathlib
import random
import subprocess
import sys
import tempfile
import time

from program import PROGRAM, build

PRIVILEGES = 7
FAILED_CALL = 6
LINES = 200
QUESTIONS = "".join(f"check c u p{place}\n" for place in range(PRIVILEGES)).encode()


def change(number):
    """The line that makes commit `number`, the privilege that it sets, and the result."""
    place, result = number * 3 % PRIVILEGES, ("allow", "deny")[number // PRIVILEGES % 2]
    return f"set . c u p{place} {result}\n".encode(), place, result


def state(number):
    """What each privilege has after the first `number` lines: the results of an empty folder are DENY."""
    results = ["deny"] * PRIVILEGES
    for earlier in range(max(1, number - 2 * PRIVILEGES), number + 1):
        _, place, results[place] = change(earlier)
    return results


def local(environment, text):
    done = subprocess.run([PROGRAM, "local"], input=text, env=environment, stdout=subprocess.PIPE, stderr=subprocess.PIPE)
    return done.stdout.decode().splitlines(), done.returncode, done.stderr.decode()


def found(environment):
    """The number of the commit that the folder holds, and its results."""
    lines, status, said = local(environment, QUESTIONS)
    words = [line.split() for line in lines]
    commits = {row[1] for row in words}
    if status != 0 or len(words) != PRIVILEGES or len(commits) != 1:
        sys.exit(f"the next run answers {lines}, says {said} and ends with {status}")
    return int(commits.pop()), [row[0] for row in words]


def killed(environment, first, patience):
    """Writes lines from commit `first` on, and kills the run after so many seconds. The last commit that was answered."""
    script = b"".join(change(number)[0] for number in range(first, first + LINES))
    with subprocess.Popen([PROGRAM, "local"], env=environment, stdin=subprocess.PIPE, stdout=subprocess.PIPE) as run:
        run.stdin.write(script)
        run.stdin.flush()
        time.sleep(patience)
        run.kill()
        answers = run.stdout.read().decode().split("\n")[:-1]
    wanted = [f"ok {number}" for number in range(first, first + len(answers))]
    if answers != wanted:
        sys.exit(f"commits from {first} on are answered {answers}")
    return first + len(answers) - 1


def second_is_refused(environment, held):
    """Runs a second `local` while one holds the folder, which then goes on. The last commit."""
    with subprocess.Popen([PROGRAM, "local"], env=environment, stdin=subprocess.PIPE, stdout=subprocess.PIPE) as first:
        for number in (held + 1, held + 2):
            first.stdin.write(change(number)[0])
            first.stdin.flush()
            answer = first.stdout.readline().decode()
            if answer != f"ok {number}\n":
                sys.exit(f"commit {number} is answered {answer}")
            lines, status, said = local(environment, QUESTIONS)
            if lines or status != FAILED_CALL or "another program is using it" not in said:
                sys.exit(f"a second run answers {lines}, says {said} and ends with {status}")
    return held + 2


def files_fault(store):
    """What is wrong with the files of a folder at rest."""
    files = set(os.listdir(store))
    if "list" not in files:
        return sorted(files)
    version, *names = (store / "list").read_text().splitlines()
    return sorted(files ^ {"list", *names}) if version == "version 2" else [f"list, which begins with {version}"]


def main():
    rounds = int(sys.argv[1]) if len(sys.argv) > 1 else 300
    middle = 0
    build()
    with tempfile.TemporaryDirectory() as name:
        environment = dict(os.environ, PRIVILEGE_DIR=name)
        store = pathlib.Path(name) / "store"
        local(environment, change(1)[0])
        held, _ = found(environment)
        if held != 1 or not store.is_dir():
            print("local keeps no state in a folder")
            sys.exit(2)
        held = second_is_refused(environment, held)
        for turn in range(rounds):
            answered = killed(environment, held + 1, random.expovariate(8))
            was, (held, results) = held, found(environment)
            if not answered <= held <= was + LINES or results != state(held):
                sys.exit(f"kill {turn}: from {was} on {answered} was answered, and {held} is found, as {results}")
            if files_fault(store):
                sys.exit(f"kill {turn}: these files are in the folder or in the list alone: {files_fault(store)}")
            middle += held > answered
    print(f"{rounds} kills, {held} commits, {middle} of them found that were not answered")


main()
