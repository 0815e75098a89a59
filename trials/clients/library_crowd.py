#!/usr/bin/env python3
"""library_crowd.py [--clients N] [--seconds N] [--program PATH] [--core FILE] [--seed N]: a hundred clients in C over libprivilege, each
with a cache and a connection that it keeps, at a service with four workers, for a minute under commits. Each asks some five times a
second. Wanted are
- answers for each client, none of which took more than four seconds;
- no answer of a commit below the last one that was acknowledged before its question, kept or not, nor of one that was not begun;
- the verdict of the commit that it names, by the model in `service_history.py`.
Ends with status 1 where one is not as wanted. Needs gcc, and libclient_c.a, which `rt lib` makes in crates/client_c. Linux alone."""

import argparse
import pathlib
import subprocess
import sys
import time

import program
from library_hour import people_of
from service import HungUp, Link, Service, room
from service_history import QUESTIONS, History, message
from service_people import ACKNOWLEDGED, ANSWERED, BEGUN, FAULTS, HUNG_UP, KEPT, LONGEST, STOPPED, Words

HERE = pathlib.Path(__file__).resolve().parent
WORKERS = 4
# The seconds between two commits, of which each hangs up all clients; and the most that an answer may take.
BETWEEN, MOST = 1.5, 4


def commit_next(words, history, folder):
    commit = words[ACKNOWLEDGED] + 1
    history.reach(commit)
    words[BEGUN] = commit
    with Link(folder, "admin") as link:
        link.ask(message(commit))
    words[ACKNOWLEDGED] = commit


def run(folder, people, options):
    words, history = Words(folder, make=True, places=options.clients), History()
    (folder / "questions").write_bytes(b"".join(b" ".join(question) + b"\n" for question in QUESTIONS))
    service = Service(folder, options.program, WORKERS).start()
    start = [sys.executable, HERE / "library_people.py", "crowd", folder]
    clients = [
        subprocess.Popen([*start, str(place), str(options.seed * 1000 + place), *people]) for place in range(options.clients)
    ]
    try:
        end = time.monotonic() + options.seconds
        while time.monotonic() < end and not words[FAULTS]:
            commit_next(words, history, folder)
            time.sleep(BETWEEN)
        words[STOPPED] = 1
        for place, client in enumerate(clients):
            if client.wait(60):
                words.fault(f"client {place} ends with {client.returncode}")
        if service.stop():
            words.fault("the service does not end with status 0")
    except HungUp:
        words.fault("an administrator is hung up")
    finally:
        for process in (service.process, *clients):
            if process.poll() is None:
                process.kill()
    return words


def report(words):
    answers, longest = words.all(ANSWERED), max(words.all(LONGEST)) / 1_000_000
    print(
        f"{len(answers)} clients: {sum(answers)} answers, {min(answers)} at least, {sum(words.all(KEPT))} of them kept ones;"
        f" the longest took {longest:.3f} s; {words[ACKNOWLEDGED]} commits; {sum(words.all(HUNG_UP))} found no service"
    )
    if not min(answers):
        words.fault("a client has no answer")
    if longest > MOST:
        words.fault(f"an answer took {longest:.3f} s")


def main():
    words = argparse.ArgumentParser(description=__doc__, formatter_class=argparse.RawDescriptionHelpFormatter)
    words.add_argument("--clients", type=int, default=100)
    words.add_argument("--seconds", type=float, default=60)
    words.add_argument("--seed", type=int, default=1)
    for word in "--program", "--core":
        words.add_argument(word, type=pathlib.Path)
    options = words.parse_args()
    options.plain, options.valgrind = True, False
    if not options.program:
        program.build()
    with room() as folder, room() as scratch:
        found = run(pathlib.Path(folder), people_of(pathlib.Path(scratch), options), options)
        report(found)
        if found[FAULTS]:
            print((pathlib.Path(folder) / "faults").read_text(), end="")
            sys.exit(1)


if __name__ == "__main__":
    main()
