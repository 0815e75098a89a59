#!/usr/bin/env python3
"""service_hour.py [--seconds N] [--program PATH] [--seed N]: an hour's worth of checks, in ten minutes where nothing else is said,
over real sockets. Four clients, one of which is killed now and then, ask a service; two of three questions are sent, alone or up to
16 at once, and the others answered by what docs/use/PROTOCOL.md allows to keep. An administrator commits; an agent comes and goes, and is
killed; the service is killed, most often within a commit, and started anew. Each answer is compared with what a model
(`service_history.py`) has at the commit that it names. Wanted are
- no answer of a commit below the last one that was acknowledged before its question, nor of one that was not begun;
- the verdict of that commit, with the policy that decides; an agent's answer to that very question;
- behind each start the last acknowledged commit, or the one behind it where that was begun, never one below an answer that was
  given; and all policies of it;
- at the end status 0 of a stop, no socket and no process left, and the same commit behind one more start.
Where the program has the command `check`, it asks too. Ends with status 1 where one is not as wanted. Linux alone."""

import argparse
import os
import pathlib
import random
import signal
import struct
import subprocess
import sys
import threading
import time

import program
from script_model import ROOT
from service import (
    ADMIN_CHECK,
    DONE,
    END,
    JUDGED,
    LISTING,
    ROW,
    HungUp,
    Link,
    Service,
    frame,
    number,
    room,
    text,
    texts,
)
from service_history import KIND, QUESTIONS, History, message
from service_people import ACKNOWLEDGED, ANSWERED, BEGUN, BY_AGENT, FAULTS, HUNG_UP, KEPT, SEEN, STOPPED, Words

HERE = pathlib.Path(__file__).resolve().parent
CLIENTS = 4
AGENT = CLIENTS
# How often something happens, in seconds between two times.
COMMIT, KILL_CLIENT, KILL_AGENT, KILL_SERVICE, COMMAND = 0.03, 3, 5, 8, 1
UNAVAILABLE = 7


class Hour:
    def __init__(self, folder, options):
        self.folder, self.draw = folder, random.Random(options.seed)
        self.words, self.history = Words(folder, make=True), History()
        # one worker more than clients that hold their connections, for `check`
        self.service = Service(folder, options.program, CLIENTS + 1)
        self.people = {}
        self.counts = dict.fromkeys(("commits", "services", "clients", "agents", "commands", "unavailable"), 0)
        self.has_check = True

    # ---- processes

    def hire(self, place):
        role = "agent" if place == AGENT else "client"
        words = [sys.executable, HERE / "service_people.py", role, self.folder, str(place), str(self.draw.randrange(2**32))]
        self.people[place] = subprocess.Popen(words)

    def replace(self, place):
        self.people[place].send_signal(signal.SIGKILL)
        self.people[place].wait()
        self.hire(place)

    # ---- the administrator

    def commit(self):
        """Makes the next commit. Whether it was acknowledged."""
        commit = self.words[ACKNOWLEDGED] + 1
        self.words[BEGUN] = commit
        self.history.reach(commit)
        try:
            with Link(self.folder, "admin") as link:
                _, operation, fields = link.ask(message(commit))
        except HungUp:
            return False
        if operation != DONE or fields != struct.pack(">QI", commit, self.history.erased[commit]):
            self.words.fault(f"commit {commit} was answered {operation:#x} {fields}")
        self.words[ACKNOWLEDGED] = commit
        self.counts["commits"] += 1
        return True

    def found(self):
        """The commit that the administrators' door tells, with one of its verdicts."""
        fields = text(ROOT) + b"\1" + texts(QUESTIONS[0])
        with Link(self.folder, "admin") as link:
            _, operation, fields = link.ask(frame(1, ADMIN_CHECK, fields))
        if operation != JUDGED:
            self.words.fault(f"an administrator's check was answered {operation:#x}")
        return number(fields, 0, 8)

    def rows(self, bucket):
        """The policies that the administrators' door lists of a bucket, in their order."""
        found = []
        with Link(self.folder, "admin") as link:
            link.send(frame(1, LISTING, text(bucket) + text(b"#") * 3))
            while True:
                _, operation, fields = link.read()
                if operation == END and number(fields, 0, 4) == len(found):
                    return found
                if operation != ROW:
                    self.words.fault(f"a list of {bucket} has {operation:#x} {fields}")
                    return found
                found.append(row_of(fields))

    def look_behind_start(self):
        """Compares what a service that was started has with what was acknowledged, and with all answers that were given."""
        acknowledged, begun, commit = self.words[ACKNOWLEDGED], self.words[BEGUN], self.found()
        if not max(acknowledged, *self.words.all(SEEN)) <= commit <= begun:
            self.words.fault(f"commit {commit} is found, {acknowledged} was acknowledged, {max(self.words.all(SEEN))} answered")
        for bucket, wanted in self.history.rows(begun).items() if commit == begun else ():
            if self.rows(bucket) != wanted:
                self.words.fault(f"commit {commit}, bucket {bucket}: {self.rows(bucket)}, and {wanted} is wanted")
        self.words[ACKNOWLEDGED] = commit

    # ---- what happens

    def kill_service(self):
        """Kills it within one of the next commits, or between two."""
        timer = threading.Timer(self.draw.random() * 0.05, self.service.process.kill)
        timer.start()
        while self.commit():
            pass
        timer.join()
        self.service.process.wait()
        self.counts["services"] += 1
        self.service.start()
        self.look_behind_start()

    def kill_client(self):
        self.replace(self.draw.randrange(CLIENTS))
        self.counts["clients"] += 1

    def kill_agent(self):
        self.replace(AGENT)
        self.counts["agents"] += 1

    def command(self):
        """Asks by the program's own client."""
        asked = self.draw.randrange(len(QUESTIONS))
        client, user, privilege = QUESTIONS[asked]
        floor = self.words[ACKNOWLEDGED]
        kept = {**os.environ, "PRIVILEGE_DIR": str(self.folder)}
        words = [self.service.path, "check", client, b"session", user, privilege]
        done = subprocess.run(words, env=kept, stdin=subprocess.DEVNULL, stdout=subprocess.PIPE, stderr=subprocess.DEVNULL)
        if done.returncode == 2:
            self.has_check = False
            return
        self.counts["commands"] += 1
        if done.returncode == UNAVAILABLE:
            self.counts["unavailable"] += 1
            return
        self.look_at_command(asked, done, floor)

    def look_at_command(self, asked, done, floor):
        written = done.stdout.split()
        commit = int(written[1]) if len(written) > 2 and written[1].isdigit() else -1
        if done.returncode or not floor <= commit <= self.words[BEGUN]:
            self.words.fault(f"`check` ends with {done.returncode}: {done.stdout}, {floor} was acknowledged")
            return
        kind, _, bucket, key = self.history.at(commit)[asked]
        result = {0: b"deny", 0xFFFF: b"allow"}.get(kind)
        wanted = [result, b"%d" % commit, bucket or b".", *(key or [b"default"])]
        if written != wanted if kind != KIND else not is_of_agent(written):
            self.words.fault(f"`check`: {done.stdout}, and {wanted} is wanted")

    def run(self, seconds):
        self.service.start()
        self.words[BEGUN] = self.words[ACKNOWLEDGED] = 0
        for place in range(CLIENTS + 1):
            self.hire(place)
        now = time.monotonic()
        self.start, end = now, now + seconds
        happen = {self.kill_client: KILL_CLIENT, self.kill_agent: KILL_AGENT, self.kill_service: KILL_SERVICE, self.command: COMMAND}
        due = {what: now + self.draw.random() * often for what, often in happen.items()}
        while time.monotonic() < end and not self.words[FAULTS]:
            self.commit()
            for what, often in happen.items():
                if due[what] < time.monotonic() and (what != self.command or self.has_check):
                    what()
                    due[what] = time.monotonic() + self.draw.random() * 2 * often
            time.sleep(self.draw.random() * 2 * COMMIT)
        self.finish()

    def finish(self):
        self.words[STOPPED] = 1
        for place, person in self.people.items():
            try:
                if person.wait(90):
                    self.words.fault(f"process {place} ends with {person.returncode}")
            except subprocess.TimeoutExpired:
                self.words.fault(f"process {place} does not end")
                person.kill()
        for _ in range(2):
            status = self.service.stop()
            if status != 0 or self.service.left():
                self.words.fault(f"a stop gives status {status}, and leaves {self.service.left()}")
            self.service.start()
            self.look_behind_start()
        self.service.stop()

    def report(self):
        took = time.monotonic() - self.start
        answered, kept, agents, hung = (sum(self.words.all(count)[:CLIENTS]) for count in (ANSWERED, KEPT, BY_AGENT, HUNG_UP))
        counts = self.counts
        print(
            f"{took:.0f} s: {answered} answers ({answered / took:.0f} a second), {kept} of them kept ones, {agents} of an agent;"
            f" {hung} hang-ups; {counts['commits']} commits; killed: {counts['services']} services, {counts['clients']} clients,"
            f" {counts['agents']} agents; `check`: {counts['commands']}, {counts['unavailable']} of them found no service"
        )
        if not self.has_check:
            print("the program has no command `check`")


def row_of(fields):
    found, at = [], 0
    for _ in range(3):
        size = number(fields, at, 2)
        found.append(fields[at + 2 : at + 2 + size])
        at += 2 + size
    return (*found, number(fields, at, 2), fields[at + 4 :])


def is_of_agent(written):
    """Whether this is the text of an answer where an agent has to be asked."""
    return written[0] in (b"agent-gone", b"agent-full", b"no-agent") or written[2:4] == [b"agent", b"%d" % KIND]


def main():
    words = argparse.ArgumentParser(description=__doc__, formatter_class=argparse.RawDescriptionHelpFormatter)
    words.add_argument("--seconds", type=float, default=600)
    words.add_argument("--program", type=pathlib.Path)
    words.add_argument("--seed", type=int, default=1)
    options = words.parse_args()
    if not options.program:
        program.build()
    with room() as folder:
        hour = Hour(pathlib.Path(folder), options)
        try:
            hour.run(options.seconds)
        finally:
            for process in (hour.service.process, *hour.people.values()):
                if process and process.poll() is None:
                    process.kill()
        hour.report()
        faults = pathlib.Path(folder) / "faults"
        if faults.exists():
            print(faults.read_text(), end="")
            sys.exit(1)


if __name__ == "__main__":
    main()
