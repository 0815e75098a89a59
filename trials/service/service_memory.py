#!/usr/bin/env python3
"""service_memory.py [--program PATH]: has each request of a service for memory fail in turn, alone and with all later ones, by
`fail_alloc.c`, while it is talked with over real sockets: clients, an administrator, an agent, frames that are wrong, a stop. Minutes.

Where one request fails alone, what may change is this, and no more: the service does not start and ends with status 1; or one
connection ends without its answer, and the next one is answered; or a worker ends, and the status of the stop is 1. Where all later
ones fail too, each answer that is given is right, and connections end without one, or the service ends with status 1. In both cases
the folder afterwards has the last acknowledged commit, or the one behind it where that was begun. Ends with status 1 at any other
change. Needs `gcc`.

Where a thread cannot be made, the toolchain runs its work before or behind that of others, so that those who wait for one another
stand still: a service whose start finds no memory for a thread may leave a door without answers, and its stop. That is counted
apart, and may come of the requests of the start alone. What the C library asks for to make a thread is spared."""

import argparse
import pathlib
import select
import struct
import subprocess
import sys
import time

import program
from service import (
    ADMIN_CHECK,
    AGENT_GONE,
    ALLOW,
    ANSWER,
    DENY,
    DONE,
    END,
    ERASE,
    FROM_AGENT,
    JUDGED,
    LISTING,
    NO_AGENT,
    QUESTION,
    REGISTER,
    REGISTERED,
    ROW,
    STOP,
    HungUp,
    Link,
    Service,
    check,
    frame,
    number,
    room,
    setting,
    text,
    texts,
)

TRIALS = pathlib.Path(__file__).resolve().parents[1]
WORKERS, KIND = 2, 10
KEY, ASKED, OF_AGENT = (b"c", b"*", b"p"), (b"c", b"u", b"p"), (b"a", b"u", b"p")
PATIENCE, PATIENCE_AT_START = 20, 2


class Wrong(Exception):
    """Something that may not change has changed."""


class Ended(Exception):
    """The service has ended, or goes on without giving any answer."""


class Still(Exception):
    """A door gives no answer, since a thread could not be made."""


class Talk:
    """One service, what it is asked in turn, and what came of it."""

    def __init__(self, folder, path, shim, of_start, **failing):
        kept = {"LD_PRELOAD": str(shim), "FAIL_ALLOC_COUNT": str(folder / "count"), "FAIL_ALLOC_SPARE": "1", **failing}
        self.service = Service(folder, path, WORKERS, **kept)
        self.all_later = "FAIL_ALLOC_ON" in failing
        self.may_stand_still = 0 < int(failing.get("FAIL_ALLOC", 0)) <= of_start
        self.patience = PATIENCE_AT_START if self.may_stand_still else PATIENCE
        self.acknowledged, self.begun, self.ends = 0, 0, 0

    def start(self):
        """Whether it started."""
        try:
            self.service.start()
            return True
        except SystemExit:
            return False

    def again(self, step):
        """What a step gives, which is done again where its connection ends without an answer."""
        for _ in range(3):
            try:
                return step()
            except HungUp:
                self.ends += 1
                if self.service.process.poll() is not None:
                    raise Ended from None
            except TimeoutError:
                raise self.stand_still("nobody answers") from None
        raise Ended

    def expect(self, what, found, want):
        if found != want:
            raise Wrong(f"{what}: {found}, and {want} is wanted")

    def stand_still(self, what):
        """What it is that a door gives no answer."""
        return Still() if self.may_stand_still else Ended() if self.all_later else Wrong(what)

    # ---- the steps

    def asks(self, question, kinds):
        """Several checks on one connection, which are answered at the last acknowledged commit, or one that was begun."""
        def step():
            with Link(self.service.folder, "client", self.patience) as link:
                link.send(b"".join(check(question, place) for place in range(len(kinds))))
                return [link.read() for _ in kinds]
        for place, (sequence, operation, fields) in enumerate(self.again(step)):
            commit = number(fields, 0, 8)
            self.expect("a reply's number", sequence, place)
            if not self.acknowledged <= commit <= self.begun:
                raise Wrong(f"commit {commit} answers, {self.acknowledged} was acknowledged")
            found = number(fields, 8, 2) if operation == JUDGED else operation
            self.expect(f"a check at commit {commit}", found, kinds[place])

    def found(self):
        """The commit that the administrators' door tells."""
        def step():
            with Link(self.service.folder, "admin", self.patience) as link:
                return link.ask(frame(1, ADMIN_CHECK, text(b"") + b"\1" + texts(ASKED)))
        _, operation, fields = self.again(step)
        self.expect("an administrator's check", operation, JUDGED)
        return number(fields, 0, 8)

    def commands(self, data):
        """A command, which is sent again where it was not accepted."""
        for _ in range(4):
            self.begun = self.acknowledged + 1
            try:
                with Link(self.service.folder, "admin", self.patience) as link:
                    _, operation, fields = link.ask(data)
            except HungUp:
                self.ends += 1
                if self.service.process.poll() is not None:
                    raise Ended from None
                commit = self.found()
                if commit not in (self.acknowledged, self.begun):
                    raise Wrong(f"commit {commit} behind {self.acknowledged}") from None
                if commit == self.begun:
                    self.acknowledged = commit
                    return
                continue
            except TimeoutError:
                raise self.stand_still("an administrator is not answered") from None
            self.expect("a command", (operation, number(fields, 0, 8)), (DONE, self.begun))
            self.acknowledged = self.begun
            return
        raise Ended

    def lists(self, count):
        def step():
            with Link(self.service.folder, "admin", self.patience) as link:
                link.send(frame(1, LISTING, text(b"") + text(b"#") * 3))
                operations = [link.read()[1]]
                while operations[-1] == ROW:
                    operations.append(link.read()[1])
                return operations
        self.expect("a list", self.again(step), [ROW] * count + [END])

    def agent_answers(self):
        def step():
            with Link(self.service.folder, "agent", self.patience) as agent, Link(self.service.folder, "client", self.patience) as client:
                first = agent.ask(frame(0, REGISTER, struct.pack(">H", KIND)))
                if first[1] != REGISTERED:
                    # the one before, whose connection ended, is not noticed yet
                    return None
                client.send(check(OF_AGENT, 7))
                # a client whose question was not put is hung up, and the agent is not asked
                readable, _, _ = select.select([agent.socket, client.socket], [], [], self.patience)
                answered = self.question(agent) if agent.socket in readable else None
                return answered, client.read()
        found = self.again(step)
        if found and found[0]:
            operation, fields = found[1][1:]
            self.expect("an agent's answer", (operation, fields[8:]), (FROM_AGENT, struct.pack(">H", KIND) + found[0] + b"\1"))
        elif found and found[1][1] not in (NO_AGENT, AGENT_GONE):
            raise Wrong(f"an agent was not asked, and {found[1]} is answered")

    def question(self, agent):
        """Answers one question. Its number, or none where the agent's connection ends before."""
        try:
            _, operation, fields = agent.read()
            self.expect("a question", operation, QUESTION)
            agent.send(frame(0, ANSWER, fields[:4] + b"\1"))
            return fields[:4]
        except HungUp:
            self.ends += 1
            return None

    def wrong_frames(self):
        for door in "client", "admin", "agent":
            try:
                with Link(self.service.folder, door, self.patience) as link:
                    link.ask(bytes(4))
                raise Wrong(f"a frame that is too short is answered at the door {door}")
            except HungUp:
                pass
            except TimeoutError:
                raise self.stand_still(f"a wrong frame holds the door {door}") from None

    def talk(self):
        self.asks(ASKED, [DENY] * 3)
        self.commands(setting(b"", KEY, ALLOW))
        self.commands(setting(b"", (b"a", b"*", b"*"), KIND, b"ask"))
        self.asks(ASKED, [ALLOW] * 20)
        self.lists(2)
        self.asks(OF_AGENT, [NO_AGENT])
        self.agent_answers()
        self.wrong_frames()
        self.commands(frame(1, ERASE, text(b"") + text(b"c") + text(b"#") * 2))
        self.asks(ASKED, [DENY])
        self.lists(1)

    def stop(self):
        """The status of a stop, or None where it gives none."""
        for _ in range(4):
            try:
                with Link(self.service.folder, "admin", self.patience) as link:
                    operation = link.ask(frame(1, STOP))[1]
                self.expect("a stop", operation, DONE)
                break
            except HungUp:
                self.ends += 1
            except TimeoutError:
                raise self.stand_still("a stop is not answered") from None
        try:
            return self.service.process.wait(self.patience)
        except subprocess.TimeoutExpired:
            raise self.stand_still("the service does not end") from None


def look_at_folder(folder, path, talk):
    """Compares what the folder has with what was acknowledged."""
    service = Service(folder, path, WORKERS).start()
    try:
        with Link(folder, "admin") as link:
            commit = number(link.ask(frame(1, ADMIN_CHECK, text(b"") + b"\1" + texts(ASKED)))[2], 0, 8)
        if not talk.acknowledged <= commit <= talk.begun:
            raise Wrong(f"the folder has commit {commit}, {talk.acknowledged} was acknowledged")
    finally:
        service.kill()


def run(path, shim, of_start=0, **failing):
    """What came of one talk, in a word, and how many requests there were."""
    with room() as name:
        folder = pathlib.Path(name)
        talk = Talk(folder, path, shim, of_start, **failing)
        try:
            if not talk.start():
                if talk.service.process.returncode != 1:
                    raise Wrong(f"a service that does not start ends with {talk.service.process.returncode}")
                return "did not start", 0
            talk.talk()
            status = talk.stop()
            came = {(0, 0): "no change", (0, 1): "one connection ended", (1, 0): "a worker ended"}.get((status, talk.ends), "more ended")
        except Ended:
            status = talk.service.process.poll()
            came, status = "no more answers", 1 if status is None else status
        except Still:
            came, status = "a thread could not be made", 1
        finally:
            if talk.service.process.poll() is None:
                talk.service.kill()
        if status not in (0, 1):
            raise Wrong(f"status {status}")
        if talk.ends > 1 and not talk.all_later and not talk.may_stand_still:
            raise Wrong(f"{talk.ends} connections ended")
        count = folder / "count"
        requests = int(count.read_text()) if count.exists() else 0
        look_at_folder(folder, path, talk)
        return came, requests


def requests_of_start(path, shim):
    """How many requests a service makes at most until it answers: with those of a stop."""
    with room() as name:
        talk = Talk(pathlib.Path(name), path, shim, 0)
        talk.start()
        talk.stop()
        return int((talk.service.folder / "count").read_text())


def main():
    words = argparse.ArgumentParser(description=__doc__, formatter_class=argparse.RawDescriptionHelpFormatter)
    words.add_argument("--program", type=pathlib.Path)
    words.add_argument("--from", type=int, default=1, dest="first")
    words.add_argument("--every", type=int, default=1)
    options = words.parse_args()
    if not options.program:
        program.build()
    path = options.program or program.PROGRAM
    with room() as name:
        shim = pathlib.Path(name) / "fail_alloc.so"
        subprocess.run(["gcc", "-O2", "-shared", "-fPIC", "-o", shim, TRIALS / "lib" / "fail_alloc.c", "-ldl"], check=True)
        came, requests = run(path, shim)
        if came != "no change" or not requests:
            sys.exit(f"without a failure: {came}, {requests} requests")
        of_start = requests_of_start(path, shim)
        for more in {}, {"FAIL_ALLOC_ON": "1"}:
            counts, start = {}, time.monotonic()
            for place in range(options.first, requests + 1, options.every):
                try:
                    came, _ = run(path, shim, of_start, FAIL_ALLOC=str(place), **more)
                except Wrong as wrong:
                    sys.exit(f"request {place} of {requests}{' and all later ones' if more else ''}: {wrong}")
                counts[came] = counts.get(came, 0) + 1
            said = ", ".join(f"{what} {count} times" for what, count in sorted(counts.items()))
            how = "with all later ones" if more else "alone"
            print(f"{requests} requests, each failed {how}: {said}; {time.monotonic() - start:.0f} s", flush=True)


if __name__ == "__main__":
    main()
