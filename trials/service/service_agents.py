#!/usr/bin/env python3
"""service_agents.py [--agents N] [--program PATH] [--seed N]: 1,000 agents that come, register, leave or stay silent at random, and
clients that ask them and leave before they are answered, over real sockets. A minute or two.

Some agents are as many at once as the service takes, and more kinds are wanted than it takes at once, so that some hear that there is no
room. Each question that was given to an agent is answered, withdrawn, or gone with the agent, and none of them twice: no number is given
twice; what a client is told of a number is what its agent said; an agent is told once at most that a question was withdrawn, only of one
that it was given and has not answered; an answer behind that is unknown. No client waits longer than agents stay. At the end each
kind's agent is registered and answers, and the service stops with status 0. Ends with status 1 where one is not as wanted."""

import argparse
import collections
import itertools
import pathlib
import random
import struct
import sys
import threading
import time

import program
from service import (
    AGENT_GONE,
    ANSWER,
    FROM_AGENT,
    NO_AGENT,
    QUESTION,
    REGISTER,
    REGISTERED,
    TAKEN,
    UNKNOWN,
    HungUp,
    Link,
    Service,
    check,
    frame,
    number,
    room,
    setting,
)

WITHDRAWN = 0xA4
WORKERS = 8
KINDS = range(2, 12)
# As many agents come at once, and as many clients ask.
AGENTS, CLIENTS = 9, 6
# How long an agent says nothing, at most; a question is open for as long at most, and then some.
SILENCE = 1.5
PATIENCE = 20
FAULTS = []
COUNTS = collections.Counter()
LOCK = threading.Lock()


def wanted(what, holds, found=""):
    if not holds:
        with LOCK:
            FAULTS.append(f"{what} {found}")


def count(what):
    with LOCK:
        COUNTS[what] += 1


class Question:
    """What became of a question that was given to an agent."""

    def __init__(self):
        self.answer = None
        self.is_withdrawn = self.is_unknown = False


class Given:
    """The questions that were given so far, by their numbers."""

    def __init__(self):
        self.questions = {}

    def give(self, name):
        with LOCK:
            is_new = name not in self.questions
            self.questions.setdefault(name, Question())
        wanted("a number is given once:", is_new, name)

    def get(self, name):
        with LOCK:
            return self.questions.get(name)


GIVEN = Given()


class Agent:
    """One connection of an agent."""

    def __init__(self, folder, draw):
        self.draw, self.link = draw, Link(folder, "agent", PATIENCE)
        # The numbers that it was given on this connection, and the one that is open.
        self.mine, self.open = set(), None

    def reads(self, seconds):
        """The next message within so much time, and None where none came."""
        self.link.socket.settimeout(seconds)
        try:
            return self.link.read()
        except TimeoutError:
            return None
        finally:
            self.link.socket.settimeout(PATIENCE)

    def hear(self, seconds):
        """Hears what comes within so much time, up to the next question. Whether there is one."""
        until = time.monotonic() + seconds
        while (left := until - time.monotonic()) > 0:
            told = self.reads(left)
            if told is None:
                break
            sequence, operation, fields = told
            name = number(fields, 0, 4)
            if operation == QUESTION:
                wanted("one question at a time:", self.open is None, name)
                wanted("the sequence number of a question:", sequence == name % 65536, name)
                GIVEN.give(name)
                self.mine.add(name)
                self.open = name
                return True
            if operation == WITHDRAWN:
                self.withdrawn(sequence, name)
            elif operation == UNKNOWN:
                self.unknown(name)
            else:
                wanted("what an agent is told:", False, hex(operation))
        return False

    def withdrawn(self, sequence, name):
        count("withdrawn")
        question = GIVEN.get(name)
        wanted("a question that is withdrawn was given here:", name in self.mine, name)
        wanted("the sequence number of what was withdrawn:", sequence == name % 65536, name)
        wanted("it is withdrawn once:", question and not question.is_withdrawn, name)
        wanted("it was the last that was given:", self.open in (name, None), name)
        if question:
            question.is_withdrawn = True
        if self.open == name:
            self.open = None

    def unknown(self, name):
        count("unknown")
        question = GIVEN.get(name)
        wanted("an answer that is unknown was given here:", question and question.answer is not None, name)
        if question:
            question.is_unknown = True

    def answer(self, name, allowed):
        question = GIVEN.get(name)
        question.answer = allowed
        self.link.send(frame(0, ANSWER, struct.pack(">IB", name, allowed)))
        if self.open == name:
            self.open = None
        count("answers")

    # ---- what it may do

    def serve(self):
        """Answers a few questions, some of them late."""
        for _ in range(self.draw.randint(1, 6)):
            if not self.hear(self.draw.uniform(0.1, SILENCE)):
                continue
            name = self.open
            if self.draw.random() < 0.4:
                # It thinks, and may hear meanwhile that nobody needs the answer any more.
                self.hear(self.draw.uniform(0, SILENCE))
            if self.draw.random() < 0.9:
                self.answer(name, self.draw.randrange(2))
        self.hear(0.3)

    def stay(self):
        self.hear(self.draw.uniform(0, SILENCE))
        self.hear(self.draw.uniform(0, SILENCE))

    def chatter(self):
        """Answers what nobody asked."""
        for name in self.draw.sample(range(1 << 31, 1 << 32), 20):
            self.link.send(frame(0, ANSWER, struct.pack(">IB", name, 1)))
            with LOCK:
                question = GIVEN.questions.setdefault(name, Question())
            question.answer = True
        self.hear(SILENCE / 2)

    def leave(self):
        pass


def agent(folder, kinds, draw):
    """One agent, from its coming to its leaving."""
    try:
        one = Agent(folder, draw)
    except HungUp:
        count("not connected")
        return
    with one.link:
        try:
            if draw.random() < 0.1:
                count("said nothing")
                time.sleep(draw.uniform(0, 0.2))
                return
            kind = draw.choice(kinds)
            one.link.send(frame(0, REGISTER, struct.pack(">H", kind)))
            if draw.random() < 0.05:
                count("left at once")
                return
            _, operation, fields = one.link.read()
            if operation == TAKEN:
                count("taken")
                return
            wanted("a registration is told:", (operation, number(fields, 0, 2)) == (REGISTERED, kind), hex(operation))
            count("registered")
            draw.choices((one.serve, one.stay, one.chatter, one.leave), (6, 2, 1, 1))[0]()
            if one.open is not None:
                count("left with a question")
        except HungUp:
            # A link that stood in line, or had sent nothing, may be let go.
            count("let go")
        except TimeoutError:
            wanted("an agent is told in time", False)


def client(folder, kinds, draw, is_over):
    """Asks until the agents are through, and leaves before some answers."""
    while not is_over.is_set():
        kind = draw.choice(kinds)
        try:
            with Link(folder, "client", PATIENCE) as link:
                link.send(check((b"kind%d" % kind, b"u", b"p")))
                if draw.random() < 0.4:
                    count("clients that left")
                    time.sleep(draw.uniform(0, SILENCE))
                    continue
                _, operation, fields = link.read()
        except HungUp:
            count("clients let go")
            continue
        except TimeoutError:
            wanted("a client is answered in time", False)
            continue
        told(kind, operation, fields)
        if operation == NO_AGENT:
            time.sleep(0.02)


def told(kind, operation, fields):
    """What a client was told of a question is what its agent said."""
    if operation == FROM_AGENT:
        count("from an agent")
        wanted("the kind of an answer:", number(fields, 8, 2) == kind, kind)
        name, allowed = number(fields, 10, 4), fields[14]
        question = GIVEN.get(name)
        wanted("an answer is that of the agent:", question and question.answer == allowed, name)
        wanted("it was not withdrawn:", question and not question.is_withdrawn and not question.is_unknown, name)
    elif operation == AGENT_GONE:
        count("gone")
    elif operation == NO_AGENT:
        count("no agent")
    else:
        wanted("what a client is told:", False, hex(operation))


def registered(folder, kind):
    """An agent of the kind, within five seconds, or None."""
    until = time.monotonic() + 5
    while time.monotonic() < until:
        try:
            link = Link(folder, "agent", 2)
            if link.ask(frame(0, REGISTER, struct.pack(">H", kind)))[1] == REGISTERED:
                return link
            link.close()
        except (HungUp, TimeoutError):
            pass
        time.sleep(0.05)
    return None


def answers(folder, kind, agent):
    """Whether a client that asks the agent is told its answer."""
    try:
        with Link(folder, "client", 5) as client:
            client.send(check((b"kind%d" % kind, b"u", b"p")))
            _, operation, fields = agent.read()
            agent.send(frame(0, ANSWER, fields[:4] + b"\1"))
            return operation == QUESTION and client.read()[1] == FROM_AGENT
    except (HungUp, TimeoutError):
        return False


def look(service):
    """Eight kinds, as many as have an agent at once, are registered and answer; and then the others."""
    for kinds in KINDS[:8], KINDS[8:]:
        links = {kind: registered(service.folder, kind) for kind in kinds}
        for kind, link in links.items():
            wanted("an agent is registered at the end:", link is not None, kind)
            wanted("it answers at the end:", link is None or answers(service.folder, kind, link), kind)
        for link in links.values():
            if link is not None:
                link.close()


def tried(service, options):
    for kind in KINDS:
        service.command(setting(b"", (b"kind%d" % kind, b"u", b"p"), kind))
    is_over, left = threading.Event(), itertools.count()
    draws = itertools.count(options.seed * 1000)

    def come():
        draw = random.Random(next(draws))
        while next(left) < options.agents:
            agent(service.folder, KINDS, draw)

    askers = [
        threading.Thread(target=client, args=(service.folder, KINDS, random.Random(next(draws)), is_over))
        for _ in range(CLIENTS)
    ]
    comers = [threading.Thread(target=come) for _ in range(AGENTS)]
    start = time.monotonic()
    for thread in askers + comers:
        thread.start()
    for thread in comers:
        thread.join()
    is_over.set()
    for thread in askers:
        thread.join()
    print(f"{options.agents} agents in {time.monotonic() - start:.1f} s: {dict(COUNTS)}", flush=True)
    look(service)


def main():
    words = argparse.ArgumentParser(description=__doc__, formatter_class=argparse.RawDescriptionHelpFormatter)
    words.add_argument("--agents", type=int, default=1000)
    words.add_argument("--program", type=pathlib.Path)
    words.add_argument("--seed", type=int, default=1)
    options = words.parse_args()
    if not options.program:
        program.build()
    with room() as folder:
        service = Service(folder, options.program, WORKERS).start()
        try:
            tried(service, options)
            wanted("the status of a stop:", service.stop() == 0)
            wanted("sockets behind a stop:", service.left() == [])
        finally:
            if service.process.poll() is None:
                service.process.kill()
    for fault in FAULTS[:40]:
        print(fault)
    print(f"{len(FAULTS)} faults")
    sys.exit(1 if FAULTS else 0)


if __name__ == "__main__":
    main()
