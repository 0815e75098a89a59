"""Agents that hold a service up, and their askers, for held_up.py. A question is of the kind 10, and the policy asks it."""

import random
import threading
import time

from held_up_peers import AGENT_WORKERS, ASKED, FREE, HELD, answered, honest, is_ended, registered, timed, wanted
from service import (
    AGENT_GONE,
    ALLOW,
    ANSWER,
    FROM_AGENT,
    NO_AGENT,
    QUESTION,
    REGISTER,
    REGISTERED,
    TAKEN,
    UNKNOWN,
    WITHDRAWN,
    HungUp,
    Link,
    check,
    frame,
    setting,
)

# Asked of the agent, where the others are not.
THEIRS = (b"a", b"u", b"p")
# How soon a peer that left is noticed.
NOTICED = 1
MOST_AGENTS = AGENT_WORKERS - 1


def agent_of(service, kind=10, patience=20):
    agent = Link(service.folder, "agent", patience)
    wanted("it registers", agent.ask(frame(1, REGISTER, kind.to_bytes(2, "big")))[1] == REGISTERED)
    return agent


def asking(service, kind=10):
    """The policies ask an agent of this kind about THEIRS, and allow ASKED."""
    service.command(setting(b"", ASKED, ALLOW))
    service.command(setting(b"", THEIRS, kind))


def answer(number, allowed=True):
    return frame(1, ANSWER, number + bytes([allowed]))


def askers_that_leave(service):
    """Each worker of clients asks an agent that says nothing, and the asker leaves: the questions are taken back."""
    asking(service)
    with agent_of(service) as agent:
        numbers, taken = [], []
        for place in range(4):
            link = Link(service.folder, "client")
            link.send(check(THEIRS))
            if place == 0:
                numbers.append(agent.read()[2][:4])
            time.sleep(0.01)
            link.close()
        honest(service, "client")
        until = time.monotonic() + 10
        while len(taken) < 1 and time.monotonic() < until:
            _, operation, fields = agent.read()
            if operation == QUESTION:
                numbers.append(fields[:4])
            if operation == WITHDRAWN:
                taken.append(fields)
        wanted("the first question is taken back", taken == numbers[:1], (numbers, taken))
        agent.send(answer(numbers[0]))
        wanted("its late answer is for nobody", agent.read()[1] in (UNKNOWN, WITHDRAWN, QUESTION))


def commits_while_an_agent_is_asked(service):
    """Two clients wait for a dialog, and ask anew where a commit hangs them up: an honest one is answered, and the last answer is theirs."""
    asking(service)
    with agent_of(service) as agent:
        got, threads = [], []

        def ask():
            for _ in range(8):
                try:
                    with Link(service.folder, "client", 20) as link:
                        got.append(link.ask(check(THEIRS))[1])
                        return
                except HungUp:
                    pass

        for _ in range(2):
            threads.append(threading.Thread(target=ask))
            threads[-1].start()
        time.sleep(0.3)
        for _ in range(3):
            service.command(setting(b"", (b"z", b"*", b"p"), ALLOW))
            time.sleep(0.5)
        honest(service, "client")
        until, open_ones = time.monotonic() + 10, 0
        while len(got) < 2 and time.monotonic() < until:
            _, operation, fields = agent.read()
            if operation == QUESTION:
                open_ones += 1
                time.sleep(0.3)
                agent.send(answer(fields[:4]))
                # Whoever got the last answer has noted it by then.
                time.sleep(0.2)
        for thread in threads:
            thread.join()
        wanted("both are answered by the agent", got == [FROM_AGENT] * 2, got)
        wanted("a question is not put twice at once", open_ones <= 8, open_ones)


def agent_that_leaves_while_nothing_is_asked(service):
    asking(service)
    agent_of(service).close()
    start = time.monotonic()
    while time.monotonic() < start + HELD:
        with Link(service.folder, "agent") as agent:
            if agent.ask(frame(1, REGISTER, b"\0\x0a"))[1] == REGISTERED:
                break
        time.sleep(0.05)
    took = time.monotonic() - start
    print(f"  another registers after {took:.3f} s")
    wanted("another registers", took <= NOTICED, f"{took:.3f} s")


def agents_that_registered_and_left(service):
    for at in range(MOST_AGENTS):
        agent_of(service, 256 + at).close()
    time.sleep(NOTICED)
    wanted("an agent registers", timed("honest agent", FREE, lambda: registered(service.folder)))


def a_ninth_agent(service):
    kept = [agent_of(service, 256 + at) for at in range(MOST_AGENTS)]
    with Link(service.folder, "agent") as agent:
        told = timed("told", FREE, lambda: agent.ask(frame(1, REGISTER, b"\0\x63"))[1])
        wanted("it is told at once", told == TAKEN, told)
    del kept


def agent_that_answers_other_numbers(service):
    asking(service)
    with agent_of(service) as agent, Link(service.folder, "client", 30) as client:
        client.send(check(THEIRS))
        _, operation, fields = agent.read()
        wanted("it is asked", operation == QUESTION)
        other = (int.from_bytes(fields[:4], "big") ^ 0x40000000).to_bytes(4, "big")
        agent.send(answer(other) * 700)
        wanted("it is let go", timed("let go", HELD, lambda: is_ended(agent, 10)))
        wanted("its asker hears that it is gone", client.read()[1] == AGENT_GONE)


def agent_that_never_answers(service):
    asking(service)
    with agent_of(service) as agent, Link(service.folder, "client", 90) as client:
        client.send(check(THEIRS))
        wanted("it is asked", agent.read()[1] == QUESTION)
        start = time.monotonic()
        wanted("its asker hears that it is gone", client.read()[1] == AGENT_GONE)
        took = time.monotonic() - start
        print(f"  after {took:.1f} s")
        wanted("after a minute", 55 <= took <= 75, f"{took:.1f} s")


class Coming(threading.Thread):
    """Agents of one kind that come, register, answer, leave or stay silent, at random, one after the other."""

    def __init__(self, service, kind, count):
        super().__init__()
        self.service, self.kind, self.count, self.draw = service, kind, count, random.Random(kind)
        self.given, self.twice = set(), 0

    def run(self):
        for _ in range(self.count):
            try:
                self.one()
            except (HungUp, TimeoutError):
                pass

    def one(self):
        with Link(self.service.folder, "agent", 1) as agent:
            if self.draw.random() < 0.1 or agent.ask(frame(1, REGISTER, self.kind.to_bytes(2, "big")))[1] != REGISTERED:
                return
            for _ in range(self.draw.randrange(4)):
                _, operation, fields = agent.read()
                if operation != QUESTION:
                    continue
                self.twice += fields[:4] in self.given
                self.given.add(fields[:4])
                if self.draw.random() < 0.2:
                    return
                agent.send(answer(fields[:4], self.draw.random() < 0.5))


def a_thousand_agents(service):
    kinds = range(20, 20 + MOST_AGENTS)
    for kind in kinds:
        service.command(setting(b"", (b"k%d" % kind, b"u", b"p"), kind))
    coming = [Coming(service, kind, 125) for kind in kinds]
    got, over = {}, [False]

    def ask(draw):
        while not over[0]:
            kind = draw.choice(kinds)
            try:
                with Link(service.folder, "client", 20) as link:
                    operation = link.ask(check((b"k%d" % kind, b"u", b"p")))[1]
                    got[operation] = got.get(operation, 0) + 1
            except HungUp:
                got["hung"] = got.get("hung", 0) + 1
            except TimeoutError:
                got["late"] = got.get("late", 0) + 1

    askers = [threading.Thread(target=ask, args=(random.Random(at),)) for at in range(3)]
    for thread in [*coming, *askers]:
        thread.start()
    for thread in coming:
        thread.join()
    over[0] = True
    for thread in askers:
        thread.join()
    print(f"  {got}")
    wanted("each question is answered, or its agent is not there", set(got) <= {FROM_AGENT, NO_AGENT, AGENT_GONE}, got)
    wanted("none is given twice", not sum(one.twice for one in coming))
    time.sleep(NOTICED)
    wanted("an agent registers at the end", registered(service.folder))
    wanted("a client is answered at the end", answered(service.folder))


CASES = [
    askers_that_leave,
    commits_while_an_agent_is_asked,
    agent_that_leaves_while_nothing_is_asked,
    agents_that_registered_and_left,
    a_ninth_agent,
    agent_that_answers_other_numbers,
]
LONG = [agent_that_never_answers, a_thousand_agents]
