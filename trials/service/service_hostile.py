#!/usr/bin/env python3
"""service_hostile.py [--frames N] [--program PATH] [--seed N]: peers that mean no good, over real sockets, at a service with 4
workers of clients. Minutes with the million frames that are sent where nothing else is said. In turn
- peers that vanish at each byte of a frame, at each door, also with a reply unread;
- 200 connections at once, and 200 that are held and say nothing, of which each is served once those before it left;
- 20 agents of as many kinds, of which 8 are served, and each other one is told that its kind is taken, until one of those leaves;
- clients that send and never read, one at each worker: a commit frees all of them;
- frames at random, bent at random places, and bytes at random, at the three doors at once.
Behind each part a client is answered at the last commit, and an agent answers. The service stays up; its threads are as many as
before, and what it holds in memory does not grow from the first tenth of the random frames to their end. Ends with status 1 where
one is not as wanted. Linux alone.

An agent that leaves while nothing is asked is noticed within a second. A question of its kind that comes before is answered by
"agent gone", and one that comes behind by "no agent"."""

import argparse
import multiprocessing
import pathlib
import random
import socket
import struct
import sys
import threading
import time

import program
from service import QUESTION as ASKED
from service import (
    ADMIN_CHECK,
    AGENT_GONE,
    ALLOW,
    ANSWER,
    CHECK,
    DENY,
    ERASE,
    FROM_AGENT,
    JUDGED,
    LAYOUT,
    LISTING,
    NO_AGENT,
    REGISTER,
    REGISTERED,
    SET_BUCKET,
    SIMPLE,
    STOP,
    TAKEN,
    HungUp,
    Link,
    Service,
    check,
    frame,
    number,
    room,
    setting,
    text,
    texts,
)

WORKERS = 4
QUESTION = (b"c", b"u", b"p")
KEY = (b"c", b"*", b"p")
# Kinds of agents, each of which a policy leads to.
KINDS = range(2, 24)
# How many of them come at random: fewer than agents are served, so that one place is left for the agent that answers.
BUSY = 6
# How many agents are served at once.
MOST_AGENTS = 8
# Within how many seconds an agent that left is noticed.
NOTICED = 1
# By how much the memory of a service may differ between two looks at it, in KiB.
SLACK = 1024
FAULTS = []


def wanted(what, found, want):
    if found != want:
        FAULTS.append(f"{what}: {found}, and {want} is wanted")


def asked(folder):
    """The commit and the kind of a check, over a link of its own; dialled anew where a commit hangs it up."""
    for _ in range(10):
        try:
            with Link(folder, "client") as link:
                _, operation, fields = link.ask(check(QUESTION))
        except HungUp:
            continue
        return number(fields, 0, 8), number(fields, 8, 2) if operation == JUDGED else operation
    return "ten hang-ups"


def register(kind):
    return frame(0, REGISTER, struct.pack(">H", kind))


def question_of(kind):
    return b"kind%d" % kind, b"u", b"p"


def answer_of(folder, kind):
    """The operation of the answer to a question for the agent of a kind."""
    for _ in range(10):
        try:
            with Link(folder, "client") as link:
                return link.ask(check(question_of(kind)))[1]
        except HungUp:
            continue
    return None


def is_gone(folder, kind):
    """Whether it is noticed in time that the agent of a kind, which was served, has left."""
    end = time.monotonic() + NOTICED
    while time.monotonic() < end:
        found = answer_of(folder, kind)
        if found == NO_AGENT:
            return True
        if found != AGENT_GONE:
            return False
        time.sleep(0.05)
    return False


def registered(folder, kind):
    """A link with an agent of this kind, once there is a place for it."""
    for _ in range(30):
        link = Link(folder, "agent")
        if link.ask(register(kind))[1] == REGISTERED:
            return link
        link.close()
        time.sleep(0.1)
    return None


def look(service, after):
    """A commit, a client that is answered at it, and an agent that is asked, answers and leaves."""
    kind = random.choice((ALLOW, DENY))
    commit = service.command(setting(b"", KEY, kind))
    wanted(f"an answer behind {after}", asked(service.folder), (commit, kind))
    agent = registered(service.folder, KINDS[0])
    wanted(f"an agent behind {after}", agent is not None, True)
    if agent is None:
        return
    with agent, Link(service.folder, "client") as client:
        client.send(check(question_of(KINDS[0])))
        _, operation, fields = agent.read()
        wanted(f"a question behind {after}", operation, ASKED)
        agent.send(frame(0, ANSWER, fields[:4] + b"\1"))
        reply = struct.pack(">QH", commit, KINDS[0]) + fields[:4] + b"\1"
        wanted(f"an agent's answer behind {after}", client.read()[1:], (FROM_AGENT, reply))
    wanted(f"the agent that left is noticed, behind {after}", is_gone(service.folder, KINDS[0]), True)


def vanishing(service):
    """At each door, for each front of a frame, a peer that sends it and is gone; and one that is gone before it read the reply."""
    doors = ("client", check(QUESTION)), ("admin", setting(b"", KEY, ALLOW)), ("agent", register(KINDS[1]))
    for door, data in doors:
        for length in range(len(data) + 1):
            for whole in (b"", data):
                with Link(service.folder, door) as link:
                    link.send(whole + data[:length])
    wanted("the last agent that vanished is noticed", is_gone(service.folder, KINDS[1]), True)


def at_once(service):
    answers = []
    threads = [threading.Thread(target=lambda: answers.append(asked(service.folder))) for _ in range(200)]
    for thread in threads:
        thread.start()
    for thread in threads:
        thread.join()
    wanted("answers to connections at once", (len(answers), len(set(answers))), (200, 1))


def held(service):
    """Connections that are held: the first are served, and each other one when one of those leaves."""
    links = [Link(service.folder, "client") for _ in range(200)]
    for link in links:
        link.send(check(QUESTION))
    answered = 0
    while links:
        # which of them is served first is for the service to say
        for link in list(links):
            link.socket.settimeout(5 if link is links[0] else 0)
            try:
                link.read()
                answered += 1
            except (TimeoutError, BlockingIOError):
                continue
            link.close()
            links.remove(link)
    wanted("answers to connections that wait", answered, 200)


def agents(service):
    links = {kind: Link(service.folder, "agent") for kind in KINDS[2:]}
    answers = {kind: link.ask(register(kind))[1] for kind, link in links.items()}
    served = [kind for kind, answer in answers.items() if answer == REGISTERED]
    others = [kind for kind, answer in answers.items() if answer == TAKEN]
    wanted("agents that are served", (len(served), len(others)), (MOST_AGENTS, len(links) - MOST_AGENTS))
    for kind in others:
        links[kind].close()
    for leaves, comes in zip(served, others):
        links[leaves].close()
        links[comes] = registered(service.folder, comes)
        wanted(f"an agent of kind {comes} behind one that left", links[comes] is not None, True)
    for kind in others[:MOST_AGENTS]:
        if links[kind]:
            links[kind].close()
        wanted(f"the agent of kind {kind}, which left, is noticed", is_gone(service.folder, kind), True)


def deaf(service):
    """Clients that fill what a socket holds in both directions, at each worker."""
    links = [Link(service.folder, "client", patience=1) for _ in range(WORKERS)]
    questions = check(QUESTION) * 1000
    for link in links:
        try:
            while True:
                link.send(questions)
        except TimeoutError:
            pass
    commit = service.command(setting(b"", KEY, ALLOW))
    wanted("an answer beside clients that do not read", asked(service.folder), (commit, ALLOW))
    for link in links:
        link.close()


# ---- at random


def harmless(door, draw):
    """A right frame of the door, none of which makes the policies grow for long."""
    if door == "client":
        return check((draw.choice((b"c", b"d")), b"u", b"p"), draw.randrange(65536), draw.choice((CHECK, SIMPLE)))
    if door == "agent":
        return frame(0, ANSWER, struct.pack(">IB", draw.randrange(100), draw.randrange(2)))
    return draw.choice((
        frame(1, LISTING, text(b"") + text(b"#") * 3),
        frame(1, ADMIN_CHECK, text(b"") + b"\1" + texts(QUESTION)),
        frame(1, ERASE, text(b"") + text(b"c") + text(b"#") * 2),
        setting(b"", (draw.choice((b"c", b"d")), b"*", b"p"), ALLOW),
        # refused, since there is no layout
        frame(1, 0x16, bytes(5)),
        frame(1, 0x18, texts((b"pk", b"", b"app")) + b"\0\0\0\0\1" + text(b"p")),
    ))


def bent(data, draw):
    """The bytes with a few changed, left out or put in."""
    data = bytearray(data)
    for _ in range(draw.randint(1, 3)):
        place = draw.randrange(len(data))
        match draw.randrange(4):
            case 0:
                del data[place]
            case 1:
                data.insert(place, draw.randrange(256))
            case _:
                data[place] = draw.choice((0, 1, 255, draw.randrange(256)))
        if not data:
            break
    return bytes(data)


def is_spared(door, data):
    """Whether this may stop the service, or make what none of these frames takes away again: a bucket, an agent of another kind."""
    if door == "admin":
        return any(operation in data for operation in (SET_BUCKET, LAYOUT, STOP))
    return door == "agent" and REGISTER in data


def peer(folder, door, count, seed):
    """Sends so many frames over connections of which each ends with a bent one, with bytes at random, or in the middle."""
    draw = random.Random(seed)
    while count > 0:
        some = draw.choice((1, 4, 16, 64, 256)) if door != "admin" else draw.choice((1, 4, 16))
        data = b"".join(harmless(door, draw) for _ in range(some - 1))
        if door == "agent" and draw.random() < 0.8:
            data = register(draw.choice(KINDS[:BUSY])) + data
        front = harmless(door, draw)[: draw.randint(1, 9)]
        last = draw.choice((bent(harmless(door, draw), draw), draw.randbytes(draw.randint(1, 64)), front))
        if is_spared(door, last):
            continue
        count -= some
        try:
            with Link(folder, door, patience=30) as link:
                link.send(data + last)
                if draw.random() < 0.5:
                    link.socket.shutdown(socket.SHUT_WR)
                    while True:
                        link.more()
                        link.held.clear()
        except HungUp:
            pass
        except OSError as error:
            if isinstance(error, TimeoutError):
                sys.exit(f"a peer at the door {door} waits for ever")


def at_random(service, count, seed):
    shares = {"client": count * 8 // 10, "admin": count // 10, "agent": count // 10}
    peers = [multiprocessing.Process(target=peer, args=(service.folder, *share, seed)) for share in shares.items()]
    for one in peers:
        one.start()
    while any(one.is_alive() for one in peers):
        if isinstance(asked(service.folder), str):
            FAULTS.append("a client that means good is hung up ten times")
        for kind in KINDS[:BUSY]:
            answer_of(service.folder, kind)
    for one in peers:
        one.join()
        wanted("how a peer ends", one.exitcode, 0)
    begin(service)


def begin(service):
    """The policies of the trial, and no other."""
    service.command(frame(1, ERASE, text(b"") + text(b"#") * 3))
    for kind in KINDS:
        service.command(setting(b"", question_of(kind), kind))


def tried(service, options):
    begin(service)
    look(service, "its start")
    threads = service.said("Threads")
    for part in vanishing, at_once, held, agents, deaf:
        start = time.monotonic()
        part(service)
        look(service, part.__name__)
        print(f"{part.__name__}: {time.monotonic() - start:.1f} s, {service.said('VmRSS')} KiB", flush=True)
    start = time.monotonic()
    at_random(service, options.frames // 10, options.seed)
    first = service.said("VmRSS")
    at_random(service, options.frames - options.frames // 10, options.seed + 1)
    look(service, "frames at random")
    last = service.said("VmRSS")
    print(f"{options.frames} frames at random: {time.monotonic() - start:.1f} s, {first} KiB behind the first tenth, {last} at the end")
    if last > first + SLACK:
        FAULTS.append(f"the memory grew from {first} to {last} KiB")
    wanted("threads", service.said("Threads"), threads)


def main():
    words = argparse.ArgumentParser(description=__doc__, formatter_class=argparse.RawDescriptionHelpFormatter)
    words.add_argument("--frames", type=int, default=1_000_000)
    words.add_argument("--program", type=pathlib.Path)
    words.add_argument("--seed", type=int, default=1)
    options = words.parse_args()
    random.seed(options.seed)
    if not options.program:
        program.build()
    with room() as folder:
        service = Service(folder, options.program, WORKERS).start()
        try:
            tried(service, options)
            wanted("the status of a stop", service.stop(), 0)
            wanted("sockets behind a stop", service.left(), [])
        finally:
            if service.process.poll() is None:
                service.process.kill()
    for fault in FAULTS:
        print(fault)
    sys.exit(1 if FAULTS else 0)


if __name__ == "__main__":
    main()
