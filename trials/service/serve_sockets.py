#!/usr/bin/env python3
"""serve_sockets.py [at DIRECTORY]: talks with a service over real sockets, and says what was not as wanted. It builds the
program in `serve_sockets.rt.txt` and runs it in a folder of its own, or talks with a service of at least 4 workers that runs
in the DIRECTORY already, at any commit. A minute, beside the build. Tried are
- answers by a client that asks anew after each commit, also one whose link was dialled before it: no answer is older than the
  last commit that was acknowledged before its question;
- agents: none, one that answers, a second one of the kind, one that leaves behind two questions;
- peers that vanish at each byte of a frame, at each door;
- 200 connections at once, and a client that sends and never reads;
- frames and bytes at random at the three doors;
- a stop: status 0 where the service was started here, and no socket is left.
Ends with status 1 where one is not as wanted. Needs `rt` unless it is told where, and Linux."""

import os
import pathlib
import random
import socket
import struct
import subprocess
import sys
import tempfile
import threading
import time

from trial_crate import built

USES = ["anyhow", "folder_disk", "socket_net", "host_ports", "link_ports", "desk_server", "serve_runs"]
SECONDS = 20
ALLOW, DENY, AGENT = 0xFFFF, 0, 10
wrong = []


def frame(sequence, operation, fields=b""):
    return struct.pack(">IHB", 3 + len(fields), sequence, operation) + fields


def text(word):
    return struct.pack(">H", len(word)) + word.encode()


def check(client, sequence=1, operation=1):
    return frame(sequence, operation, text(client) + text("u") + text("p"))


def setting(client, kind):
    change = b"\1" + text("") + text(client) + text("*") + text("p") + struct.pack(">H", kind) + text("")
    return frame(2, 0x12, struct.pack(">I", 1) + change)


REGISTER = frame(0, 0x20, struct.pack(">H", AGENT))


class Link:
    """A connection at a door."""

    def __init__(self, directory, door):
        self.socket = socket.socket(socket.AF_UNIX)
        self.socket.settimeout(SECONDS)
        self.socket.connect(str(directory / f"{door}.socket"))

    def __enter__(self):
        return self

    def __exit__(self, *_):
        self.socket.close()

    def send(self, data):
        self.socket.sendall(data)

    def take(self, count):
        data = b""
        while len(data) < count:
            try:
                more = self.socket.recv(count - len(data))
            except (ConnectionResetError, BrokenPipeError):
                return None
            if not more:
                return None
            data += more
        return data

    def read(self):
        """The operation and the fields of the next frame, or None at the end."""
        head = self.take(4)
        body = head and self.take(int.from_bytes(head, "big"))
        return body and (body[2], body[3:])

    def ask(self, data):
        try:
            self.send(data)
        except OSError:
            return None
        return self.read()


def wanted(what, found, want):
    if found != want:
        wrong.append(f"{what}: {found}, and {want} is wanted")


def commit_of(reply):
    return struct.unpack_from(">Q", reply[1])[0]


def done(directory, message):
    """The commit of an administrator's message that was done."""
    with Link(directory, "admin") as link:
        reply = link.ask(message)
    if reply is None or reply[0] != 0x90:
        wrong.append(f"an administrator was answered {reply}")
        return 0
    return commit_of(reply)


def asked(directory, client):
    """A check by a link of its own, dialled anew where it is hung up: the commit and the kind of the answer."""
    for _ in range(10):
        try:
            with Link(directory, "client") as link:
                reply = link.ask(check(client))
        except OSError:
            reply = None
        if reply and reply[0] == 0x81:
            return commit_of(reply), struct.unpack_from(">H", reply[1], 8)[0]
        if reply:
            return commit_of(reply), reply[0]
    wrong.append("a client was hung up ten times")
    return 0, None


def answers(directory):
    kinds = [ALLOW, DENY] * 20
    with Link(directory, "client") as old:
        first = old.ask(check("c"))
        wanted("a first answer", first and first[0], 0x81)
        for kind in kinds:
            commit = done(directory, setting("c", kind))
            wanted("an answer behind a commit", asked(directory, "c"), (commit, kind))
        # hung up by the first commit
        wanted("a link that was hung up", old.ask(check("c")), None)


def agents(directory):
    commit = done(directory, setting("a", AGENT))
    wanted("no agent", asked(directory, "a"), (commit, 0x84))
    with Link(directory, "agent") as first, Link(directory, "client") as one, Link(directory, "client") as two:
        wanted("an agent that comes", first.ask(REGISTER), (0xA0, struct.pack(">H", AGENT)))
        with Link(directory, "agent") as second:
            wanted("a second agent", second.ask(REGISTER), (0xA1, struct.pack(">H", AGENT)))
            wanted("what follows for it", second.read(), None)
        one.send(check("a"))
        question = first.read()
        number = question[1][:4]
        wanted("a question", question[0], 0xA2)
        first.send(frame(0, 0x21, number + b"\1"))
        reply = one.read()
        wanted("an agent's answer", reply, (0x82, struct.pack(">QH", commit, AGENT) + number + b"\1"))
        one.send(check("a"))
        gone = first.read()[1][:4]
        two.send(check("a"))
        time.sleep(0.3)
        first.socket.close()
        wanted("an agent that leaves", one.read(), (0x85, struct.pack(">Q", commit) + gone))
        reply = two.read()
        wanted("a question that waited", reply and reply[0], 0x85)


def vanishing(directory):
    for door, data in ("client", check("c")), ("admin", setting("v", ALLOW)), ("agent", REGISTER):
        for length in range(len(data) + 1):
            with Link(directory, door) as link:
                link.send(data[:length])
    commit = done(directory, setting("c", ALLOW))
    wanted("an answer behind peers that vanished", asked(directory, "c"), (commit, ALLOW))


def many(directory):
    with Link(directory, "client") as deaf:
        deaf.socket.settimeout(1)
        try:
            for _ in range(100_000):
                deaf.send(check("c"))
        except OSError:
            pass
        counts = []

        def one():
            counts.append(asked(directory, "c"))

        threads = [threading.Thread(target=one) for _ in range(200)]
        for thread in threads:
            thread.start()
        for thread in threads:
            thread.join()
        wanted("connections at once", len({*counts}), 1)


def at_random(directory, draw):
    frames = [check("c"), check("c", operation=2), frame(1, 0x1A, text("") + text("#") * 3), REGISTER, frame(0, 0x21, bytes(5))]
    for _ in range(2_000):
        data = bytearray(draw.choice(frames) * draw.randint(1, 4))
        for _ in range(draw.randint(0, 3)):
            data[draw.randrange(len(data))] = draw.randrange(256)
        if 0x1C in data:
            continue
        try:
            with Link(directory, draw.choice(["client", "admin", "agent"])) as link:
                link.send(bytes(data) if draw.random() < 0.7 else draw.randbytes(draw.randint(0, 64)))
        except OSError:
            pass
    commit = done(directory, setting("c", DENY))
    wanted("an answer behind bytes at random", asked(directory, "c"), (commit, DENY))


def tried(directory):
    draw = random.Random(42)
    for name, part in ("answers", answers), ("agents", agents), ("vanishing", vanishing), ("many", many):
        start = time.monotonic()
        part(directory)
        print(f"{name}: {time.monotonic() - start:.1f} s")
    start = time.monotonic()
    at_random(directory, draw)
    print(f"at random: {time.monotonic() - start:.1f} s")
    done(directory, frame(7, 0x1C))


def stopped(directory):
    for _ in range(100):
        if not any((directory / f"{door}.socket").exists() for door in ("client", "admin", "agent")):
            return
        time.sleep(0.1)
    wrong.append("sockets are left behind a stop")


def main():
    if sys.argv[1:2] == ["at"]:
        directory = pathlib.Path(sys.argv[2])
        tried(directory)
        stopped(directory)
    else:
        with tempfile.TemporaryDirectory() as scratch:
            scratch = pathlib.Path(scratch)
            program = built(scratch, "serve_sockets", USES)
            directory = scratch / "sockets"
            directory.mkdir()
            with subprocess.Popen([program, "4", directory]) as service:
                while not (directory / "client.socket").exists():
                    time.sleep(0.05)
                tried(directory)
                stopped(directory)
                wanted("the status", service.wait(SECONDS), 0)
    for line in wrong:
        print(line)
    sys.exit(1 if wrong else 0)


if __name__ == "__main__":
    main()
