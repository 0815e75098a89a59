#!/usr/bin/env python3
"""Random schedules of links that fail, close and answer, for the cases of crates/cases_client, with what a client is to
answer, send and dial by a model of its own. `client_model.py COUNT SEED stdin` writes the cases, and with `stdout` the
cases with their answers."""
import random
import sys

import frame_model

TRIES = 3
LAST = 2**64 - 1


class Link:
    """A link in memory. What is to come is what a service of this schedule says to the frames that were sent."""

    def __init__(self, closed_after, fails):
        self.closed_after, self.fails = closed_after, fails
        self.to_come, self.given, self.sent = b"", 0, b""
        self.made = self.faults = 0
        self.ended = self.down = False

    def call(self):
        """Whether the link reads as closed at this call, or None where the call fails."""
        closed = self.made >= self.closed_after
        self.made += 1
        if self.made in self.fails:
            self.faults += 1
            return None
        return closed

    def is_up(self):
        closed = self.call()
        if closed is None or closed:
            self.down = True
        return closed is False

    def send(self, frame):
        if self.call() is None:
            return False
        self.sent += frame
        return True

    def receive(self, size):
        closed = self.call()
        if closed is None:
            return None
        piece = b"" if closed else self.to_come[self.given : self.given + size]
        self.given += len(piece)
        if not piece:
            self.ended = True
        return piece

    def gave_trouble(self):
        return self.faults > 0 or self.ended or self.down


class Service:
    """The dialler of a schedule, which makes up the links and what comes over them as it goes."""

    def __init__(self, chance):
        self.chance = chance
        self.fails, self.links, self.back = [], [], []
        self.dials = self.faults = 0
        self.commit = chance.randrange(3)

    def dial(self):
        self.dials += 1
        if self.chance.random() < 0.2:
            self.fails.append(self.dials)
            self.faults += 1
            return None
        chance = self.chance
        closed_after = chance.choice((0, 1, 3, 5, 7, 9, 12, 99, 99, 99, 99))
        fails = [n for n in range(1, 20) if chance.random() < 0.04]
        self.links.append(Link(closed_after, fails))
        return self.links[-1]

    def give_back(self, link):
        self.back.append(link)
        if link.gave_trouble():
            self.faults += 1

    def answer(self, link, sequence, simple):
        """Makes up the reply to a frame that went out on the link."""
        chance = self.chance
        if chance.random() < 0.3:
            self.commit += 1
        if chance.random() < 0.05:
            sequence = (sequence + chance.choice((1, 255, 65535))) % 65536
        frame = reply(chance, self.commit, sequence, simple)
        if chance.random() < 0.08:
            frame = spoiled(chance, frame)
        if chance.random() < 0.05:
            frame = frame[: chance.randrange(len(frame))]
        link.to_come += frame


def number(value, size):
    return value.to_bytes(size, "big")


def text(value):
    return number(len(value), 2) + value


def framed(sequence, operation, fields):
    rest = number(sequence, 2) + number(operation, 1) + fields
    return number(len(rest), 4) + rest


def reply(chance, commit, sequence, simple):
    kind = number(chance.choice((2, 10, 65533)), 2)
    commit = number(commit, 8)
    what = chance.random()
    if what < 0.7:
        value = chance.choice((0, 65535, 65535, 10))
        metadata = b"ask" if value == 10 else b""
        row = chance.choice((b"\0", b"\1" + text(b"c") + text(b"*") + text(b"p")))
        return framed(sequence, 0x81, commit + number(value, 2) + text(metadata) + text(chance.choice((b"", b"MAIN"))) + row)
    if what < 0.76:
        return framed(sequence, 0x82, commit + kind + number(chance.randrange(9), 4) + number(chance.randrange(2), 1))
    if what < 0.82:
        return framed(sequence, 0x83 if simple else 0x84, commit + kind)
    if what < 0.87:
        return framed(sequence, 0x85, commit + number(chance.randrange(9), 4))
    if what < 0.92:
        return framed(sequence, 0x86, commit + kind + number(chance.choice((1024, 4294967295)), 4))
    if what < 0.96:
        return framed(sequence, 0x90, commit + number(0, 4))
    return framed(sequence, chance.choice((0x93, 0x95)), number(chance.randrange(3), 4) if what < 0.98 else b"")


def spoiled(chance, frame):
    at = chance.randrange(len(frame))
    return frame[:at] + bytes([chance.choice((0, 1, 2, 0x20, 0x7F, 0xFF))]) + frame[at + 1 :]


def told_fault(fault):
    """A frame's fault as the cases of clients tell it."""
    what, value = fault.split(" ")
    return f"bad:{'trailing' if what == 'behind' else what}:{value}"


def read_frame(link):
    """One frame of the link: `(frame, None)`, `(None, fault)`, or None where the link failed or ended before it was whole."""
    frame, want = b"", 4
    while True:
        while len(frame) < want:
            piece = link.receive(min(want - len(frame), 4096))
            if not piece:
                return None
            frame += piece
        if want == 4:
            length = int.from_bytes(frame, "big")
            if length < 3:
                return None, f"bad:too-short:{length}"
            if length > 1048576:
                return None, f"bad:too-long:{length}"
            want = 4 + length
            continue
        fault = frame_model.fault("replies", frame)
        return (None, told_fault(fault)) if fault else (frame, None)


def said(frame):
    """What a right frame of a reply answers to a check: the commit, whether an entry is made of it, and the text."""
    operation, commit = frame[6], int.from_bytes(frame[7:15], "big")
    kind = int.from_bytes(frame[15:17], "big")
    if operation == 0x81:
        return commit, not 2 <= kind <= 65533, f"judged:{commit}:{kind}"
    if operation == 0x82:
        allowed = "true" if frame[21] else "false"
        return commit, False, f"agent:{commit}:{kind}:{int.from_bytes(frame[17:21], 'big')}:{allowed}"
    if operation == 0x83:
        return commit, False, f"not-resolved:{commit}:{kind}"
    if operation == 0x84:
        return commit, False, f"no-agent:{commit}:{kind}"
    if operation == 0x85:
        return commit, False, f"agent-gone:{commit}:{int.from_bytes(frame[15:19], 'big')}"
    if operation == 0x86:
        return commit, False, f"agent-full:{commit}:{kind}:{int.from_bytes(frame[17:21], 'big')}"
    return None


class Client:
    """A client by the rules: the cache is a list, the most recently used first."""

    def __init__(self, service, entries):
        self.service, self.entries = service, entries
        self.link, self.cache, self.told, self.sequence = None, [], 0, 0

    def leave(self):
        if self.link:
            self.service.give_back(self.link)
        self.link, self.cache = None, []

    def check(self, session, letter, simple):
        tries = TRIES
        if self.link and not self.link.is_up():
            self.leave()
            tries -= 1
        if self.link:
            for entry in self.cache:
                if entry[:2] == (session, letter) and entry[2] >= self.told:
                    self.cache.remove(entry)
                    self.cache.insert(0, entry)
                    return entry[3]
        frame = framed(self.sequence, 2 if simple else 1, text(letter.encode()) + text(b"u") + text(b"p"))
        sent = self.sequence
        was_sent = False
        came = None
        while tries and not came:
            if not self.link:
                self.cache = []
                self.link = self.service.dial()
                if not self.link:
                    tries -= 1
                    continue
            was_sent = True
            if self.link.send(frame):
                self.service.answer(self.link, sent, simple)
                came = read_frame(self.link)
            if not came:
                self.leave()
                tries -= 1
        self.sequence = (self.sequence + was_sent) % 65536
        return self.conclude(session, letter, sent, came) if came else "unavailable"

    def conclude(self, session, letter, sent, came):
        frame, fault = came
        if fault:
            self.leave()
            return fault
        got = int.from_bytes(frame[4:6], "big")
        if got != sent:
            self.leave()
            return f"bad:sequence:{sent}:{got}"
        answer = said(frame)
        if not answer:
            self.leave()
            return f"bad:answer:{frame[6]}"
        commit, is_kept, told = answer
        if commit < self.told:
            self.leave()
            return f"older:{self.told}:{commit}"
        if is_kept:
            kept = [entry for entry in self.cache if entry[:2] != (session, letter)]
            self.cache = [(session, letter, commit, told), *kept][: self.entries]
        return told


def case(chance):
    service = Service(chance)
    entries = chance.choice((1, 2, 3, 16))
    client = Client(service, entries)
    calls, answers = [], []
    for _ in range(chance.randrange(1, 12)):
        if chance.random() < 0.15:
            told = max(0, service.commit - chance.randrange(3) + chance.randrange(2))
            client.told = max(client.told, told)
            calls.append(f"t{told}")
            continue
        session, letter, simple = chance.choice("ab"), chance.choice("cde"), chance.random() < 0.3
        calls.append(("s" if simple else "c") + session + letter)
        answers.append(client.check(session, letter, simple))
    # at the end the link is given back, so that what was sent on it is shown
    calls += [f"t{LAST}", "cac"]
    client.told = LAST
    answers.append(client.check("a", "c", False))
    fails = ",".join(map(str, service.fails)) or "-"
    links = "/".join(f"{link.to_come.hex()}:{link.closed_after}:{','.join(map(str, link.fails)) or '-'}" for link in service.links)
    back = "".join(f" {link.sent.hex()}/{link.given}" for link in service.back)
    words = f"client {entries} {fails} {links or '-'} {','.join(calls)}"
    return words, f"{' '.join(answers)} | dials {service.dials} faults {service.faults} back{back}"


def main():
    count, seed, what = int(sys.argv[1]), int(sys.argv[2]), sys.argv[3]
    chance = random.Random(seed)
    for _ in range(count):
        words, answer = case(chance)
        print(words if what == "stdin" else f"{words} => {answer}")


if __name__ == "__main__":
    main()
