#!/usr/bin/env python3
"""library_schedules.py [--count N] [--seed N] [--valgrind] [--core FILE]: random schedules of connections that fail, close and answer, for
libprivilege over real sockets, against a model of what PROTOCOL allows a client. A driver in C makes the calls one by one; this is the
service, which answers rightly, wrongly, in pieces, late, or not at all, hangs up between questions, and goes away. Wanted are
- of each call the answer of the model, whole: error, result, commit, agent, bucket, key;
- a frame on the connection exactly where the model has one, the same each time that it is sent, with the next number;
- no error and no leak by AddressSanitizer and UndefinedBehaviorSanitizer, or with --valgrind by valgrind.
Within the driver every call of the machine gives less than it might, or is interrupted, now and then. Needs gcc, and libclient_c.a, which
`rt lib` makes in crates/client_c. Ends with status 1 where one is not as wanted. Linux alone."""

import argparse
import pathlib
import random
import sys
import tempfile

import program
from client_model import framed, number, text
from library_door import Door, Wrong, driver_of, run_all, words_of

MILLISECONDS = 400
OK, UNAVAILABLE, TIMEOUT, BAD_REPLY, OLDER, NOT_RESOLVED, NO_AGENT, AGENT_GONE, AGENT_FULL = 0, 4, 6, 7, 8, 9, 10, 11, 12
ALLOW, TRIES = 65535, 3


class Model:
    """A client by the rules: entries are kept in a list, the most recently used first."""

    def __init__(self, entries):
        self.entries, self.kept, self.told = entries, [], 0

    def tell(self, commit):
        self.told = max(self.told, commit)

    def hit(self, asked):
        for entry in self.kept:
            if entry[0] == asked and entry[1] >= self.told:
                self.kept.remove(entry)
                self.kept.insert(0, entry)
                return entry[2]
        return None

    def keep(self, asked, commit, line):
        self.kept = [(asked, commit, line), *(entry for entry in self.kept if entry[0] != asked)][: self.entries]

    def lost(self):
        self.kept = []


class Schedule(Door):
    """A service by a schedule, and a driver that is asked one call after the other."""

    def __init__(self, folder, words, draw):
        self.commit, self.last, self.entries = 1, 65535, draw.choice((1, 2, 3, 16, 4096))
        self.model, self.unasked, self.was_up, self.ended = Model(self.entries), False, False, False
        path = folder / "client.socket"
        super().__init__(path, [*words, path, str(MILLISECONDS), str(self.entries)], draw, ["hits"])

    # ---- the service

    def hang_up(self):
        super().hang_up()
        self.model.lost()

    def between(self):
        """What happens between two calls."""
        chance = self.draw.random()
        if chance < 0.12 and self.link:
            if self.draw.random() < 0.3:
                # An unasked byte: the client has to drop the connection.
                self.link.sendall(b"\0")
                self.unasked = True
            else:
                self.was_up = True
                self.hang_up()
        elif chance < 0.16 and self.door:
            self.close_door()
        elif chance < 0.4 and not self.door:
            self.open_door()
        if self.draw.random() < 0.3:
            self.commit += self.draw.randrange(3)

    def reply(self, sequence, simple):
        """A reply: its frame, its line, its commit, and whether it is kept; the line is that of the driver."""
        draw, commit = self.draw, max(0, self.commit - (self.draw.random() < 0.05))
        told, kind, asked = number(commit, 8), draw.choice((2, 10, 65533)), draw.randrange(9)
        what = draw.random()
        if what < 0.75:
            result, bucket = draw.choice((0, ALLOW)), draw.choice((b"", b"MAIN", b"b" * 64))
            metadata = b""
            key = draw.choice(((), (b"c", b"*", b"p"), (b"n" * 255, b"u", b"*")))
            row = bytes([bool(key)]) + b"".join(map(text, key))
            frame = framed(sequence, 0x81, told + number(result, 2) + text(metadata) + text(bucket) + row)
            line = " ".join([f"{OK} {result} {commit} 0 0 .", bucket.decode() or ".", *(word.decode() for word in key)])
            return frame, line, commit, True
        if what < 0.81:
            allows = draw.randrange(2)
            frame = framed(sequence, 0x82, told + number(kind, 2) + number(asked, 4) + number(allows, 1))
            return frame, f"{OK} {ALLOW * allows} {commit} {kind} {asked} . .", commit, False
        if what < 0.87:
            frame = framed(sequence, 0x83 if simple else 0x84, told + number(kind, 2))
            return frame, f"{NOT_RESOLVED if simple else NO_AGENT} 0 {commit} {kind} 0 . .", commit, False
        if what < 0.93:
            return framed(sequence, 0x85, told + number(asked, 4)), f"{AGENT_GONE} 0 {commit} 0 {asked} . .", commit, False
        frame = framed(sequence, 0x86, told + number(kind, 2) + number(1024, 4))
        return frame, f"{AGENT_FULL} 0 {commit} {kind} 0 . .", commit, False

    def wrong(self, sequence, simple):
        """Bytes that are no reply to this question."""
        frame = self.reply(sequence, simple)[0]
        return self.draw.choice((
            framed((sequence + self.draw.choice((1, 255, 65535))) % 65536, 0x84, number(self.commit, 8) + number(10, 2)),
            framed(sequence, 0x90, number(self.commit, 8) + number(0, 4)),
            framed(sequence, 0x7F, b""),
            frame[:-1] and number(int.from_bytes(frame[:4], "big") + 1, 4) + frame[4:] + b"\0",
            b"\0\0\0\2\0\1",
            b"\0\x10\0\1\0\0\0",
        ))

    # ---- a call

    def take_frame(self, asked, simple):
        """Takes the frame of the question, and gives its number."""
        return self.take(framed(0, 2 if simple else 1, text(asked[1].encode()) + text(b"u") + text(b"p")))

    def ask(self, word, asked):
        """What the driver is to say to this question, by the model and what the service does now."""
        simple, tries, sent = word == "simple", TRIES, None
        if self.unasked:
            self.closed_by_client()
            tries -= 1
        elif self.was_up:
            tries -= 1
        elif self.link and (line := self.model.hit(asked)):
            self.counts["hits"] += 1
            return line
        self.unasked = self.was_up = False
        while tries:
            if not self.link:
                if not self.door:
                    return f"{UNAVAILABLE} 0 0 0 0 . ."
                self.accept()
            sequence = self.take_frame(asked, simple)
            if sequence != (self.last + 1) % 65536 if sent is None else sequence != sent:
                raise Wrong(f"the frame has the number {sequence}, {sent} was sent, {self.last} before")
            sent = self.last = sequence
            what = self.draw.random()
            if what < 0.08:
                self.give(self.reply(sequence, simple)[0][: self.draw.choice((0, 0, 3, 5, 9))])
                self.hang_up()
                tries -= 1
                continue
            return self.conclude(what, sequence, simple, asked)
        return f"{UNAVAILABLE} 0 0 0 0 . ."

    def conclude(self, what, sequence, simple, asked):
        if what < 0.12:
            self.give(self.wrong(sequence, simple))
            self.ended = True
            return f"{BAD_REPLY} 0 0 0 0 . ."
        if what < 0.13:
            self.give(self.reply(sequence, simple)[0][: self.draw.choice((0, 4, 8))])
            self.ended = True
            return f"{TIMEOUT} 0 0 0 0 . ."
        frame, line, commit, is_kept = self.reply(sequence, simple)
        if what < 0.15:
            # A byte behind the reply, which is seen before the next question.
            frame += b"\0"
            self.unasked = True
        self.give(frame)
        if commit < self.model.told:
            self.unasked, self.ended = False, True
            return f"{OLDER} 0 0 0 0 . ."
        if is_kept:
            self.model.keep(asked, commit, line)
        return line

    def call(self):
        """One call. What the driver says has to be what the model says."""
        draw = self.draw
        if draw.random() < 0.12:
            commit = max(0, self.commit - draw.randrange(3) + (draw.random() < 0.2))
            self.model.tell(commit)
            self.say(f"tell {commit}")
            self.hear(str(OK))
            return
        if draw.random() < 0.03:
            self.say("leave")
            self.hear(str(OK))
            self.closed_by_client()
            self.unasked = self.was_up = False
            return
        word, asked = draw.choice(("check", "check", "ask", "simple")), (draw.choice("ab"), draw.choice("cde"))
        self.ended = False
        self.say(f"{word} {asked[1]} {asked[0]} u p")
        self.hear(self.ask(word, asked))
        if self.ended:
            self.closed_by_client()

    def run(self, calls):
        for _ in range(calls):
            if not self.unasked and not self.was_up:
                self.between()
            self.call()
        self.end()


def main():
    options = words_of(argparse.ArgumentParser(description=__doc__, formatter_class=argparse.RawDescriptionHelpFormatter))
    with tempfile.TemporaryDirectory(dir=program.ROOM) as name:
        scratch = pathlib.Path(name)
        command = driver_of(scratch, options, "library_driver.c")
        sys.exit(run_all(options, scratch, lambda folder, seed: Schedule(folder, command, random.Random(seed)), 60))


if __name__ == "__main__":
    main()
