"""The client and the agent of `service_hour.py`, each a process of its own, which may be killed at any moment:
`service_people.py client FOLDER PLACE SEED` and `service_people.py agent FOLDER PLACE SEED`. What they count and know of one
another stands in the file `words` of the folder, in shared memory. A fault is a line in the file `faults`."""

import mmap
import pathlib
import random
import struct
import sys
import time

import service
from service import HungUp, Link, check, frame, number, text, texts
from service_history import KIND, QUESTIONS, History

ACKNOWLEDGED, BEGUN, STOPPED, FAULTS = range(4)
# For each place: how many checks were answered, how many of them by what was kept and by an agent, the hang-ups, the greatest commit,
# and the longest that one took, in microseconds, where it is told.
ANSWERED, KEPT, BY_AGENT, HUNG_UP, SEEN, LONGEST = range(6)
PLACES, WORDS_OF_PLACE = 8, 8


class Words:
    """Numbers of eight bytes that all processes of a trial see, each written by one of them at a time."""

    def __init__(self, folder, make=False, places=PLACES):
        self.folder = pathlib.Path(folder)
        path = self.folder / "words"
        if make:
            path.write_bytes(bytes(8 * WORDS_OF_PLACE * (places + 1)))
        with open(path, "r+b") as file:
            self.view = memoryview(mmap.mmap(file.fileno(), 0)).cast("Q")

    def __getitem__(self, place):
        return self.view[place]

    def __setitem__(self, place, value):
        self.view[place] = value

    def all(self, count):
        """A count of each place."""
        return [self.view[at + count] for at in range(WORDS_OF_PLACE, len(self.view), WORDS_OF_PLACE)]

    def fault(self, said):
        self[FAULTS] = 1
        with open(self.folder / "faults", "a") as file:
            print(said, file=file, flush=True)


def granted(question, asked):
    """What the agent answers to the question of this number, so that the answer to another is seen."""
    return (len(b"".join(question)) + asked) % 2


class Client:
    """Asks, and looks at each answer. It keeps answers as docs/use/PROTOCOL.md allows, in some of its checks."""

    def __init__(self, folder, place, seed):
        self.folder, self.words, self.base = folder, Words(folder), WORDS_OF_PLACE * (place + 1)
        self.draw, self.history = random.Random(seed), History()
        self.link, self.kept, self.sequence = None, {}, 0

    def count(self, what, more=1):
        self.words[self.base + what] += more

    def run(self):
        while not self.words[STOPPED]:
            try:
                self.turn()
            except HungUp:
                self.count(HUNG_UP)
                self.drop()
            except TimeoutError:
                self.words.fault("a client waits for ever")
                return

    def drop(self):
        if self.link:
            self.link.close()
        self.link, self.kept = None, {}

    def turn(self):
        if not self.link:
            try:
                self.link = Link(self.folder, "client")
            except HungUp:
                # the service was killed
                time.sleep(0.01)
                return
        if self.draw.random() < 0.5:
            self.ask_or_keep(self.draw.randrange(len(QUESTIONS)))
        else:
            self.ask_many(self.draw.randint(1, 16))

    def ask_or_keep(self, asked):
        floor = self.words[ACKNOWLEDGED]
        if not self.link.is_up():
            raise HungUp
        if asked in self.kept:
            self.judge(asked, False, self.kept[asked], floor)
            self.count(KEPT)
            return
        operation, fields = self.ask([(asked, False)], floor)[0]
        if operation == service.JUDGED and number(fields, 8, 2) in (0, 0xFFFF):
            self.kept[asked] = operation, fields

    def ask_many(self, count):
        simple = self.draw.random() < 0.5
        floor = self.words[ACKNOWLEDGED]
        self.ask([(self.draw.randrange(len(QUESTIONS)), simple) for _ in range(count)], floor)

    def ask(self, asked, floor):
        """The replies to questions that are sent together."""
        sent, first = b"", self.sequence
        for question, simple in asked:
            sent += check(QUESTIONS[question], self.sequence, service.SIMPLE if simple else service.CHECK)
            self.sequence = (self.sequence + 1) % 65536
        self.link.send(sent)
        replies = []
        for place, (question, simple) in enumerate(asked):
            sequence, *reply = self.link.read()
            if sequence != (first + place) % 65536:
                self.words.fault(f"the reply {reply} has the number {sequence}, and {(first + place) % 65536} was asked")
            self.judge(question, simple, reply, floor)
            replies.append(reply)
        return replies

    def judge(self, asked, simple, reply, floor):
        """Compares a reply with what the commit that it names has."""
        operation, fields = reply
        commit = number(fields, 0, 8)
        self.count(ANSWERED)
        self.words[self.base + SEEN] = max(commit, self.words[self.base + SEEN])
        if not floor <= commit <= self.words[BEGUN]:
            self.words.fault(f"commit {commit} answers, {floor} was acknowledged and {self.words[BEGUN]} begun")
            return
        wanted = self.wanted(QUESTIONS[asked], simple, self.history.at(commit)[asked], operation, fields)
        if fields[8:] != wanted:
            self.words.fault(f"commit {commit}, {QUESTIONS[asked]}, {operation:#x}: {fields[8:]}, and {wanted} is wanted")

    def wanted(self, question, simple, verdict, operation, fields):
        """What follows the commit in a reply with this operation, or None where there is to be none with it."""
        kind, metadata, bucket, key = verdict
        start = struct.pack(">H", kind)
        if kind != KIND:
            decided = bytes([key is not None]) + texts(key or ())
            return start + text(metadata) + text(bucket) + decided if operation == service.JUDGED else None
        if simple:
            return start if operation == service.NOT_RESOLVED else None
        match operation:
            case service.FROM_AGENT:
                self.count(BY_AGENT)
                asked = number(fields, 10, 4)
                return start + struct.pack(">IB", asked, granted(question, asked))
            case service.NO_AGENT:
                return start
            case service.AGENT_GONE:
                # whose number nobody else knows
                return fields[8:12]
            case service.AGENT_FULL:
                return start + struct.pack(">I", 1024)
        return None


def agent(folder, place, seed):
    """An agent that registers, answers some questions and leaves, in the middle of one or not, and comes again."""
    draw, words, base = random.Random(seed), Words(folder), WORDS_OF_PLACE * (place + 1)
    while not words[STOPPED]:
        time.sleep(draw.choice((0, 0.02, 0.3)))
        try:
            with Link(folder, "agent", patience=0.5) as link:
                serve(link, draw, words, base)
        except HungUp:
            words[base + HUNG_UP] += 1
        except TimeoutError:
            # nothing is asked
            pass


def serve(link, draw, words, base):
    _, operation, fields = link.ask(frame(0, service.REGISTER, struct.pack(">H", KIND)))
    if operation == service.TAKEN:
        return
    if operation != service.REGISTERED or fields != struct.pack(">H", KIND):
        words.fault(f"an agent that registers is answered {operation:#x} {fields}")
    for left in reversed(range(draw.choice((1, 10, 100)))):
        sequence, operation, fields = link.read()
        while operation == service.UNKNOWN:
            sequence, operation, fields = link.read()
        asked, found = number(fields, 0, 4), 4
        question = []
        for _ in range(3):
            size = number(fields, found, 2)
            question.append(fields[found + 2 : found + 2 + size])
            found += 2 + size
        rest = [struct.pack(">H", KIND) + text(metadata) for metadata in (b"ask", b"")]
        if operation != service.QUESTION or sequence != asked % 65536 or tuple(question) not in QUESTIONS or fields[found:] not in rest:
            words.fault(f"an agent is asked {sequence} {operation:#x} {fields}")
        time.sleep(draw.choice((0, 0, 0.001, 0.02)))
        if left or draw.random() < 0.5:
            link.send(frame(sequence, service.ANSWER, struct.pack(">IB", asked, granted(question, asked))))
            words[base + ANSWERED] += 1


def main():
    role, folder, place, seed = sys.argv[1:]
    if role == "client":
        Client(folder, int(place), int(seed)).run()
    else:
        agent(folder, int(place), int(seed))


if __name__ == "__main__":
    main()
