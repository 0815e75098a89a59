#!/usr/bin/env python3
"""The cases of trials/cases/agent_run_cases with the answers that are wanted, by a model of its own of frames to agents, of links
and of what an agent does. `agent_model.py stdin` writes the cases, and `agent_model.py stdout` the cases with their
answers."""
import sys

ALLOWED = {"allow": 1, "deny": 0}


class End(Exception):
    """The run ends with this status."""


def text(value):
    """A text as a field: its length, and its bytes."""
    data = value.encode()
    return len(data).to_bytes(2, "big") + data


def frame(sequence, operation, fields=b""):
    body = sequence.to_bytes(2, "big") + bytes([operation]) + fields
    return len(body).to_bytes(4, "big") + body


def registered(kind=10, sequence=0):
    return frame(sequence, 0xA0, kind.to_bytes(2, "big"))


def taken(kind=10, sequence=0):
    return frame(sequence, 0xA1, kind.to_bytes(2, "big"))


def question(number, client="c", user="u", privilege="p", kind=10, metadata="", sequence=None):
    sequence = number % 65536 if sequence is None else sequence
    fields = number.to_bytes(4, "big") + text(client) + text(user) + text(privilege)
    return frame(sequence, 0xA2, fields + kind.to_bytes(2, "big") + text(metadata))


def unknown(number, sequence=0):
    return frame(sequence, 0xA3, number.to_bytes(4, "big"))


def withdrawn(number):
    return frame(number % 65536, 0xA4, number.to_bytes(4, "big"))


class Fields:
    """The fields of a frame, read from the front."""

    def __init__(self, data):
        self.data = data

    def number(self, size):
        if len(self.data) < size:
            raise End(9)
        value, self.data = int.from_bytes(self.data[:size], "big"), self.data[size:]
        return value

    def text(self):
        size = self.number(2)
        if len(self.data) < size:
            raise End(9)
        value, self.data = self.data[:size], self.data[size:]
        return value.decode("latin1")

    def name(self):
        value = self.text()
        if not 1 <= len(value) <= 255 or value in "*#" or not all(is_plain(c) for c in value):
            raise End(9)
        return value

    def result(self):
        kind, metadata = self.number(2), self.text()
        if len(metadata) > 255 or not all(is_plain(c) for c in metadata):
            raise End(9)
        if kind in (0, 1, 65535):
            if metadata:
                raise End(9)
            return {0: "deny", 1: "none", 65535: "allow"}[kind]
        if kind == 65534:
            if len(metadata) > 64 or not all(c.isalnum() or c in "_-" for c in metadata):
                raise End(9)
            return "bucket:" + (metadata or ".")
        return f"agent:{kind}:{metadata}"


def is_plain(character):
    return "!" <= character <= "~" and character != ";"


def message(data):
    """The sequence number, the operation and the fields of a frame's body."""
    sequence, operation, fields = int.from_bytes(data[:2], "big"), data[2], Fields(data[3:])
    if operation in (0xA0, 0xA1):
        values = (fields.number(2),)
    elif operation == 0xA2:
        values = (fields.number(4), fields.name(), fields.name(), fields.name(), fields.result())
    elif operation in (0xA3, 0xA4):
        values = (fields.number(4),)
    else:
        raise End(9)
    if fields.data:
        raise End(9)
    return sequence, operation, values


class Link:
    def __init__(self, to_come, fails, closed):
        self.to_come, self.fails, self.closed = to_come, fails, closed
        self.made = self.received = self.faults = 0
        self.sent = b""
        self.ended = False

    def call(self):
        """Whether the link reads as closed at the next call, which may fail."""
        closed = self.made >= self.closed
        self.made += 1
        if self.made in self.fails:
            self.faults += 1
            raise End(7)
        return closed

    def send(self, data):
        self.call()
        self.sent += data

    def receive(self, room):
        closed = self.call()
        piece = b"" if closed else self.to_come[: min(room, 4096)]
        self.to_come = self.to_come[len(piece) :]
        self.received += len(piece)
        self.ended |= not piece
        return piece

    def whole(self, size, begun):
        """So many bytes, or the end of the input before any of them."""
        data = b""
        while len(data) < size:
            piece = self.receive(size - len(data))
            if not piece:
                if data or begun:
                    raise End(9)
                raise End(0)
            data += piece
        return data

    def frame(self):
        size = int.from_bytes(self.whole(4, False), "big")
        if not 3 <= size <= 1_048_576:
            raise End(9)
        return self.whole(size, True)


class Sink:
    def __init__(self, fails):
        self.fails, self.made, self.bytes = fails, 0, b""

    def write(self, data):
        self.made += 1
        if self.made in self.fails:
            raise End(5)
        self.bytes += data


def talk(kind, allowed, link, sink):
    link.send(frame(0, 0x20, kind.to_bytes(2, "big")))
    is_registered = False
    while True:
        sequence, operation, values = message(link.frame())
        if not is_registered:
            if operation == 0xA1:
                sink.write(b"taken %d\n" % values[0])
                raise End(0)
            if operation != 0xA0:
                raise End(9)
            is_registered = True
        elif operation == 0xA2:
            number, client, user, privilege, result = values
            sink.write(f"question {number} {client} {user} {privilege} {result}\n".encode())
            link.send(frame(sequence, 0x21, number.to_bytes(4, "big") + bytes([allowed])))
        elif operation not in (0xA3, 0xA4):
            raise End(9)


def status_of(kind, allowed, link, sink):
    try:
        talk(kind, allowed, link, sink)
    except End as end:
        return end.args[0]


def numbers(word):
    return [] if word == "-" else [int(number) for number in word.split(",")]


def shown(data):
    return data.decode().replace("\n", "\\n").replace(" ", "\\s") or "nothing"


def last_line(status, sink):
    if status == 9:
        try:
            sink.write(b"fault reply\n")
        except End:
            pass


def told(status, link, sink):
    last_line(status, sink)
    sent = link.sent.hex() or "nothing"
    return f"{status} {shown(sink.bytes)} {sent} left {len(link.to_come)} faults {link.faults}"


def agent(words):
    kind, allowed, sink, calls, closed, frames = words.split(" ", 5)
    link, sink = Link(bytes.fromhex(frames), numbers(calls), int(closed)), Sink(numbers(sink))
    return told(status_of(int(kind), ALLOWED[allowed], link, sink), link, sink)


def run(words):
    kind, allowed, sink, dials, calls, frames = words.split(" ", 5)
    link, sink = Link(bytes.fromhex(frames), numbers(calls), 1 << 63), Sink(numbers(sink))
    if 1 in numbers(dials):
        return f"7 {shown(sink.bytes)} dials 1 faults 1"
    status = status_of(int(kind), ALLOWED[allowed], link, sink)
    # the link is given back, which counts where a call of it failed or its input had ended
    faults = int(link.faults > 0 or link.ended)
    return f"{told(status, link, sink)} dials 1 faults {faults}"


def cases():
    def case(*frames, kind=10, answer="allow", sink="-", calls="-", closed=9999):
        return f"agent {kind} {answer} {sink} {calls} {closed} {b''.join(frames).hex(' ', -4)}"

    def command(*frames, kind=10, answer="allow", sink="-", dials="-", calls="-"):
        return f"run {kind} {answer} {sink} {dials} {calls} {b''.join(frames).hex(' ', -4)}"

    one = registered() + question(0)
    yield "# the agent registers, and its link ends; its kind is taken; it is asked; it is registered twice"
    yield case(registered())
    yield case(taken())
    yield case(one)
    yield case(registered(), registered())
    yield "# the input ends behind each byte"
    for end in range(len(one)):
        yield case(one[:end])
    yield "# each call of the link fails in turn"
    for call in range(1, 9):
        yield case(one, calls=call)
    yield "# the link reads as closed after each call"
    for closed in range(9):
        yield case(one, closed=closed)
    yield "# each call of the sink fails in turn: of two questions, of a bad reply, of a kind that is taken"
    for call in (1, 2, 3):
        yield case(one, question(1), sink=call)
    for call in (1, 2):
        yield case(one, taken(), sink=call)
    yield case(taken(), sink=1)
    yield "# messages out of their places"
    for first in (question(0), unknown(9), withdrawn(9)):
        yield case(first)
        yield case(first, registered())
    for later in (registered(), taken(), registered(11)):
        yield case(registered(), later)
        yield case(one, later, question(1))
        yield case(registered(), unknown(3), later)
    yield "# a number that is unknown is read, and nothing follows"
    yield case(registered(), unknown(4294967295), question(7), unknown(7), question(8))
    yield "# nor does anything where a question was withdrawn"
    yield case(registered(), withdrawn(4294967295), question(7), withdrawn(7), unknown(7), question(8))
    yield "# nothing is read behind the message that the kind is taken"
    yield case(taken(), one)
    yield case(taken(), b"\0\0\0\1")
    yield "# the other answer, other kinds, numbers and sequence numbers, kinds that are not the agent's"
    yield case(one, answer="deny")
    for kind in (2, 65533):
        yield case(registered(kind), question(0, kind=kind), kind=kind, answer="deny")
    yield case(registered(), question(4294967295))
    yield case(registered(sequence=7), question(65536 + 5, sequence=3))
    yield case(registered(11), question(3, kind=12), kind=10)
    yield case(taken(11), kind=10)
    yield "# results of questions as their texts"
    for kind, metadata in ((0, ""), (1, ""), (65535, ""), (65534, ""), (65534, "B"), (2, "a;"[:1]), (65533, "~!")):
        yield case(registered(), question(1, kind=kind, metadata=metadata))
    yield "# fields that are wrong"
    for kind, metadata in ((0, "x"), (1, "x"), (65535, "x"), (65534, "a.b"), (10, "a;b"), (10, "a b"), (10, "m" * 256)):
        yield case(registered(), question(1, kind=kind, metadata=metadata))
    for name in ("", "*", "#", "a b", "a;b", "n" * 256):
        yield case(registered(), question(1, client=name))
        yield case(registered(), question(1, privilege=name))
    yield "# the longest fields"
    longest = "n" * 255
    yield case(registered(), question(1, longest, longest, longest, 10, longest))
    yield "# frames that are none"
    for wrong in ("00000002", "00100001", "00100000", "000000030000a0", "000000060000a0000a00", "00000005000020000a", "00000003000000"):
        yield case(bytes.fromhex(wrong))
        yield case(one, bytes.fromhex(wrong))
    yield "# many questions"
    yield case(registered(), *(question(number) for number in range(40)))
    yield "# the command: its dial fails; the link is given back, and counts where it failed or had ended"
    yield command(registered(), dials=1)
    yield command(registered())
    yield command(taken())
    yield command(one)
    yield command(one, answer="deny")
    yield command(one[:-1])
    yield command(registered(), registered())
    yield command(one, sink=1)
    yield command(one, taken(), sink=2)
    for call in range(1, 8):
        yield command(one, calls=call)


ANSWERS = {"agent": agent, "run": run}


def main():
    for line in cases():
        if sys.argv[1] == "stdout" and not line.startswith("#"):
            word, words = line.split(" ", 1)
            line = f"{line} => {ANSWERS[word](words)}"
        print(line)


if __name__ == "__main__":
    main()
