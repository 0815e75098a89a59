"""What a service answers on one connection, from the definitions: a client's checks, and an agent's answers, over a hall that
gives a list of answers. A model of its own, which shares nothing with the product. `server_model.py [COUNT [SEED]]` writes random
cases of `cases_doors`, half of each door, with the answers that are due; `with_answer` answers a case."""

import random
import struct
import sys

ALLOW, DENY, NONE, AGENT = 65535, 0, 1, 10
LAST_COUNT = 2**64 - 1
MOST_PIECE = 4096


class Fault(Exception):
    """A frame that is wrong."""


# ---- bytes


def text(word):
    return struct.pack(">H", len(word)) + word


def frame(sequence, operation, fields=b""):
    body = struct.pack(">HB", sequence, operation) + fields
    return struct.pack(">I", len(body)) + body


def names(fields):
    """Three names that a frame's fields are."""
    found, at = [], 0
    for _ in range(3):
        if len(fields) < at + 2:
            raise Fault("BadField(%d)" % (at + 7))
        size = struct.unpack(">H", fields[at:at + 2])[0]
        word = fields[at + 2:at + 2 + size]
        if len(word) < size or not is_name(word):
            raise Fault("BadField(%d)" % (at + 7))
        found.append(word)
        at += 2 + size
    if at < len(fields):
        raise Fault("Trailing(%d)" % (at + 7))
    return tuple(found)


def is_name(word):
    return 0 < len(word) < 256 and all(33 <= byte <= 126 and byte not in b"*#;" for byte in word) and word not in (b"*", b"#")


def read(door, body):
    """The sequence number and the message of what follows a length."""
    sequence, operation = struct.unpack(">HB", body[:3])
    fields = body[3:]
    if door == "client" and operation in (1, 2):
        return sequence, ("check", operation == 2, names(fields))
    if door == "agent" and operation == 0x20:
        if len(fields) < 2 or not 2 <= struct.unpack(">H", fields[:2])[0] <= 65533:
            raise Fault("BadField(7)")
        if len(fields) > 2:
            raise Fault("Trailing(9)")
        return sequence, ("register", struct.unpack(">H", fields)[0])
    if door == "agent" and operation == 0x21:
        if len(fields) < 4:
            raise Fault("BadField(7)")
        if len(fields) < 5 or fields[4] > 1:
            raise Fault("BadField(11)")
        if len(fields) > 5:
            raise Fault("Trailing(12)")
        return sequence, ("answer", struct.unpack(">I", fields[:4])[0], fields[4] == 1)
    raise Fault("BadOperation(%d)" % operation)


def messages(door, stream):
    """The messages of a stream, up to the first that is wrong or not whole."""
    ear, found = Ear(door), []
    ear.hear(stream)
    while message := ear.take():
        found.append(message)
    return found


class Ear:
    """What was heard, and what is wrong with it."""

    def __init__(self, door):
        self.door, self.left, self.fault = door, b"", None

    def hear(self, piece):
        self.left += piece

    def take(self):
        """The next message, or None: then more is to come, or the fault is known."""
        if self.fault or len(self.left) < 4:
            return None
        size = struct.unpack(">I", self.left[:4])[0]
        if size < 3:
            self.fault = "TooShort(%d)" % size
        elif size > 1048576:
            self.fault = "TooLong(%d)" % size
        elif len(self.left) >= size + 4:
            frame_, self.left = self.left[4:size + 4], self.left[size + 4:]
            try:
                return read(self.door, frame_)
            except Fault as fault:
                self.fault = str(fault)
        return None

    def more(self, link):
        """Receives more. Raises how the connection ends where nothing more comes, or what was heard is wrong."""
        if self.fault:
            raise Ended("bad " + self.fault)
        piece = link.receive()
        if not piece:
            raise Ended("cut %d" % len(self.left) if self.left else "closed")
        self.hear(piece)


class Ended(Exception):
    """How a connection ends."""


class Link:
    """A link over which these bytes come, in pieces of these sizes. It reads as closed after so many calls, and some fail."""

    def __init__(self, stream, closed_after=None, fails=(), sizes=()):
        self.left, self.closed_after, self.fails, self.sizes = stream, closed_after, fails, list(sizes)
        self.made, self.sent = 0, b""

    def call(self):
        is_closed = self.closed_after is not None and self.made >= self.closed_after
        self.made += 1
        if self.made in self.fails:
            raise Ended("link")
        return is_closed

    def receive(self):
        size = min(self.sizes.pop(0) if self.sizes else 0, MOST_PIECE) or MOST_PIECE
        if self.call():
            return b""
        piece, self.left = self.left[:size], self.left[size:]
        return piece

    def send(self, reply):
        self.call()
        self.sent += reply

    def is_up(self):
        try:
            return not self.call()
        except Ended:
            return False

    def has_come(self):
        try:
            self.call()
        except Ended:
            return False
        return True


# ---- the policies: a list of (key, kind, metadata) of the root bucket, whose fallback is DENY


def evaluate(policies, question):
    """The kind, the metadata and the key that decide."""
    matching = [
        (kind, metadata, tuple((b"" if part == b"*" else b"!" + part) for part in key), key)
        for key, kind, metadata in policies
        if kind != NONE and all(part in (b"*", word) for part, word in zip(key, question))
    ]
    if not matching:
        return DENY, b"", None
    kind, metadata, _, key = min(matching)
    return kind, metadata, key


# ---- a hall: a list of answers, which is used up where the next one is none to the call, or none is left


class Hall:
    def __init__(self, answers):
        self.left, self.used_up = list(answers), False

    def take(self, words, otherwise):
        if self.left and self.left[0][0] in words:
            return self.left.pop(0)
        self.left, self.used_up = [], True
        return (otherwise,)


OF_ASK, OF_JOIN, OF_NEXT = ("a", "n", "g", "f", "p", "l", "m", "x"), ("j", "jt", "jf", "jx", "jm"), ("q", "qx", "qm")
OF_ANSWER, OF_LOOK = ("k", "ku"), ("o", "w")
# So many turns an agent has for an answer.
MOST_TURNS = 600


# ---- a client's connection


def client(policies, commits, answers, link):
    """How it ends, what is sent, the counts of the hall, and whether its answers are used up. Replies to checks that came
    together are sent together, but those before a check that an agent decides are sent before it is asked."""
    hall, ear, replies = Hall(answers), Ear("client"), []
    counts = dict(asks=0, stops=0, losses=0)

    def flush():
        if replies:
            link.send(b"".join(replies))
            replies.clear()

    def reply(sequence, message):
        _, simple, question = message
        kind, metadata, key = evaluate(policies, question)
        commit = struct.pack(">Q", commits)
        if not 2 <= kind <= 65533:
            fields = commit + struct.pack(">H", kind) + text(metadata) + text(b"")
            fields += b"\0" if key is None else b"\1" + b"".join(text(part) for part in key)
            return frame(sequence, 0x81, fields)
        of_kind = commit + struct.pack(">H", kind)
        if simple:
            return frame(sequence, 0x83, of_kind)
        flush()
        counts["asks"] += 1
        if not link.is_up():
            # the question is withdrawn
            raise Ended("closed")
        answer = hall.take(OF_ASK, "x")
        if answer[0] == "a":
            if answer[2] != question:
                raise Ended("strayed %d %s" % (answer[1], b"".join(answer[2]).decode()))
            return frame(sequence, 0x82, of_kind + struct.pack(">IB", answer[1], answer[3]))
        if answer[0] == "n":
            return frame(sequence, 0x84, of_kind)
        if answer[0] == "g":
            return frame(sequence, 0x85, commit + struct.pack(">I", answer[1]))
        if answer[0] in "fp":
            return frame(sequence, 0x86, of_kind + struct.pack(">I", 1024 if answer[0] == "f" else 4294967295))
        if answer[0] == "l":
            counts["losses"] += 1
            raise Ended("strayed %d -" % answer[1])
        if answer[0] == "m":
            raise Ended("memory")
        counts["stops"] += 1
        raise Ended("stopped")

    try:
        # the end by which the connection can be hung up
        link.call()
        while True:
            while found := ear.take():
                replies.append(reply(*found))
            flush()
            ear.more(link)
    except Ended as ended:
        return str(ended), link.sent, counts | {"left": len(hall.left)}, hall.used_up


# ---- an agent's connection


def agent(hall, link):
    ear = Ear("agent")
    counts = dict(joins=0, nexts=0, answers=0, parts=0, stops=0)
    try:
        converse(hall, ear, link, counts)
    except Ended as ended:
        return str(ended), link.sent, counts | {"left": len(hall.left)}, hall.used_up


def next_message(ear, link):
    while not (found := ear.take()):
        ear.more(link)
    return found


def converse(hall, ear, link, counts):
    sequence, message = next_message(ear, link)
    if message[0] != "register":
        raise Ended("bad BadOperation(33)")
    kind = message[1]
    counts["joins"] = 1
    answer = hall.take(OF_JOIN, "jx")
    if answer in (("jt",), ("jf",)):
        link.send(frame(sequence, 0xA1, struct.pack(">H", kind)))
        raise Ended("closed")
    if answer == ("jx",):
        counts["stops"] += 1
        raise Ended("stopped")
    if answer == ("jm",):
        raise Ended("memory")
    counts["parts"] = 1
    link.send(frame(sequence, 0xA0, struct.pack(">H", kind)))
    while True:
        counts["nexts"] += 1
        if not link.is_up():
            raise Ended("closed")
        answer = hall.take(OF_NEXT, "qx")
        if answer == ("qx",):
            counts["stops"] += 1
            raise Ended("stopped")
        if answer == ("qm",):
            raise Ended("memory")
        _, number, question, metadata = answer
        fields = struct.pack(">I", number) + b"".join(text(word) for word in question)
        link.send(frame(number % 65536, 0xA2, fields + struct.pack(">H", kind) + text(metadata)))
        if not any(is_closed(hall, ear, link, counts, number) for _ in range(MOST_TURNS)):
            raise Ended("closed")


def is_closed(hall, ear, link, counts, number):
    """A turn: an answer that comes in time is handed in, and else it is looked whether the question is open still. Whether it
    was answered, or is open no more."""
    found = ear.take()
    if not found and link.has_come():
        ear.more(link)
        found = ear.take()
    if not found:
        if hall.take(OF_LOOK, "w") == ("o",):
            return False
        link.send(frame(number % 65536, 0xA4, struct.pack(">I", number)))
        return True
    sequence, message = found
    if message[0] == "register":
        raise Ended("bad BadOperation(32)")
    counts["answers"] += 1
    if hall.take(OF_ANSWER, "ku") == ("ku",):
        link.send(frame(sequence, 0xA3, struct.pack(">I", message[1])))
    return message[1] == number


# ---- random cases


def counts_text(counts, used_up):
    order = ("asks", "joins", "nexts", "answers", "parts", "stops", "hangs", "losses", "left")
    told = " ".join("%s %d" % (name, counts.get(name, 0)) for name in order)
    return told + (" used up" if used_up else "")


def cuts(draw, size):
    if draw.random() < 0.3:
        return "-"
    return ",".join(str(draw.choice((1, 1, 2, 3, 5, 8, 13, 40, 4096))) for _ in range(draw.randint(1, max(1, size))))


def link_words(draw, size):
    closed_after = draw.randint(0, 12) if draw.random() < 0.1 else "-"
    fails = draw.randint(1, 12) if draw.random() < 0.2 else "-"
    return "%s %s %s" % (closed_after, fails, cuts(draw, size))


def letters(draw, more=()):
    return tuple(draw.choice(choices + list(more)) for choices in ([b"c", b"d"], [b"u", b"v"], [b"p", b"q"]))


def spoil(draw, stream):
    """A stream that may end within a frame, or go on with a wrong one."""
    fate = draw.random()
    if fate < 0.15 and stream:
        return stream[:draw.randrange(len(stream))]
    if fate < 0.3:
        return stream + draw.choice((
            frame(1, 0x7F), b"\0\0\0\2", b"\0\x10\0\1", b"\0\0\0\3\0\1\1", frame(1, 1, b"\0\0" + text(b"u") + text(b"p")),
            frame(1, 1, text(b"c") + text(b"u") + text(b"p") + b"\0"), frame(2, 0x21, b"\0\0\0\0\2"), frame(2, 0x20, b"\0\1"),
        ))
    return stream


def client_case(draw):
    policies, words = [], []
    for _ in range(draw.randint(0, 4)):
        key = letters(draw, (b"*",))
        kind = draw.choice((ALLOW, DENY, NONE, AGENT, AGENT, 11))
        metadata = draw.choice((b"", b"a", b"b")) if kind in (AGENT, 11) else b""
        policies = [policy for policy in policies if policy[0] != key] + [(key, kind, metadata)]
        words.append("%s=%d:%s" % (b"".join(key).decode(), kind, metadata.decode()))
    checks = [(draw.randrange(65536), draw.random() < 0.3, letters(draw)) for _ in range(draw.randint(0, 6))]
    stream = b"".join(frame(n, 2 if simple else 1, b"".join(text(word) for word in question)) for n, simple, question in checks)
    stream = spoil(draw, stream)
    answers = []
    for _, (_, simple, question) in messages("client", stream):
        if 2 <= evaluate(policies, question)[0] <= 65533 and not simple and draw.random() < 0.95:
            number = draw.choice((0, 1, 65536, 4294967294))
            answers.append(draw.choice((
                ("a", number, question, True), ("a", number, question, False), ("a", number, question, True), ("g", number), ("n",),
                ("f",), ("p",), ("n",), ("g", number), ("a", number, letters(draw), True), ("l", number), ("m",), ("x",),
            )))
    told = []
    for answer in answers:
        if answer[0] == "a":
            told.append("a%d%s%s" % (answer[1], "+" if answer[3] else "-", b"".join(answer[2]).decode()))
        else:
            told.append("".join(str(part) for part in answer))
    line = "client %s | %s | %s | %s" % (" ".join(words), " ".join(told), link_words(draw, len(stream)), stream.hex())
    return line, client(policies, len(words), answers, link_of(line))


class DrawnHall:
    """A hall that draws its answers as they are asked for; these questions are given in turn."""

    def __init__(self, draw, asked):
        self.draw, self.asked, self.told = draw, list(asked), []
        self.left, self.used_up = [], False

    def take(self, words, _):
        if words == OF_NEXT and self.asked:
            answer = ("q",) + self.asked.pop(0)
        elif words == OF_NEXT:
            answer = self.draw.choice((("qx",), ("qm",)))
        elif words == OF_JOIN:
            answer = (self.draw.choice(("j",) * 9 + ("jt", "jf", "jx", "jm")),)
        elif words == OF_LOOK:
            answer = (self.draw.choice("ooooow"),)
        else:
            answer = (self.draw.choice(words),)
        self.told.append(answer)
        return answer


def hall_word(answer):
    if answer[0] == "q":
        return "q%d:%s:%s" % (answer[1], b"".join(answer[2]).decode(), answer[3].decode())
    return answer[0]


def agent_case(draw):
    number = lambda: draw.choice((0, 1, 2, 65535, 65536, 4294967294))
    stream = frame(draw.randrange(65536), 0x20, struct.pack(">H", draw.choice((10, 11)))) if draw.random() < 0.95 else b""
    asked = [(number(), letters(draw), draw.choice((b"", b"m"))) for _ in range(draw.randint(0, 3))]
    for question in asked:
        for other in [number() for _ in range(draw.randint(0, 2))] + [question[0]]:
            stream += frame(draw.randrange(65536), 0x21, struct.pack(">IB", other, draw.randrange(2)))
            if other == question[0]:
                break
    if draw.random() < 0.3:
        asked.append((7, (b"c", b"u", b"p"), b""))
    stream = spoil(draw, stream)
    if draw.random() < 0.1:
        stream += frame(1, 0x20, b"\0\n")
    words = link_words(draw, len(stream))
    hall = DrawnHall(draw, asked)
    agent(hall, link_of("| %s | %s" % (words, stream.hex())))
    # some lists are too short, and some have an answer to another call
    answers = hall.told[:draw.randint(0, len(hall.told))] if draw.random() < 0.1 else hall.told
    if draw.random() < 0.1:
        answers.insert(draw.randint(0, len(answers)), draw.choice((("k",), ("o",), ("w",), ("qx",))))
    line = "agent %s | %s | %s" % (" ".join(map(hall_word, answers)), words, stream.hex())
    return line, agent(Hall(answers), link_of(line))


def answer_text(due):
    ending, sent, counts, used_up = due
    return f"{ending} | {sent.hex()} | {counts_text(counts, used_up)}"


def cases(count, seed):
    draw = random.Random(seed)
    for at in range(count):
        line, due = (client_case if at % 2 else agent_case)(draw)
        yield f"{line} => {answer_text(due)}"


# ---- cases as lines


def question_of(word):
    return tuple(letter.encode() for letter in word)


def hall_answer(word):
    if word.startswith("a") and len(word) > 1:
        sign = "+" if "+" in word else "-"
        number, question = word[1:].split(sign)
        return "a", int(number), question_of(question), sign == "+"
    if word[0] in "gl" and word[1:]:
        return word[0], int(word[1:])
    if word[0] == "q" and ":" in word:
        number, question, metadata = word[1:].split(":")
        return "q", int(number), question_of(question), metadata.encode()
    return (word,)


def policies_of(words):
    policies = []
    for word in words:
        key, result = question_of(word.partition("=")[0]), word.partition("=")[2]
        kind, _, metadata = result.partition(":")
        policies = [policy for policy in policies if policy[0] != key] + [(key, int(kind), metadata.encode())]
    return policies


def numbers(word):
    return [int(part) for part in word.split(",") if part != "-"]


def link_of(line):
    """The link of a case, with the bytes that come over it."""
    link, words = line.split("|")[-2:]
    closed_after, fails, sizes = link.split()
    parts = words.split("'")
    stream = b"".join(part.encode() if at % 2 else bytes.fromhex(part) for at, part in enumerate(parts))
    return Link(stream, None if closed_after == "-" else int(closed_after), numbers(fails), numbers(sizes))


def with_answer(line):
    word, _, rest = line.partition(" ")
    front = rest.split("|")[:-2]
    answers = [hall_answer(part) for part in front[-1].split()]
    if word == "agent":
        return f"{line} => {answer_text(agent(Hall(answers), link_of(line)))}"
    policies = front[0].split()
    return f"{line} => {answer_text(client(policies_of(policies), len(policies), answers, link_of(line)))}"


if __name__ == "__main__":
    count = int(sys.argv[1]) if len(sys.argv) > 1 else 4000
    seed = int(sys.argv[2]) if len(sys.argv) > 2 else 1
    for case in cases(count, seed):
        print(case)
