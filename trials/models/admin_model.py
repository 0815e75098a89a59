#!/usr/bin/env python3
"""The cases of trials/cases/admin_run_cases with the answers that are wanted, by a model of its own of the messages of a script, of
their replies and of what `admin` does with them. `admin_model.py stdin` writes the cases, and `admin_model.py stdout` the cases
with their answers."""
import sys

from agent_model import End, Fields, frame, shown, text
from check_model import bucket_of, flag, judged, key_part

KINDS = {"deny": 0, "none": 1, "allow": 65535}
TYPES = ["system", "admin", "normal", "guest"]


def number(value, size):
    return value.to_bytes(size, "big")


def result(word):
    if word in KINDS:
        return number(KINDS[word], 2) + text("")
    if word.startswith("bucket:"):
        return number(65534, 2) + text(bucket(word[7:]))
    _, kind, metadata = word.split(":", 2)
    return number(int(kind), 2) + text(metadata)


def bucket(word):
    return "" if word == "." else word


def change(words):
    fields = b"".join(text(part) for part in (bucket(words[1]), *words[2:5]))
    return b"\1" + fields + result(words[5]) if words[0] == "set" else b"\0" + fields


def scope(word):
    return b"\0" if word == "*" else b"\1" + number(int(word), 4)


def message(line):
    """The operation and the fields of a line outside of a block."""
    word, *rest = words = line.split(" ")
    if word in ("set", "unset"):
        return 0x12, number(1, 4) + change(words)
    if word == "bucket":
        return 0x10, text(bucket(rest[0])) + result(rest[1])
    if word == "drop":
        return 0x11, text(bucket(rest[0]))
    if word in ("erase", "list"):
        return 0x13 if word == "erase" else 0x1A, text(bucket(rest[0])) + b"".join(text(part) for part in rest[1:])
    if word == "layout":
        return 0x14, b""
    if word == "user":
        return 0x16, number(int(rest[0]), 4) + bytes([TYPES.index(rest[1])])
    if word == "nouser":
        return 0x17, number(int(rest[0]), 4)
    if word == "install":
        package, author, app, whom, *privileges = rest
        names = sorted(set(privileges))
        fields = text(package) + text("" if author == "-" else author) + text(app) + scope(whom)
        return 0x18, fields + number(len(names), 4) + b"".join(text(name) for name in names)
    if word == "remove":
        return 0x19, text(rest[0]) + scope(rest[1])
    if word == "check":
        return 0x1B, text("") + b"\1" + b"".join(text(part) for part in rest)
    if word == "from":
        return 0x1B, text(bucket(rest[0])) + bytes([rest[1] == "deep"]) + b"".join(text(part) for part in rest[2:])
    if word == "stop":
        return 0x1C, b""
    return None


def messages(lines):
    """The messages of a script; a number where its line with that number is outside the grammar."""
    block, inside = None, []
    place = 0
    for place, line in enumerate(lines, 1):
        if block is None:
            if line == "" or line.startswith("#"):
                continue
            if line in ("batch", "template"):
                block, inside = line, []
                continue
            found = message(line)
        elif line == "end":
            joined = b"".join(change(words) for words in inside)
            found = (0x12, number(len(inside), 4) + joined)
            if block == "template":
                found = (0x15, text("".join(" ".join(words) + "\n" for words in inside)))
            block = None
        else:
            if block == "template" or not (line == "" or line.startswith("#")):
                inside.append(line.split(" "))
            continue
        yield place if found is None else found
    if block is not None:
        yield place + 1


REFUSALS = {1: "reserved", 2: "layout-there", 3: "no-layout", 4: "no-bucket", 5: "root-bucket", 6: "bad-kind", 7: "unknown-user",
            8: "other-package", 9: "other-author", 10: "not-installed", 11: "limit", 12: "cycle"}


def refused_line(fields):
    which, about, value = fields.number(1), fields.text(), fields.number(8)
    parts = ["refused", str(which), REFUSALS[which]]
    if which in (1, 4, 12):
        parts.append(about or ".")
    if which in (6, 7):
        parts.append(str(value))
    if which == 8:
        parts.append(about)
    if which == 9:
        parts.append(about or "-")
    if which == 11:
        parts += [about, str(value)]
    return " ".join(parts)


class Link:
    def __init__(self, data):
        self.data, self.sent, self.received, self.ended = data, b"", 0, False

    def take(self, count):
        piece, self.data = self.data[:count], self.data[count:]
        self.received += len(piece)
        if len(piece) < count:
            self.ended = True
            raise End(7)
        return piece

    def frame(self):
        size = int.from_bytes(self.take(4), "big")
        if not 3 <= size <= 1_048_576:
            raise End(9)
        return self.take(size)


def reply(body, sequence):
    operation, fields = body[2], Fields(body[3:])
    got = None
    if operation == 0x90:
        got = ("done", fields.number(8), fields.number(4))
    elif operation == 0x91:
        got = ("refused", refused_line(fields))
    elif operation == 0x92:
        key = " ".join(key_part(fields) for _ in range(3))
        got = ("row", f"row {key} {fields.result()}")
    elif operation == 0x93:
        got = ("rows", fields.number(4))
    elif operation == 0x95:
        got = ("fault", "store-fault")
    elif operation == 0x96:
        got = ("fault", f"store-damaged {fields.text()} {fields.number(4)}")
    elif operation == 0x81:
        commit, outcome, name = fields.number(8), fields.result(), bucket_of(fields)
        cause = " ".join(key_part(fields) for _ in range(3)) if flag(fields) else "default"
        got = ("judged", f"{outcome} {commit} {name} {cause}")
    if got is None or fields.data or int.from_bytes(body[:2], "big") != sequence:
        raise End(9)
    return got


def answer(operation, link, sequence):
    """The lines of the answer to a message of this operation."""
    lines = []
    while True:
        got = reply(link.frame(), sequence)
        if operation == 0x1A:
            if got[0] == "row" and len(lines) < 65536:
                lines.append(got[1])
                continue
            if got[0] == "rows" and got[1] == len(lines):
                return lines + [f"rows {got[1]}"]
            if got[0] == "refused" and not lines:
                return [got[1]]
            raise End(9)
        if operation == 0x1B and got[0] in ("judged", "refused"):
            return [got[1]]
        if got[0] == "done" and operation != 0x1B:
            return [f"ok {got[1]} erased {got[2]}" if operation == 0x13 else f"ok {got[1]}"]
        if operation not in (0x1B, 0x1C) and got[0] in ("refused", "fault"):
            return [got[1]]
        raise End(9)


def numbers(word):
    return [] if word == "-" else [int(part) for part in word.split(",")]


class Run:
    def __init__(self, sink, dials, links):
        self.sink_fails, self.dial_fails = numbers(sink), numbers(dials)
        self.links = [] if links == "-" else [Link(bytes.fromhex(link)) for link in links.split("/")]
        self.link, self.back = None, []
        self.written, self.writes, self.dials, self.faults, self.sequence = b"", 0, 0, 0, 0

    def write(self, data):
        self.writes += 1
        if self.writes in self.sink_fails:
            raise End(5)
        self.written += data

    def send(self, operation, fields):
        data = frame(self.sequence, operation, fields)
        if len(data) - 4 > 1_048_576:
            raise End((10, len(data) - 4))
        if self.link is None:
            self.dials += 1
            if self.dials in self.dial_fails or not self.links:
                self.faults += 1
                raise End(7)
            self.link = self.links.pop(0)
        self.link.sent += data
        lines = answer(operation, self.link, self.sequence)
        self.sequence = (self.sequence + 1) % 65536
        self.write("".join(f"{line}\n" for line in lines).encode())

    def finish(self, status):
        if self.link is not None:
            self.faults += self.link.ended
            self.back.append(self.link)
        pieces = []
        if isinstance(status, tuple):
            status, last = status
            pieces = [b"fault too-long ", str(last).encode(), b"\n"] if status == 10 else [b"syntax ", str(last).encode(), b"\n"]
        elif status == 9:
            pieces = [b"fault reply\n"]
        try:
            for piece in pieces:
                self.write(piece)
        except End:
            pass
        return status


def run(source, sink, dials, links, script):
    a_run = Run(sink, dials, links)
    lines = script.split("\n")
    if lines[-1] == "":
        lines.pop()
    source_fails = numbers(source)
    try:
        if 1 in source_fails:
            raise End(4)
        # the first reading gives all bytes; the line that is not ended by a newline waits for the second one
        whole = lines if script.endswith("\n") or not lines else lines[:-1]
        found = list(messages(lines))
        early = list(messages(whole))
        if 2 in source_fails:
            if early and isinstance(early[-1], int) and early[-1] > len(whole):
                early.pop()
            found = early + [End(4)]
        for step in found:
            if isinstance(step, End):
                raise step
            if isinstance(step, int):
                raise End((3, step))
            a_run.send(*step)
        status = 0
    except End as end:
        status = end.args[0]
    return a_run, a_run.finish(status)


def told(a_run, status, counted=False):
    back = "".join(f" {len(link.sent) if counted else link.sent.hex()}/{link.received}" for link in a_run.back)
    return f"{status} {shown(a_run.written)}{back} dials {a_run.dials} faults {a_run.faults}"


def unescaped(word):
    out, escape = "", False
    for letter in word:
        if escape:
            out += {"n": "\n", "s": " ", "r": "\r"}.get(letter, letter)
            escape = False
        elif letter == "\\":
            escape = True
        else:
            out += letter
    return out


def answered(word, words):
    if word == "long":
        lines, links = words.split(" ", 1)
        return told(*run("-", "-", "-", links, "batch\n" + "unset . c u p\n" * int(lines) + "end\n"), True)
    source, sink, dials, links, script = words.split(" ", 4)
    return told(*run(source, sink, dials, links, unescaped(script)))


def done(commit, erased=0, sequence=0):
    return frame(sequence, 0x90, number(commit, 8) + number(erased, 4))


def refused(which, about="", value=0, sequence=0):
    return frame(sequence, 0x91, bytes([which]) + text(about) + number(value, 8))


def row(client, user, privilege, kind, metadata="", sequence=0):
    return frame(sequence, 0x92, text(client) + text(user) + text(privilege) + number(kind, 2) + text(metadata))


def rows(count, sequence=0):
    return frame(sequence, 0x93, number(count, 4))


def cases():
    def case(script, *replies, source="-", sink="-", dials="-", links=None):
        word = script.replace("\\", "\\\\").replace("\n", "\\n").replace(" ", "\\s") or "\\"
        over = b"".join(replies).hex() if links is None else links
        return f"admin {source} {sink} {dials} {over or '-'} {word}"

    yield "# no message: nothing is dialled"
    yield case("")
    yield case("# c\n\n")
    yield case("x\n")
    yield case("batch\nset . c u p allow\n")
    yield "# each kind of message"
    for line in ("set . c * p allow", "set B * * * agent:10:ask", "set . * u p bucket:.", "unset . c u p", "bucket B none",
                 "bucket . bucket:B", "drop B", "layout", "user 5001 guest", "nouser 4294967295", "install pk - a1 * p q p",
                 "install pk au a1 7", "remove a1 *", "remove a1 7", "stop", "batch\nend", "batch\nset . c u p deny\n\n# c\nunset B * * *\nend",
                 "template\nend", "template\nSystem ~PROCESS~ rwxat\nUser ~PROCESS~ rx\nend"):
        yield case(f"{line}\n", done(3))
    yield case("erase B # * c\n", done(4, 65536))
    yield case("list . # # #\n", rows(0))
    yield case("list B c * #\n", row("c", "*", "p", 65535), row("c", "*", "q", 10, "ask"), rows(2))
    yield case("check c u p\n", judged(2, 65535, "", "", ("c", "*", "p")))
    yield case("from B deep c u p\n", judged(2, 0, "", "B"))
    yield case("from . flat c u p\n", judged(2, 10, "ask", "", ("*", "*", "*")))
    yield "# sequence numbers rise, and the last line needs no newline"
    yield case("layout\nlist . # # #\ncheck c u p", done(1), row("*", "*", "*", 65534, "MAIN", 1), rows(1, 1), judged(1, 0, "", "MANIFESTS", sequence=2))
    yield "# refusals and faults of the store are answers"
    for which, about, value in ((1, "MAIN", 0), (2, "", 0), (3, "", 0), (4, "X", 0), (5, "", 0), (6, "", 65534), (7, "", 9), (8, "x", 0),
                                (9, "", 0), (9, "au", 0), (10, "", 0), (11, "policies", 65536), (12, "B", 0)):
        yield case("layout\nlayout\n", refused(which, about, value), done(1, sequence=1))
    yield case("list X # # #\n", refused(4, "X"))
    yield case("from X deep c u p\n", refused(4, "X"))
    yield case("layout\nlayout\n", frame(0, 0x95), frame(1, 0x96, text("stamp") + number(2, 4)))
    yield "# nothing is sent behind a line outside the grammar"
    yield case("layout\nx\nlayout\n", done(1), done(2, sequence=1))
    yield case("layout\nstatus\n", done(1))
    yield case("access A B r\n", done(1))
    yield case("layout\nbatch\nset . c u p allow\n", done(1))
    yield "# replies that are wrong"
    yield case("layout\nlayout\n", done(1, sequence=1))
    yield case("layout\nlayout\n", done(1), done(2))
    yield case("layout\n", rows(0))
    yield case("layout\n", judged())
    yield case("stop\n", refused(2))
    yield case("check c u p\n", done(1))
    yield case("list . # # #\n", done(1))
    yield case("list . # # #\n", row("c", "u", "p", 0), rows(2))
    yield case("list . # # #\n", row("c", "u", "p", 0), refused(4, "X"))
    yield case("layout\n", bytes.fromhex("00000002"))
    yield case("layout\n", frame(0, 0xA0, number(10, 2)))
    yield "# the dial fails, or the link ends: it is not sent again"
    yield case("layout\n", links="-")
    yield case("layout\n", done(1), dials="1")
    yield case("layout\nlayout\n", done(1))
    yield case("layout\n", done(1)[:-1])
    yield case("list . # # #\n", row("c", "u", "p", 0))
    yield case("layout\n", links=f"/{done(1).hex()}")
    yield "# the source fails, and the sink"
    yield case("layout\nlayout\n", done(1), done(2, sequence=1), source="1")
    yield case("layout\nlayout\n", done(1), done(2, sequence=1), source="2")
    yield case("layout\nlayout", done(1), done(2, sequence=1), source="2")
    yield case("layout\nlayout\n", done(1), done(2, sequence=1), sink="1")
    yield case("layout\nlayout\n", done(1), done(2, sequence=1), sink="2")
    yield case("layout\nx\n", done(1), sink="2")
    yield case("layout\nx\n", done(1), sink="3")
    yield case("layout\n", done(1, sequence=1), sink="1")
    yield "# a frame that would be too long, of which nothing is sent, and the longest of this kind"
    yield "long 90000 -"
    yield f"long 87380 {done(1).hex()}"
    yield f"long 87381 {done(1).hex()}"
    yield f"long 70000 {done(1).hex()}"


def main():
    for line in cases():
        if sys.argv[1] == "stdout" and not line.startswith("#"):
            word, words = line.split(" ", 1)
            line = f"{line} => {answered(word, words)}"
        print(line)


if __name__ == "__main__":
    main()
