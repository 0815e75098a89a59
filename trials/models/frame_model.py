"""Frames in plain Python: what a side hears of one, or the first fault with its place."""

from script_model import IN_NAMES, is_ident, is_name, is_name_or, is_printable
from smack_model import MODES, template_rule_of

SIDES = ("client", "admin", "agent", "replies", "agent-replies")
COMMANDS = (*range(0x10, 0x1A), 0x1D, 0x1E)
COUNTED = (b"commits", b"users", b"packages", b"installs", b"grants", b"buckets", b"policies")


class Fault(Exception):
    """Why a frame is refused, as the cases of frames tell it."""


class Reader:
    """The bytes of a frame from a place on. Each field that is wrong is named by the place of its first byte."""

    def __init__(self, frame, at):
        self.frame, self.at = frame, at

    def number(self, size, holds=lambda number: True):
        start = self.at
        if len(self.frame) - start < size:
            raise Fault(f"field {start}")
        self.at += size
        number = int.from_bytes(self.frame[start : self.at], "big")
        if not holds(number):
            raise Fault(f"field {start}")
        return number

    def flag(self):
        return self.number(1, lambda number: number < 2)

    def text(self, holds, wide=2):
        start = self.at
        size = self.number(wide)
        if len(self.frame) - self.at < size:
            raise Fault(f"field {start}")
        self.at += size
        text = self.frame[self.at - size : self.at]
        if not holds(text):
            raise Fault(f"field {start}")
        return text


def is_bucket(text):
    return len(text) <= 64 and all(byte in IN_NAMES + b"_-" for byte in text)


def is_file_name(text):
    return 1 <= len(text) <= 255 and all(byte in IN_NAMES + b"._-~" for byte in text)


def is_author(text):
    return not text or is_ident(text)


def modes_text(modes):
    return bytes(letter for letter in MODES if letter in modes) or b"-"


def is_template(text):
    """A template in its one spelling."""
    lines = text.split(b"\n")
    if lines.pop() or len(lines) > 64:
        return False
    rules = [template_rule_of(line) for line in lines]
    return None not in rules and all(
        line == b" ".join([*rule[:2], *map(modes_text, rule[2:])]) for line, rule in zip(lines, rules)
    )


def carries(kind, text):
    """Whether a result of the kind may have this metadata."""
    if kind in (0, 1, 65535):
        return not text
    return is_printable(text, 255) and (kind != 65534 or is_bucket(text))


def result(read):
    kind = read.number(2)
    read.text(lambda text: carries(kind, text))


def three(read, holds):
    for _ in range(3):
        read.text(holds)


def scope(read):
    if read.flag():
        read.number(4)


def changes(read):
    for _ in range(read.number(4)):
        sets = read.flag()
        read.text(is_bucket)
        three(read, is_name_or((b"*",)))
        if sets:
            result(read)


def install(read):
    read.text(is_ident)
    read.text(is_author)
    read.text(is_ident)
    scope(read)
    last = None
    for _ in range(read.number(4)):
        last = read.text(lambda text: is_name(text) and (last is None or last < text))


def refused(read):
    rule = read.number(1, lambda number: number in (*range(1, 13), 14))
    texts = {1: is_bucket, 4: is_bucket, 12: is_bucket, 8: is_ident, 9: is_author, 11: lambda text: text in COUNTED}
    values = {6: 2**16, 7: 2**32, 11: 2**64, 14: 2}
    read.text(texts.get(rule, lambda text: not text))
    read.number(8, lambda number: number < values.get(rule, 1))


def each(*fields):
    def read_all(read):
        for field in fields:
            field(read)

    return read_all


def number(size, holds=lambda number: True):
    return lambda read: read.number(size, holds)


def text(holds):
    return lambda read: read.text(holds)


def flag(read):
    read.flag()


def names(read):
    three(read, is_name)


def part(read):
    """Bytes of a file behind their number of four bytes."""
    read.text(lambda text: len(text) <= 65_536, 4)


FILTER = each(text(is_bucket), lambda read: three(read, is_name_or((b"*", b"#"))))
FIELDS = {
    "client": {0x01: names, 0x02: names},
    "admin": {
        0x10: each(text(is_bucket), result),
        0x11: text(is_bucket),
        0x12: changes,
        0x13: FILTER,
        0x14: each(),
        0x15: text(is_template),
        0x16: each(number(4), number(1, lambda kind: kind < 4)),
        0x17: number(4),
        0x18: install,
        0x19: each(text(is_ident), scope),
        0x1A: FILTER,
        0x1B: each(text(is_bucket), flag, names),
        0x1C: each(),
        0x1D: install,
        0x1E: each(text(is_ident), flag),
        0x1F: each(),
        0x30: each(),
    },
    "agent": {0x20: number(2, lambda kind: 2 <= kind <= 65533), 0x21: each(number(4), flag)},
    "replies": {
        0x81: each(number(8), result, text(is_bucket), lambda read: three(read, is_name_or((b"*",))) if read.flag() else None),
        0x82: each(number(8), number(2), number(4), flag),
        0x83: each(number(8), number(2)),
        0x84: each(number(8), number(2)),
        0x85: each(number(8), number(4)),
        0x86: each(number(8), number(2), number(4, lambda most: most in (1024, 4294967295))),
        0x90: each(number(8), number(4)),
        0x91: refused,
        0x92: each(lambda read: three(read, is_name_or((b"*",))), result),
        0x93: number(4),
        0x95: each(),
        0x96: each(text(is_file_name), number(4)),
        0x97: each(text(is_file_name), part),
        0x98: number(8),
        0x99: number(2),
        0x9A: each(number(4), number(4)),
    },
    "agent-replies": {0xA0: number(2), 0xA1: number(2), 0xA2: each(number(4), names, result), 0xA3: number(4), 0xA4: number(4)},
}


def fault(side, frame):
    """The first fault of a frame whose length counts what follows it, or None."""
    length = len(frame) - 4
    if length < 3:
        return f"short {length}"
    if length > 1_048_576:
        return f"long {length}"
    if frame[6] not in FIELDS[side]:
        return f"operation {frame[6]}"
    read = Reader(frame, 7)
    try:
        FIELDS[side][frame[6]](read)
    except Fault as found:
        return str(found)
    return f"behind {read.at}" if read.at < len(frame) else None


def with_length(rest):
    return len(rest).to_bytes(4, "big") + rest


def kind(side, frame):
    if side == "admin" and frame[6] in COMMANDS:
        return "a command"
    return "a refusal" if side == "replies" and frame[6] == 0x91 else "another message"


def cuts(side, frame):
    """What refuses a right frame that is cut at each of its bytes, each answer at the first of these."""
    told, last = [], None
    for count in range(7, len(frame)):
        answer = fault(side, with_length(frame[4:count])) or "heard"
        if answer != last:
            told.append(f" from {count} {answer},")
        last = answer
    return "".join(told)


def right(side, frame):
    """What `cases_frames` answers to the case `right` of a right frame."""
    longer = fault(side, with_length(frame[4:] + b"\0")) or "heard"
    return f"alike alike alike, {kind(side, frame)}; cut{cuts(side, frame)} longer {longer}"


def slip(side, frame, place, byte):
    """What refuses the frame with another byte at a place behind its length."""
    return fault(side, frame[:place] + bytes([byte]) + frame[place + 1 :]) or "heard"


def bytes_in(words):
    """Bytes as the cases of frames write them: hexadecimal, or themselves between two `'`."""
    parts = words.split("'")
    return b"".join(part.encode() if at % 2 else bytes.fromhex(part) for at, part in enumerate(parts))


def self_test(cases):
    """The cases of right frames and of slips in them, each with the answer that this model gives."""
    side, frame = "", b""
    for line in cases.splitlines():
        case, _, wanted = line.partition(" => ")
        word, _, rest = case.partition(" ")
        if word == "right":
            side, _, words = rest.partition(" ")
            if side not in SIDES:
                continue
            frame = bytes_in(words)
            yield line, wanted, right(side, frame)
        if word == "slips":
            slips = [(int(place), bytes_in(byte)[0]) for place, _, byte in (word.partition("=") for word in rest.split(" "))]
            yield line, wanted, ", ".join(slip(side, frame, *one) for one in slips)
