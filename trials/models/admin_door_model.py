#!/usr/bin/env python3
"""What an administrator is answered on a connection, and what stands behind it, from the definitions: the frames received to
the frames sent, the states published, who is hung up, and the folder. It shares nothing with the product. The commands are
those of `device_model.py`, the files those of `set_model.py`, the faults of frames those of `frame_model.py`.

`admin_door_model.py` writes the cases of `cases_doors` at this door with the answers that are due; `admin_door_model.py
COUNT [SEED]` random ones."""

import copy
import random
import sys

import frame_model
from device_model import Device
from folder_model import VERSION, is_own, list_of, listed
from level_model import Refused
from script_model import USER_TYPES
from set_model import Damaged, Sets, files_of
from smack_model import template_rule_of

MOST_PIECE = 4096
QUESTION = (b"c", b"u", b"p")


class DiskFailed(Exception):
    """A call of the disk that is to fail."""


class LinkFailed(Exception):
    """A call of the link that is to fail."""


class Ended(Exception):
    """How a connection ends."""


# ---- numbers and texts in frames


def n1(number):
    return number.to_bytes(1, "big")


def n2(number):
    return number.to_bytes(2, "big")


def n4(number):
    return number.to_bytes(4, "big")


def n8(number):
    return number.to_bytes(8, "big")


def text(word):
    return n2(len(word)) + word


def frame(sequence, operation, fields=b""):
    body = n2(sequence) + n1(operation) + fields
    return n4(len(body)) + body


class Fields:
    """The fields of a frame that was found right."""

    def __init__(self, fields):
        self.left = fields

    def number(self, size):
        number, self.left = int.from_bytes(self.left[:size], "big"), self.left[size:]
        return number

    def text(self):
        size = self.number(2)
        word, self.left = self.left[:size], self.left[size:]
        return word

    def three(self):
        return self.text(), self.text(), self.text()

    def result(self):
        return self.number(2), self.text()

    def scope(self):
        return self.number(4) if self.number(1) else b"*"

    def change(self):
        sets, bucket, key = self.number(1), self.text(), self.three()
        return bucket, key, self.result() if sets else None

    def install(self):
        package, author, app, scope = self.text(), self.text(), self.text(), self.scope()
        return package, author or None, app, scope, {self.text() for _ in range(self.number(4))}


def step_of(operation, fields):
    """What the message asks for, as the device takes it."""
    read = Fields(fields)
    match operation:
        case 0x10:
            return "bucket", read.text(), read.result()
        case 0x11:
            return "drop", read.text()
        case 0x12:
            return "change", [read.change() for _ in range(read.number(4))]
        case 0x13 | 0x1A:
            return "erase" if operation == 0x13 else "list", read.text(), list(read.three())
        case 0x14:
            return ("layout",)
        case 0x15:
            return "template", [template_rule_of(line) for line in read.text().split(b"\n")[:-1]]
        case 0x16:
            return "user", read.number(4), USER_TYPES[read.number(1)]
        case 0x17:
            return "nouser", read.number(4)
        case 0x18:
            return "install", *read.install()
        case 0x1D:
            return "hybrid", *read.install()
        case 0x19:
            return "remove", read.text(), read.scope()
        case 0x1B:
            return "evaluate", read.text(), read.number(1) == 1, read.three()
        case 0x1C:
            return ("stop",)
        case 0x1E:
            return "convert", read.text(), read.number(1) == 1


# ---- the disk: a folder whose calls are numbered from 1


class Disk:
    def __init__(self, files=(), fails=(), gone=(), halved=()):
        self.files, self.made, self.faults = dict(files), 0, 0
        self.fails, self.gone, self.halved = set(fails), set(gone), set(halved)

    def call(self):
        self.made += 1
        if self.made in self.fails:
            self.faults += 1
            raise DiskFailed

    def sync(self):
        self.call()

    def names(self):
        self.call()
        return sorted(self.files)

    def read(self, name):
        self.call()
        found = None if self.made in self.gone else self.files.get(name)
        return found[: len(found) // 2] if found is not None and self.made in self.halved else found

    def write(self, name, content):
        self.call()
        self.files[name] = content

    def remove(self, name):
        self.call()
        self.files.pop(name, None)


def save(disk, held, gone):
    """The calls of a save, in their order: the backups, the guard, the primaries, and the guard and the backups away."""
    names = sorted(held)
    for name in names:
        disk.write(name + b"~", held[name])
    disk.write(b"list~", list_of(held))
    disk.sync()
    disk.write(b"guard", b"")
    disk.sync()
    renew(disk, held, gone)
    disk.remove(b"guard")
    disk.sync()
    disk.remove(b"list~")
    for name in names:
        disk.remove(name + b"~")


def renew(disk, held, gone):
    for name in gone:
        disk.remove(name)
    for name in sorted(held):
        disk.write(name, held[name])
    disk.write(b"list", list_of(held))
    disk.sync()


def look(disk):
    """The first calls of a mount, which change nothing. The names of the files, the list that counts, and the set that is held; the
    last two may be None."""
    disk.sync()
    names = disk.names()
    guarded = b"guard" in names
    mark = b"~" if guarded else b""
    listing, held = disk.read(b"list" + mark), None
    if listing is None and guarded:
        raise Damaged(b"list~", 0)
    if listing is not None:
        held = {}
        for name in listed(listing, b"list" + mark):
            held[name] = disk.read(name + mark)
            if held[name] is None:
                raise Damaged(name, 0)
    return names, listing, held


def settle(disk, names, listing, held):
    """The other calls of a mount, behind a set that stands for a policy state."""
    guarded = b"guard" in names
    is_left = lambda name: is_own(name) and name not in (b"guard", b"list", *(held or {}))
    if guarded:
        renew(disk, held, [name for name in names if is_left(name) and not name.endswith(b"~")])
        disk.remove(b"guard")
        disk.sync()
    rest = [name for name in names if (is_own(name) and name.endswith(b"~") if guarded else is_left(name))]
    for name in rest:
        disk.remove(name)
    if rest:
        disk.sync()
    if listing is not None and not guarded and not listing.startswith(VERSION):
        save(disk, held, [])


class Keeper:
    """The policy state of a folder: the last one that is known to be kept."""

    def __init__(self, disk):
        self.disk, self.decided = disk, False
        self.desk = self.held = None
        self.mount()

    def mount(self):
        self.decided = False
        names, listing, held = look(self.disk)
        desk = Device() if held is None else Sets(held).read()
        if self.desk and desk.commit < self.desk.commit:
            raise Damaged(b"stamp", 0)
        settle(self.disk, names, listing, held)
        self.desk, self.held, self.decided = desk, held, True

    def commit(self, desk):
        held = files_of(desk)
        self.decided = False
        save(self.disk, held, [name for name in sorted(self.held or {}) if name not in held])
        self.desk, self.held, self.decided = desk, held, True


# ---- the service


class Service:
    """A keeper, what was published last, and the roll with one client."""

    def __init__(self, disk):
        self.keeper = Keeper(disk)
        self.published, self.note = self.keeper.desk, self.keeper.desk.commit
        self.cleared = self.stops = 0
        self.entered = self.client = None

    def enter(self):
        self.client = "shut" if self.stops else "up"
        self.entered = self.note

    def publish(self, desk):
        self.published, self.cleared = desk, desk.commit
        self.note = max(self.note, desk.commit)
        if self.client == "up" and self.entered < self.note:
            self.client = "hung"

    def stop(self):
        self.stops += 1
        if self.client == "up":
            self.client = "hung"

    def settle(self):
        if not self.keeper.decided:
            self.keeper.mount()
        if self.published.commit < self.keeper.desk.commit:
            self.publish(self.keeper.desk)

    def answer(self, step):
        """The replies to a message, each an operation with its fields."""
        desk = self.keeper.desk
        if step[0] == "list":
            return list_replies(desk, *step[1:])
        if step[0] == "evaluate":
            return check_replies(desk, *step[1:])
        if step[0] == "stop":
            self.stop()
            return [(0x90, n8(desk.commit) + n4(0))]
        try:
            self.settle()
        except DiskFailed:
            return [(0x95, b"")]
        except Damaged as damaged:
            file, line = damaged.args
            return [(0x96, text(file) + n4(line))]
        return self.command(step)

    def command(self, step):
        desk = copy.deepcopy(self.keeper.desk)
        try:
            word, *arguments = step
            told = getattr(desk, "do_" + word)(*arguments)[0].split(b" ")
        except Refused as refused:
            return [(0x91, refusal_fields(refused.text.split(b" ")))]
        try:
            self.keeper.commit(desk)
        except DiskFailed:
            return [(0x95, b"")]
        self.publish(desk)
        return [(0x90, n8(desk.commit) + n4(int(told[3]) if told[2:3] == [b"erased"] else 0))]


def refusal_fields(words):
    """The fields of `Refused`, from the words of a script's answer: `refused`, the rule, its name, and what it is about."""
    rule = int(words[1])
    word, value = b"", 0
    match rule, words[3:]:
        case (1 | 4 | 12), [bucket]:
            word = b"" if bucket == b"." else bucket
        case (6 | 7), [number]:
            value = int(number)
        case 8, [package]:
            word = package
        case 9, [author]:
            word = b"" if author == b"-" else author
        case 11, [what, most]:
            word, value = what, int(most)
        case 14, [kind]:
            value = int(kind == b"yes")
    return n1(rule) + text(word) + n8(value)


def result_fields(result):
    return n2(result[0]) + text(result[1])


def key_fields(key):
    return b"".join(map(text, key))


def list_replies(desk, bucket, filters):
    try:
        desk.expect_bucket(bucket)
    except Refused as refused:
        return [(0x91, refusal_fields(refused.text.split(b" ")))]
    rows = [
        (0x92, key_fields(key) + result_fields(result))
        for key, result in sorted(desk.policies[bucket].items())
        if all(own in (b"#", part) for own, part in zip(filters, key))
    ]
    return [*rows, (0x93, n4(len(rows)))]


def check_replies(desk, bucket, deep, question):
    try:
        desk.expect_bucket(bucket)
    except Refused as refused:
        return [(0x91, refusal_fields(refused.text.split(b" ")))]
    result, cause, key = desk.evaluate(bucket, deep, question, {})
    told = n8(desk.commit) + result_fields(result) + text(cause)
    return [(0x81, told + (n1(0) if key is None else n1(1) + key_fields(key)))]


# ---- a connection


class Link:
    """A link over which these bytes come, in pieces of these sizes, that reads as closed after so many calls."""

    def __init__(self, stream, closed_after=None, fails=(), sizes=()):
        self.left, self.sizes, self.fails, self.closed_after = stream, list(sizes), set(fails), closed_after
        self.made, self.sent, self.heard = 0, b"", []

    def call(self):
        closed = self.closed_after is not None and self.made >= self.closed_after
        self.made += 1
        if self.made in self.fails:
            raise LinkFailed
        return closed

    def receive(self):
        size = self.sizes.pop(0) if self.sizes else 0
        if self.call():
            return b""
        size = min(size, MOST_PIECE) or MOST_PIECE
        piece, self.left = self.left[:size], self.left[size:]
        return piece

    def send(self, bytes_):
        self.call()
        self.sent += bytes_


FAULTS = {"short": "TooShort", "long": "TooLong", "operation": "BadOperation", "field": "BadField", "behind": "Trailing"}


def whole_frame(heard):
    """The first frame of what was heard, or None where it is not whole. The end of the connection where it is wrong."""
    if len(heard) < 4:
        return None
    length = int.from_bytes(heard[:4], "big")
    if 3 <= length <= 1_048_576 and len(heard) < length + 4:
        return None
    found = frame_model.fault("admin", heard[: length + 4]) if 3 <= length <= 1_048_576 else None
    if length < 3:
        found = f"short {length}"
    if length > 1_048_576:
        found = f"long {length}"
    if found:
        word, number = found.split(" ")
        raise Ended(f"bad {FAULTS[word]}({number})")
    return heard[: length + 4]


def serve(service, link):
    """How a connection ends."""
    heard, has_stopped = b"", False
    try:
        while True:
            whole = whole_frame(heard)
            if whole is None:
                piece = link.receive()
                if not piece:
                    raise Ended(f"cut {len(heard)}" if heard else "closed")
                heard += piece
                continue
            heard = heard[len(whole) :]
            step = step_of(whole[6], whole[7:])
            has_stopped = step == ("stop",)
            for operation, fields in service.answer(step):
                link.send(frame(int.from_bytes(whole[4:6], "big"), operation, fields))
            if has_stopped:
                raise Ended("stopped")
    except LinkFailed:
        # A stop that was made ends its connection as one, whether or not its reply could be sent.
        return "stopped" if has_stopped else "link"
    except Ended as ended:
        return str(ended)


# ---- what is told of a case


def sum_of(content):
    """The sum of bytes that stands for them where they are many: FNV-1a of 32 bits."""
    total = 0x811C9DC5
    for byte in content:
        total = (total ^ byte) * 0x01000193 & 0xFFFFFFFF
    return total


def sent_text(sent):
    return sent.hex() if len(sent) <= 600 else f"{len(sent)} bytes, sum {sum_of(sent)}"


def state_text(service):
    (kind, _), _, _ = service.published.evaluate(b"", True, QUESTION, {})
    decided = "" if service.keeper.decided else " undecided"
    return (
        f"commit {service.keeper.desk.commit}{decided} published {service.published.commit} cleared {service.cleared} "
        f"stops {service.stops} client {service.client} checked {service.published.commit} {kind}"
    )


def told(disk, links):
    """What a case is answered."""
    try:
        service = Service(disk)
    except DiskFailed:
        return "store fault"
    except Damaged as damaged:
        return "damaged %s %d" % (damaged.args[0].decode(), damaged.args[1])
    parts = []
    for link in links:
        service.enter()
        ended = serve(service, link)
        parts.append(f"{ended} {sent_text(link.sent)} {state_text(service)}")
    folder = b"".join(name + b"=" + content + b";" for name, content in sorted(disk.files.items()))
    return " | ".join([*parts, f"{len(disk.files)} files, sum {sum_of(folder)}, {disk.faults} failures of {disk.made} calls"])


# ---- cases as lines: FILES | FAILS GONE HALVED | CLOSED FAILS SIZES | BYTES ; CLOSED FAILS SIZES | BYTES ..


def numbers(word):
    return [int(part) for part in word.split(",") if part != "-"]


ESCAPES = {b"\\n": b"\n", b"\\s": b" "}


def file_of(word):
    name, _, content = word.encode().partition(b"=")
    for escape, byte in ESCAPES.items():
        content = content.replace(escape, byte)
    return name, content


def file_word(name, content):
    return (name + b"=" + content.replace(b"\n", b"\\n").replace(b" ", b"\\s")).decode()


def rows_frame(first, end):
    """The message that sets these policies of the root bucket, each for a privilege of five digits."""
    changes = [n1(1) + text(b"") + key_fields((b"c", b"u", b"%05d" % at)) + result_fields((65535, b"")) for at in range(first, end)]
    return frame(9, 0x12, n4(len(changes)) + b"".join(changes))


def bytes_of(words):
    """The bytes of a connection. `rows FIRST END,` in front stands for one message more."""
    front, comma, rest = words.strip().partition(",")
    if comma:
        _, first, end = front.split(" ")
        return rows_frame(int(first), int(end)) + bytes_of(rest)
    return frame_model.bytes_in(front)


def link_of(words):
    closed_after, fails, sizes = words[0].split()
    return Link(bytes_of(words[1]), None if closed_after == "-" else int(closed_after), numbers(fails), numbers(sizes))


def case_of(line):
    """The disk and the links of a case."""
    files, disk, connections = line.split("|", 2)
    fails, gone, halved = map(numbers, disk.split())
    links = [link_of(words.split("|")) for words in connections.split(";")]
    words = [] if files.strip() == "-" else files.split()
    return Disk(map(file_of, words), fails, gone, halved), links


def with_answer(line):
    return line if line == "" or line.startswith("#") else f"{line} => {told(*case_of(line))}"


# ---- random cases


def change_fields(change):
    bucket, key, result = change
    return n1(result is not None) + text(bucket) + key_fields(key) + (result_fields(result) if result else b"")


def scope_fields(scope):
    return n1(0) if scope == b"*" else n1(1) + n4(scope)


def template_text(template):
    return b"".join(b" ".join([*rule[:2], *map(frame_model.modes_text, rule[2:])]) + b"\n" for rule in template)


def message_of(step):
    """The operation and the fields that ask for the step, or None where no message does."""
    match step:
        case "bucket", name, fallback:
            return 0x10, text(name) + result_fields(fallback)
        case "drop", name:
            return 0x11, text(name)
        case "change", changes:
            return 0x12, n4(len(changes)) + b"".join(map(change_fields, changes))
        case ("erase" | "list") as word, bucket, filters:
            return 0x13 if word == "erase" else 0x1A, text(bucket) + key_fields(filters)
        case ("layout",):
            return 0x14, b""
        case "template", template:
            return 0x15, text(template_text(template))
        case "user", uid, kind:
            return 0x16, n4(uid) + n1(USER_TYPES.index(kind))
        case "nouser", uid:
            return 0x17, n4(uid)
        case ("install" | "hybrid") as word, package, author, app, scope, privileges:
            names = n4(len(privileges)) + b"".join(map(text, sorted(privileges)))
            return 0x18 if word == "install" else 0x1D, text(package) + text(author or b"") + text(app) + scope_fields(scope) + names
        case "remove", app, scope:
            return 0x19, text(app) + scope_fields(scope)
        case "evaluate", bucket, deep, question:
            return 0x1B, text(bucket) + n1(deep) + key_fields(question)
        case ("stop",):
            return 0x1C, b""
        case "convert", package, hybrid:
            return 0x1E, text(package) + n1(hybrid)
    return None


def steps_of(draw, most):
    """Steps of a random script, each that a message asks for."""
    from random_scripts import BUCKETS, FALLBACKS, THEMES, Scripts
    from script_model import Reader

    scripts, reader, steps = Scripts(draw), Reader("admin"), []
    theme = draw.choice(("policies", "buckets", "device", "device"))
    scripts.buckets = [b".", b".", b"A", b"B", b"ADMIN", b"MAIN", b"USER_TYPE_GUEST"]
    lines = [b"layout"] if theme == "device" and draw.random() < 0.9 else []
    if theme == "buckets":
        lines = [b"bucket %s %s" % (name, draw.choice(FALLBACKS)) for name in BUCKETS[1:3]]
    lines += scripts.lines(THEMES[theme], draw.randint(0, most))
    for line in lines:
        step = reader.step(line)
        if step and message_of(step):
            steps.append(step)
    return steps


def spoiled(draw, stream):
    """The bytes, which may end early, go on with wrong ones, or have another byte at a place."""
    fate = draw.random()
    if fate < 0.1:
        return stream[: draw.randint(0, len(stream))]
    if fate < 0.2:
        return stream + draw.choice(
            (b"\0\0\0\2", b"\0\x10\0\1", b"\xff\xff\xff\xff", b"\0\0\0\3\0\1\1", frame(1, 0x14, b"\0"), frame(1, 0x7F), frame(1, 0x20, b"\0\2"))
        )
    if fate < 0.3 and stream:
        at = draw.randrange(len(stream))
        return stream[:at] + draw.randbytes(1) + stream[at + 1 :]
    return stream


def list_word(numbers_):
    return ",".join(map(str, numbers_)) or "-"


def link_words(draw, stream):
    closed_after = draw.randint(1, 12) if draw.random() < 0.1 else "-"
    fails = sorted({draw.randint(1, 14) for _ in range(draw.randint(1, 2))}) if draw.random() < 0.2 else []
    count = draw.choice((0, 0, 1, 4, len(stream)))
    sizes = [draw.choice((1, 1, 2, 3, 7, 20, 100, 4096)) for _ in range(min(count, len(stream), 200))]
    return f" {closed_after} {list_word(fails)} {list_word(sizes)} | {stream.hex()}"


def first_files(draw):
    """The files of the folder at the beginning: none, or those of a policy state."""
    if draw.random() < 0.7:
        return []
    device = Device()
    device.commit = draw.choice((0, 1, 7, 18446744073709551613))
    device.done()
    for step in steps_of(draw, 3):
        try:
            device.answer(step)
        except AttributeError:
            pass
    held = files_of(device)
    files = held | {b"list": list_of(held)}
    return [file_word(name, content) for name, content in sorted(files.items())]


def random_case(draw):
    files = first_files(draw)
    connections = []
    for _ in range(draw.choice((1, 1, 2, 3))):
        steps = steps_of(draw, draw.choice((2, 5, 9)))
        if draw.random() < 0.15:
            steps.insert(draw.randint(0, len(steps)), ("stop",))
        stream = spoiled(draw, b"".join(frame(draw.randrange(65536), *message_of(step)) for step in steps))
        connections.append(link_words(draw, stream))
    line = lambda *lists: f"{' '.join(files) or '-'} | {' '.join(map(list_word, lists))} |" + " ;".join(connections)
    disk, _ = case_of(line([], [], []))
    Keeper(disk)
    mounted = disk.made
    disk, links = case_of(line([], [], []))
    told(disk, links)
    if draw.random() < 0.4:
        return line([], [], [])
    # the calls of the mount fail in a few cases alone
    calls = range(1 if draw.random() < 0.1 else mounted + 1, disk.made + 1)
    some = lambda most: sorted(draw.sample(calls, min(draw.randint(0, most), len(calls))))
    fails = some(3)
    # behind a failing call a mount reads the files: some of these reads find nothing, or a half
    behind = [at for call in fails for at in range(call + 1, call + 20)]
    near = lambda: sorted(set(draw.sample(behind, draw.randint(0, 2)))) if behind and draw.random() < 0.3 else []
    lists = [fails, near(), near()]
    disk, links = case_of(line(*lists))
    told(disk, links)
    # what is listed behind the last call would meet those who look at the folder
    return line(*([at for at in numbers_ if at <= disk.made] for numbers_ in lists))


def main():
    if sys.argv[1:2] == ["--cases"]:
        draw = random.Random(int(sys.argv[3]) if sys.argv[3:] else 1)
        for _ in range(int(sys.argv[2])):
            print(random_case(draw))
        return
    for line in sys.stdin:
        print(with_answer(line.rstrip("\n")))


if __name__ == "__main__":
    main()
