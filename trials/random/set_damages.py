"""What makes a set of files wrong, as a person, a disk or a program might: in the policy state before it is spelled, in
a line of a file, or in the set as a whole. Some of it leaves the set right."""

import re

from device_model import Install
from random_scripts import BAD_WORDS, PRIVILEGES
from script_model import ALLOW, BUCKET, DENY, NONE
from set_model import ANY, BUILT_IN, FIXED, MAIN, MANIFESTS, sort_of

KINDS = [
    b"0x0", b"0x1", b"0x2", b"0xa", b"0xfffd", b"0xfffe", b"0xffff", b"0x10000", b"0X0", b"0xFFFF", b"0x00", b"0x0a",
    b"0x", b"0", b"xffff", b"65535", b"-0x1", b"0xg", b"",
]
NUMBERS = [b"0", b"1", b"9", b"10", *(b"%d" % number for number in (2**32 - 1, 2**32, 2**64 - 1, 2**64, 10**30))]
WORDS = [b"pk", b"x", b"web", b"a", b"system", b"guest", b"System", b"c", b"B"]
FIELDS = [*KINDS, *NUMBERS, *PRIVILEGES, *BUILT_IN, *WORDS]
SURPLUS = [
    b"_", b"_A", b"_Z", b"_-", b"__", b"_MAIN", b"_MAIN~", b"_a.b", b"_" + b"b" * 64, b"_" + b"b" * 65, b"r.pk",
    b"r.zz", b"r.", b"r.-x", b"r..x", b"r._", b"r." + b"z" * 100, b"r." + b"z" * 101, b"r", b"R.pk", b"list", b"guard",
    b"stamp~", b"Stamp", b"stamps", b"user", b"zz", b".", b"0", b"~", b"f" * 255,
]
SORTS = [*FIXED, b"_", b"r."]


class Damages:
    """Damages drawn by a `random.Random`. Each changes what it is given."""

    def __init__(self, draw):
        self.draw = draw
        # mostly two sorts of files are damaged, so that faults of each two of them meet
        self.sorts = draw.sample(SORTS, 2 if draw.random() < 0.7 else len(SORTS))
        self.of_states = self.named("state_") + 4 * [self.state_install]
        self.of_lines = self.named("line_")
        self.of_sets = self.named("set_") + 9 * [self.set_line] + 5 * [self.set_lines]

    def named(self, start):
        return [getattr(self, name) for name in sorted(dir(self)) if name.startswith(start)]

    def one(self, of):
        return self.draw.choice(list(of))

    # ---- of a state, of which the rules no longer hold

    def result(self, device):
        agent = self.draw.randrange(2, 65534), self.one([b"", b"a", b"m" * 255, b"m" * 256, b"a;b"])
        target = BUCKET, self.one([*device.policies, b"absent", b"a.b"])
        return self.one([(DENY, b""), (NONE, b""), (ALLOW, b""), (ALLOW, b"x"), (70_000, b""), agent, target, target])

    def state_fallback(self, device):
        device.fallbacks[self.one(device.fallbacks)] = self.result(device)

    def state_policy(self, device):
        key = tuple(self.one([b"*", b"#", b"c", b"~", self.one(BAD_WORDS)]) for _ in range(3))
        device.policies[self.one(device.policies)][key] = self.result(device)

    def state_link(self, device):
        """A policy to another bucket, or to the same one."""
        key = self.one([ANY, (b"c", b"*", b"*"), (b"c", b"u", b"p")])
        device.policies[self.one(device.policies)][key] = BUCKET, self.one(device.policies)

    def state_bucket_gone(self, device):
        if len(device.policies) > 1:
            self.drop(device, [self.one(device.policies)], self.draw.random() < 0.8)

    def state_layout_gone(self, device):
        self.drop(device, BUILT_IN, True)

    def drop(self, device, names, also_links):
        for name in names:
            device.fallbacks.pop(name, None)
            device.policies.pop(name, None)
            for policies in device.policies.values():
                for key in [key for key, result in policies.items() if also_links and result == (BUCKET, name)]:
                    del policies[key]

    def state_kept_fallback(self, device):
        device.fallbacks[self.one([MAIN, MANIFESTS])] = self.one([(ALLOW, b""), (NONE, b""), (7, b"a")])
        for name in (MAIN, MANIFESTS):
            device.policies.setdefault(name, {})
            device.fallbacks.setdefault(name, (DENY, b""))

    def state_kept_row(self, device):
        """A row of a bucket that is kept for the registry is gone, of another result, or one too many."""
        policies = device.policies.get(self.one([MAIN, MANIFESTS]), {})
        key = self.one([*policies, ANY, (b"User::Pkg::pk", b"*", b"zz"), (b"*", b"7", b"*")])
        if policies.pop(key, None) is None or self.draw.random() < 0.3:
            policies[key] = self.one([(ALLOW, b""), (DENY, b""), (BUCKET, b"ADMIN")])

    def state_user_gone(self, device):
        if device.users:
            del device.users[self.one(device.users)]

    def state_user_type(self, device):
        uid = self.one([*device.users, 3, 2**32 - 1, 2**32])
        device.users[uid] = self.one([b"system", b"admin", b"normal", b"guest", b"Admin", b""])

    def state_install(self, device):
        """An install is gone, or there is one more or another in its place."""
        if not device.installs:
            return
        app, scope = self.one(device.installs)
        package, author, privileges, hybrid = device.installs[app, scope]
        if self.draw.random() < 0.5:
            del device.installs[app, scope]
        if self.draw.random() < 0.3:
            scope = self.one([b"*", *device.users, 7, 2**32])
        match self.draw.randrange(7):
            case 0:
                package = self.one([b"pk", b"x", b"other", b".x"])
            case 1:
                app, author = self.one([b"a", b"b", b"other", app]), self.one([None, b"web", b"au", b"-"])
            case 2:
                app = self.one([b"a", b"b", b"other", b"z" * 101])
            case 3:
                privileges = privileges ^ {self.one(PRIVILEGES), self.one([b"q", *BAD_WORDS])}
            case 4:
                return
            case 5:
                hybrid = not hybrid
        device.installs[app, scope] = Install(package, author, privileges, hybrid)

    def state_commit(self, device):
        device.commit = self.one([0, 2**32, 2**64 - 1, 2**64, 10**20])

    # ---- of a line

    def line_letter(self, line):
        at, letter = self.draw.randrange(len(line) + 1), self.one(b"0aAzZ*#; ~._-rwx\t\r\x00\x7f\xff")
        return line[:at] + bytes([letter]) + line[at + self.draw.randrange(2):]

    def line_shorter(self, line):
        at = self.draw.randrange(len(line) + 1)
        return line[:at] + line[at + 1:]

    def line_zero(self, line):
        return re.sub(self.one([rb"(?<=0x)", rb"(?<![0-9a-z])(?=[0-9])", rb"(?<=;)(?=[0-9])"]), b"0", line, count=1)

    def line_number(self, line):
        return re.sub(rb"[0-9]+", self.one(NUMBERS), line, count=1)

    def line_kind(self, line):
        return re.sub(rb"0x[0-9a-f]+", self.one(KINDS), line)

    def line_case(self, line):
        kinds_upper = re.sub(rb"0x\w+", lambda kind: b"0x" + kind[0][2:].upper(), line)
        return self.one([line.upper(), line.replace(b"0x", b"0X"), kinds_upper])

    def line_field(self, line):
        fields = line.split(b";")
        fields[self.draw.randrange(len(fields))] = self.one(FIELDS + BAD_WORDS)
        return b";".join(fields)

    def line_fields(self, line):
        """Two fields or words are swapped, or one is gone or there twice."""
        mark = b";" if b";" in line else b" "
        fields = line.split(mark)
        at, to = self.draw.randrange(len(fields)), self.draw.randrange(len(fields))
        match self.draw.randrange(3):
            case 0:
                fields[at], fields[to] = fields[to], fields[at]
            case 1:
                del fields[at]
            case 2:
                fields.insert(to, fields[at])
        return mark.join(fields)

    def line_last(self, line):
        """The last two fields are swapped, or the last is there twice."""
        *before, last = line.split(b";")
        return b";".join([*before, last, last] if self.draw.random() < 0.5 else [*before[:-1], last, *before[-1:]])

    def line_spaces(self, line):
        within = [line.replace(b" ", b"  ", 1), line.replace(b" ", b"\t", 1)]
        return self.one([b" " + line, line + b" ", line + b"\r", *within])

    def line_modes(self, line):
        *before, modes = line.split(b" ")
        more = [modes + modes[:1], modes + b"-", modes + b"b", b"r" * 65]
        return b" ".join([*before, self.one([modes[::-1], modes.upper(), modes[1:], b"-", *more])])

    # ---- of a set

    def name_in(self, files):
        """A file, of a sort that is drawn first, and mostly one with a text."""
        filled = [name for name in files if files[name] or self.draw.random() < 0.1]
        sorts = {}
        for name in [name for name in filled if (sort_of(name) or name) in self.sorts] or filled or files:
            sorts.setdefault(sort_of(name) or name, []).append(name)
        return self.one(sorts[self.one(sorts)])

    def set_line(self, files):
        name = self.name_in(files)
        lines = files[name].split(b"\n")
        at = self.draw.randrange(max(1, len(lines) - 1))
        lines[at] = self.one(self.of_lines)(lines[at])
        files[name] = b"\n".join(lines)

    def set_lines(self, files):
        """A line is gone, there twice, elsewhere, swapped with the next, from another file, blank, or longer."""
        name = self.name_in(files)
        *lines, rest = files[name].split(b"\n")
        at, to = self.draw.randrange(len(lines) + 1), self.draw.randrange(len(lines) + 1)
        match self.draw.randrange(7):
            case 0:
                del lines[at: at + 1]
            case 1:
                lines[at:at] = lines[at: at + 1]
            case 2:
                moved = lines[at: at + 1]
                del lines[at: at + 1]
                lines[to:to] = moved
            case 3:
                lines[at: at + 2] = lines[at: at + 2][::-1]
            case 4:
                lines[at:at] = files[self.name_in(files)].split(b"\n")[:1]
            case 5:
                lines[at:at] = [self.one([b"", b" ", b"#", b";", b";;;;"])]
            case 6:
                lines[at:at] = [line + self.one([b"0", b"~"]) for line in lines[at - 1: at]]
        files[name] = b"\n".join([*lines, rest])

    def set_byte(self, files):
        name = self.name_in(files)
        text, at = files[name], self.draw.randrange(len(files[name]) + 1)
        files[name] = text[:at] + self.draw.randbytes(self.draw.randrange(2)) + text[at + 1:]

    def set_end(self, files):
        """A file is cut, empty, or without its last newline, or has more of them."""
        name = self.name_in(files)
        text = files[name]
        files[name] = self.one([text[:self.draw.randrange(len(text) + 1)], b"", text[:-1], text + b"\n", b"\n" + text])

    def set_surplus(self, files):
        files.setdefault(self.one(SURPLUS), self.one([b"", b"\n", files[self.name_in(files)]]))

    def set_absent(self, files):
        if len(files) > 1:
            del files[self.name_in(files)]

    def set_renamed(self, files):
        text = files.pop(self.name_in(files))
        files[self.one(SURPLUS)] = text

    def set_exchanged(self, files):
        one, other = self.name_in(files), self.name_in(files)
        files[one], files[other] = files[other], files[one]

    def set_load_letter(self, files):
        """A letter of a file of rules is another one."""
        name = self.one([name for name in files if name[:2] == b"r."] or [b"template"])
        if text := files.get(name, b""):
            at = self.draw.randrange(len(text))
            files[name] = text[:at] + self.one([b"r", b"x", b"A", b"\n"]) + text[at + 1:]

    def set_long_template(self, files):
        files[b"template"] = files.get(b"template", b"") + self.draw.randint(54, 65) * b"a b r\n"
