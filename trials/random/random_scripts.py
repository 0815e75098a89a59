"""Random scripts of `local`: policies in nested buckets, users, installs, templates and questions, from few names each, so that
the lines meet one another. Some are broken at one line."""

USER_TYPES = [b"system", b"admin", b"normal", b"guest"]
LEVELS = [b"allow", b"ask", b"deny", b"unset"]
BUCKETS = [b".", b"A", b"B", b"C", b"D", b"E", b"_", b"b" * 64]
FALLBACKS = [b"deny", b"none", b"allow", b"agent:7:a"]
BUILT_IN = [b"MAIN", b"MANIFESTS", b"ADMIN", b"USER_TYPE_SYSTEM", b"USER_TYPE_ADMIN", b"USER_TYPE_NORMAL", b"USER_TYPE_GUEST"]
CLIENTS = [b"c", b"d", b"User::Pkg::pk", b"User::Pkg::x", b"User::Pkg::pk::App::a", b"User::Pkg::x::App::b", b"**", b"A" * 255]
UIDS = [b"0", b"1", b"7", b"10", b"5001", b"4294967295"]
USERS = [b"u", *UIDS]
PRIVILEGES = [b"p", b"q", b"http://tizen.org/privilege/camera", b"!", b"~", b"##"]
METADATA = [b"", b"a", b"b", b"a:b", b"m" * 255]
KINDS = [b"2", b"7", b"10", b"65533"]
PACKAGES = [b"pk", b"x", b"pk.y", b"_", b"z" * 100]
AUTHORS = [b"-", b"-", b"web", b"au"]
APPLICATIONS = [b"a", b"b", b"a1", b"a-2", b"_.", b"y" * 100]
LABELS = [
    b"System", b"User", b"User::Home", b"User::Pkg::pk::RO", b"User::Author::web", b"_", b"^", b"*", b"#", b"L" * 255,
    *(10 * [b"User::Pkg::pk", b"User::Pkg::x", b"System"]),
    *(5 * [b"User::Pkg::pk::App::a", b"User::Pkg::pk::App::b", b"User::Pkg::x::App::a"]),
    *(5 * [b"User::Pkg::pk::Share::a", b"User::Pkg::x::Share::a"]),
]
PLACEHOLDERS = [b"~PROCESS~", b"~PATH_RW~", b"~PATH_RO~", b"~AUTHOR~"]
BAD_WORDS = [
    b"", b"#", b"*", b";", b"a;b", b"a\x7f", b"\x80", b"a\tb", b"A" * 256, b"b" * 65, b"z" * 101, b"\x00", b"\r", b"\xc3\xa9",
    b"a/b", b".a", b"-", b"-1", b"+1", b"01", b"00", b"4294967296", b"99999999999", b"1.0", b"ALLOW", b"Deny", b"bucket:",
    b"bucket:a.b", b"agent:1:a", b"agent:65534:", b"agent:07:a", b"agent:7", b"agent::a", b"agent:7:" + b"m" * 256, b"~OWNER~",
    b"@", b"?", b"rwz", b"-r", b"r" * 65, b"b", b"deep", b"root", b"end",
]
BAD_LINES = [
    b" ", b"\t", b"end", b"End", b"batch ", b" layout", b"layout x", b"status 0", b"stop", b"Status", b"template x", b"serve 1",
    b"\xef\xbb\xbfstatus", b"status\r", b"set", b"set .", b"check", b"install pk - a", b"hybrid pk - a", b"convert pk", b"convert pk pure", b"access A X b", b"access A X -",
    b"level 1 own c p", b"level 1 own 2 c p ask", b"level 1 admin c p ask", b"level 1 root c p ask", b"levels", b"audit", b"share a b", b"shares x",
]
# How often each kind of line comes, by the kind of script.
THEMES = {
    "policies": {"set": 8, "unset": 1, "batch": 1, "check": 8, "list": 1, "erase": 1, "status": 1, "skipped": 1},
    "buckets": {"set": 10, "unset": 1, "batch": 2, "bucket": 5, "drop": 1, "check": 4, "from": 6, "list": 1, "erase": 1},
    "device": {
        "layout": 1, "user": 4, "nouser": 1, "install": 6, "hybrid": 4, "convert": 2, "remove": 3, "template": 1, "set": 6, "bucket": 1, "drop": 1, "batch": 1,
        "check": 10, "from": 3, "list": 3, "erase": 1, "access": 6, "status": 1, "skipped": 1,
    },
    "levels": {
        "user": 2, "nouser": 1, "install": 3, "hybrid": 2, "convert": 1, "remove": 1, "set": 2, "level": 10, "levels": 3, "audit": 3,
        "check": 4, "status": 1,
    },
    "shares": {
        "install": 4, "hybrid": 3, "convert": 1, "remove": 2, "nouser": 1, "template": 1, "share": 12, "unshare": 6, "shares": 3, "access": 8,
        "level": 1,
    },
}


class Scripts:
    """Scripts drawn by a `random.Random`."""

    def __init__(self, draw):
        self.draw = draw
        self.buckets = BUCKETS

    def one(self, words, *others):
        return self.draw.choice([*words, *others])

    def name(self, names, marks=(), often=0.4):
        """A name, or one of the marks, as often as said."""
        return self.one(marks) if marks and self.draw.random() < often else self.one(names)

    def key(self, marks=(), often=0.4):
        return b" ".join(self.name(names, marks, often) for names in (CLIENTS, USERS, PRIVILEGES))

    def filters(self):
        return self.key([b"#", b"#", b"*"], 0.8)

    def bucket(self):
        return self.one(self.buckets)

    def result(self):
        agent = b"agent:%s:%s" % (self.one(KINDS), self.one(METADATA))
        return self.one([b"deny", b"none", b"allow", agent, b"bucket:" + self.bucket(), b"bucket:" + self.bucket()])

    def modes(self, letters=b"rwxatlbRWXATLB-"):
        return bytes(self.draw.choices(letters, k=self.draw.randint(1, 5)))

    # ---- lines, by their kind

    def set(self):
        return [b"set %s %s %s" % (self.bucket(), self.key([b"*"]), self.result())]

    def unset(self):
        return [b"unset %s %s" % (self.bucket(), self.key([b"*"]))]

    def batch(self):
        within = [self.one([self.set, self.set, self.unset, self.skipped])() for _ in range(self.draw.choice([0, 1, 2, 3, 8]))]
        return [b"batch", *(line for lines in within for line in lines), b"end"]

    def bucket_line(self):
        return [b"bucket %s %s" % (self.bucket(), self.result())]

    def drop(self):
        return [b"drop " + self.bucket()]

    def list(self):
        return [b"list %s %s" % (self.bucket(), self.filters())]

    def erase(self):
        return [b"erase %s %s" % (self.bucket(), self.filters())]

    def check(self):
        return [b"check " + self.key()]

    def from_line(self):
        return [b"from %s %s %s" % (self.bucket(), self.one([b"deep", b"flat"]), self.key())]

    def layout(self):
        return [b"layout"]

    def user(self):
        return [b"user %s %s" % (self.one(UIDS), self.one(USER_TYPES))]

    def nouser(self):
        return [b"nouser " + self.one(UIDS)]

    def install(self):
        privileges = [self.one(PRIVILEGES) for _ in range(self.draw.choice([0, 1, 1, 2, 5]))]
        words = [self.one(PACKAGES), self.one(AUTHORS), self.one(APPLICATIONS), self.name(UIDS, [b"*"]), *privileges]
        return [b"install " + b" ".join(words)]

    def hybrid(self):
        return [line.replace(b"install", b"hybrid", 1) for line in self.install()]

    def convert(self):
        return [b"convert %s %s" % (self.one(PACKAGES), self.one([b"hybrid", b"plain"]))]

    def remove(self):
        return [b"remove %s %s" % (self.one(APPLICATIONS), self.name(UIDS, [b"*"]))]

    def access(self):
        modes = self.one([b"", self.modes(b"rwxatlR-")])
        return [b"access %s %s %s" % (self.one(LABELS), self.one(LABELS), self.one([b"r", b"w", b"L"]) + modes)]

    def template_line(self):
        words = [self.name(LABELS, PLACEHOLDERS), self.name(LABELS, PLACEHOLDERS), self.modes()]
        words += [self.modes() for _ in range(self.draw.choice([0, 0, 1]))]
        return self.one([b"", b" ", b"\t"]) + self.one([b" ", b"\t", b"  "]).join(words) + self.one([b"", b" "])

    def template(self):
        count = self.draw.choice([0, 1, 2, 3, 10, 64])
        return [b"template", *(self.template_line() for _ in range(count)), b"end"]

    def level(self):
        setter = self.one([b"own", b"own", b"admin " + self.one(UIDS)])
        words = [self.one(UIDS), setter, self.one(CLIENTS[:6]), self.one(PRIVILEGES), self.one(LEVELS)]
        return [b"level " + b" ".join(words)]

    def levels(self):
        return [b"levels " + self.one(UIDS)]

    def audit(self):
        return [b"audit " + self.one(USERS)]

    def share_names(self):
        apps = APPLICATIONS[:3]
        return b"%s %s %s" % (self.one(apps), self.one(apps), self.one(APPLICATIONS[:2]))

    def share(self):
        return [b"share " + self.share_names()]

    def unshare(self):
        return [b"unshare " + self.share_names()]

    def shares(self):
        return [b"shares"]

    def status(self):
        return [b"status"]

    def skipped(self):
        return [self.one([b"", b"#", b"# a comment", b"#\xff\x00 \t;"])]

    LINES = {"bucket": bucket_line, "from": from_line}

    # ---- scripts

    def lines(self, kinds, count):
        weights = list(kinds.values())
        for kind in self.draw.choices(list(kinds), weights, k=count):
            yield from self.LINES[kind](self) if kind in self.LINES else getattr(self, kind)()

    def full(self):
        """A script that comes to the limit of users, buckets, packages or template lines, with some questions behind."""
        kind = self.one(["users", "buckets", "packages", "template"])
        if kind == "users":
            yield b"layout"
            yield from (b"user %d %s" % (uid, self.one(USER_TYPES)) for uid in range(self.draw.randint(62, 67)))
        elif kind == "buckets":
            yield from (b"bucket b%d deny" % number for number in range(self.draw.randint(1014, 1026)))
            yield b"layout"
            yield b"set b7 * * * bucket:b8"
        elif kind == "packages":
            yield b"layout"
            yield from (b"install p%d - a%d * p q" % (number, number) for number in range(self.draw.randint(1022, 1026)))
        else:
            yield b"template"
            yield from (self.template_line() for _ in range(self.draw.randint(62, 66)))
            yield b"end"
        yield from self.lines(THEMES["device"], 20)

    def whole(self):
        """The lines of a script that is well formed, but for one of `full` with too long a template."""
        if self.draw.random() < 0.01:
            return list(self.full())
        theme = self.one(list(THEMES))
        self.buckets = {"policies": 15 * [b"."] + [b"A"], "buckets": BUCKETS, "device": BUILT_IN + [b".", b"A"]}.get(theme, [b".", b"ADMIN"])
        before = []
        if theme == "buckets":
            before = [b"bucket %s %s" % (name, self.one(FALLBACKS)) for name in BUCKETS[1:]]
        if theme in ("device", "levels", "shares") and self.draw.random() < 0.9:
            before = [b"layout", b"bucket A none"]
            before += [b"user %s %s" % (uid, self.one(USER_TYPES)) for uid in self.draw.sample(UIDS, 3)]
        return before + list(self.lines(THEMES[theme], self.draw.choice([0, 1, 2, 5, 20, 60, 200])))

    def broken(self, lines):
        """The same with one line broken, or the rest cut off, so that it may end within a block."""
        if not lines:
            return [self.one(BAD_LINES)]
        at = self.draw.randrange(len(lines))
        words = lines[at].split(b" ")
        place = self.draw.randrange(len(words))
        match self.draw.randrange(8):
            case 0:
                return lines[:at]
            case 1:
                lines.insert(at, self.one(BAD_LINES))
            case 2 | 3 | 4:
                lines[at] = b" ".join([*words[:place], self.one(BAD_WORDS), *words[place + 1:]])
            case 5:
                lines[at] = b" ".join(words[:place] + words[place + 1:])
            case 6:
                lines[at] = b" ".join([*words[:place], self.one(words), *words[place:]])
            case 7:
                byte = self.draw.randrange(len(lines[at]) + 1)
                lines[at] = lines[at][:byte] + self.draw.randbytes(1) + lines[at][byte + 1:]
        return lines

    def script(self):
        lines = self.whole()
        if self.draw.random() < 0.25:
            lines = self.broken(lines)
        return b"\n".join(lines) + self.one([b"", b"\n"])
