#!/usr/bin/env python3
"""set_model.py --self-test: compares the model of sets of files with a worked set, within a second, and ends with
status 1 at the first difference.

The model says in plain Python how a policy state is spelled as files, and what a set of files is read as; it shares
nothing with the crates. A set is a dictionary from names to texts. `files_of` spells a state, and `answer` says whether
a set is that of a state, or else its first fault."""

import pathlib
import re
import sys

from device_model import ANY, BUILT_IN, LIMITS, MAIN, MANIFESTS, TYPE_BUCKETS, Device, Install, install_label
from script_model import ALLOW, BUCKET, DENY, MOST_TEMPLATE_LINES, NONE, ROOT, USER_TYPES
from script_model import is_ident, is_name, is_printable
from smack_model import MODES, template_rule_of

FIXED = (b"apps", b"buckets", b"stamp", b"template", b"users")
PLAIN = (DENY, b""), (NONE, b""), (ALLOW, b"")
MOST_UID = 4_294_967_295


class Damaged(Exception):
    """The first fault of a set: a file, and a line of it, or 0."""


class Wrong(Exception):
    """A line is wrong."""


def expect(holds):
    if not holds:
        raise Wrong


# ---- spelling


def is_bucket(text):
    return re.fullmatch(rb"[A-Za-z0-9_-]{0,64}", text) is not None


def sort_of(name):
    """`_` for the file of a bucket, `r.` for that of a package, and nothing for others."""
    if name[:1] == b"_" and is_bucket(name[1:]):
        return b"_"
    return b"r." if name[:2] == b"r." and is_ident(name[2:]) else b""


def text_of(lines):
    return b"".join(line + b"\n" for line in lines)


def result_text(result):
    return b"0x%x;%s" % result


def scope_text(scope):
    return scope if scope == b"*" else b"%d" % scope


def install_order(install):
    (app, scope), it = install
    return it.package, app, -1 if scope == b"*" else scope


def install_text(install):
    (app, scope), it = install
    package = (b"+" if it.hybrid else b"") + it.package
    return b";".join([package, it.author or b"", app, scope_text(scope), *sorted(it.privileges)])


def rule_text(rule):
    subject, object_, *modes = rule
    words = (bytes(letter for letter in MODES if letter in each) or b"-" for each in modes)
    return b" ".join([subject, object_, *words])


def load_files(device):
    return {
        b"r." + package: text_of(map(rule_text, device.package_rules(package)))
        for package in device.packages()
    }


def files_of(device):
    """The set of files of a state."""
    files = {
        b"stamp": b"%d\n" % device.commit,
        b"buckets": text_of(b"%s;%s" % (name, result_text(it)) for name, it in sorted(device.fallbacks.items())),
        b"users": text_of(b"%d;%s" % user for user in sorted(device.users.items())),
        b"apps": text_of(map(install_text, sorted(device.installs.items(), key=install_order))),
        b"template": text_of(map(rule_text, device.template)),
    }
    for name, policies in device.policies.items():
        files[b"_" + name] = text_of(b";".join([*key, result_text(it)]) for key, it in sorted(policies.items()))
    return files | load_files(device)


# ---- what the parts of a state say together


def main_of(device):
    """The policies of `MAIN` that the users call for."""
    links = {(b"*", b"%d" % uid, b"*"): (BUCKET, TYPE_BUCKETS[kind]) for uid, kind in device.users.items()}
    return {ANY: (BUCKET, MANIFESTS), **links}


def manifests_of(device):
    """The policies of `MANIFESTS` that the installs call for."""
    return {
        (install_label(app, install), scope_text(scope), privilege): (ALLOW, b"")
        for (app, scope), install in device.installs.items()
        for privilege in install.privileges
    }


def has_cycle(device):
    targets_of = lambda policies: {target for kind, target in policies.values() if kind == BUCKET}
    left = {name: targets_of(policies) for name, policies in device.policies.items()}
    # a bucket that points to none of those that are left is on no cycle
    while ends := [name for name, targets in left.items() if not targets & left.keys()]:
        for name in ends:
            del left[name]
    return bool(left)


# ---- reading


def number_in(text, most):
    expect(re.fullmatch(rb"0|[1-9][0-9]{0,19}", text) and int(text) <= most)
    return int(text)


def result_in(kind, metadata):
    expect(re.fullmatch(rb"0x(0|[1-9a-f][0-9a-f]{0,3})", kind))
    result = int(kind, 16), metadata
    if result[0] == BUCKET:
        expect(is_bucket(metadata))
    else:
        is_plain = result[0] in (DENY, NONE, ALLOW)
        expect(result in PLAIN if is_plain else is_printable(metadata, 255))
    return result


class Sets:
    """Reads a set of files, in the order in which its faults are named. What takes a line gives what has to rise."""

    def __init__(self, files):
        self.files = files
        self.device = Device()
        self.device.fallbacks, self.device.policies, self.device.template = {}, {}, []
        self.bucket, self.package_of, self.author_of, self.kind_of, self.grants = None, {}, {}, {}, 0

    def read(self):
        device = self.device
        self.expect_names(b"", FIXED)
        self.read_file(b"stamp", self.stamp_line)
        self.read_file(b"buckets", self.bucket_line)
        self.expect_names(b"_", [b"_" + bucket for bucket in device.fallbacks])
        for self.bucket in sorted(device.fallbacks):
            device.policies[self.bucket] = {}
            self.read_file(b"_" + self.bucket, self.policy_line)
        self.read_file(b"users", self.user_line)
        self.read_file(b"apps", self.install_line)
        self.expect_names(b"r.", [b"r." + package for package in self.author_of])
        self.read_file(b"template", self.template_line)
        self.test_together()
        return device

    def expect_names(self, sort, needed):
        """The names of this sort are those that are needed."""
        odd = {name for name in self.files if sort_of(name) == sort} ^ set(needed)
        if odd:
            raise Damaged(min(odd), 0)

    def read_file(self, name, take):
        *lines, rest = self.files[name].split(b"\n")
        before = None
        for number, line in enumerate(lines, 1):
            try:
                risen = take(line)
                expect(before is None or before < risen)
            except Wrong:
                raise Damaged(name, number)
            before = risen
        if rest or not lines and name in (b"stamp", b"buckets"):
            raise Damaged(name, len(lines) + 1)

    def stamp_line(self, line):
        self.device.commit = number_in(line, LIMITS["commits"])
        # a second line never rises
        return 0

    def bucket_line(self, line):
        fields = line.split(b";")
        expect(len(fields) == 3)
        name, *result = fields
        kind, metadata = result_in(*result)
        expect(is_bucket(name) and kind != BUCKET and (name != ROOT or kind != NONE))
        self.device.fallbacks[name] = kind, metadata
        expect(ROOT in self.device.fallbacks and len(self.device.fallbacks) <= LIMITS["buckets"])
        return name

    def policy_line(self, line):
        fields = line.split(b";")
        expect(len(fields) == 5)
        key, (kind, metadata) = tuple(fields[:3]), result_in(*fields[3:])
        expect(all(text == b"*" or is_name(text) for text in key))
        expect(kind != BUCKET or metadata in self.device.fallbacks)
        self.device.policies[self.bucket][key] = kind, metadata
        expect(self.device.count() <= LIMITS["policies"])
        return key

    def user_line(self, line):
        fields = line.split(b";")
        expect(len(fields) == 2 and fields[1] in USER_TYPES)
        uid = number_in(fields[0], MOST_UID)
        self.device.users[uid] = fields[1]
        expect(len(self.device.users) <= LIMITS["users"])
        return uid

    def install_line(self, line):
        fields = line.split(b";")
        expect(len(fields) >= 4)
        package, author, app, scope, *privileges = fields
        hybrid, package = package[0:1] == b"+", package.removeprefix(b"+")
        author = author or None
        expect(is_ident(package) and is_ident(app) and (author is None or is_ident(author)))
        expect(all(map(is_name, privileges)) and all(one < next_ for one, next_ in zip(privileges, privileges[1:])))
        scope = scope if scope == b"*" else number_in(scope, MOST_UID)
        expect(scope == b"*" or scope in self.device.users)
        expect(self.package_of.setdefault(app, package) == package)
        expect(self.author_of.setdefault(package, author) == author)
        expect(self.kind_of.setdefault(package, hybrid) == hybrid)
        install = (app, scope), Install(package, author, privileges, hybrid)
        self.device.installs.update([install])
        self.grants += len(privileges)
        expect(len(self.author_of) <= LIMITS["packages"] and len(self.device.installs) <= LIMITS["installs"])
        expect(self.grants <= LIMITS["grants"])
        return install_order(install)

    def template_line(self, line):
        rule = template_rule_of(line)
        expect(rule and rule_text(rule) == line)
        self.device.template.append(rule)
        expect(len(self.device.template) <= MOST_TEMPLATE_LINES)
        return len(self.device.template)

    def test_together(self):
        device = self.device
        built_in = set(BUILT_IN) & device.policies.keys()
        is_bare = not device.users and not device.installs
        if has_cycle(device) or len(built_in) not in (0, len(BUILT_IN)) or not built_in and not is_bare:
            raise Damaged(b"buckets", 0)
        for name, wanted in (MAIN, main_of), (MANIFESTS, manifests_of):
            if built_in and device.policies[name] != wanted(device):
                raise Damaged(b"_" + name, 0)
        if built_in and any(device.fallbacks[name] != (DENY, b"") for name in (MAIN, MANIFESTS)):
            raise Damaged(b"buckets", 0)
        for name, text in sorted(load_files(device).items()):
            if self.files[name] != text:
                raise Damaged(name, 0)


def answer(files):
    """`desk same` for the set of a state, or `damaged FILE LINE`."""
    try:
        device = Sets(files).read()
    except Damaged as damaged:
        return b"damaged %s %d" % damaged.args
    assert files_of(device) == files
    return b"desk same"


# ---- the worked set


def worked_set():
    links = dict.fromkeys((b"_" + name for name in TYPE_BUCKETS.values()), b"*;*;*;0xfffe;ADMIN\n")
    return links | {
        b"stamp": b"2\n",
        b"buckets": b";0x0;\nADMIN;0xffff;\nMAIN;0x0;\nMANIFESTS;0x0;\nUSER_TYPE_ADMIN;0xffff;\n"
        b"USER_TYPE_GUEST;0xffff;\nUSER_TYPE_NORMAL;0xffff;\nUSER_TYPE_SYSTEM;0xffff;\n",
        b"_": b"*;*;*;0xfffe;MAIN\n",
        b"_MAIN": b"*;*;*;0xfffe;MANIFESTS\n",
        b"_MANIFESTS": b"User::Pkg::pk;*;p;0xffff;\n",
        b"_ADMIN": b"",
        b"users": b"",
        b"apps": b"pk;;a1;*;p\n",
        b"template": b"System ~PROCESS~ rwxat\nUser ~PROCESS~ rwxat\n~PROCESS~ System wx\n~PROCESS~ User wx\n"
        b"~PROCESS~ User::Home rxl\nSystem ~PATH_RW~ rwxat\n~PROCESS~ ~PATH_RW~ rwxatl\nSystem ~PATH_RO~ rwxat\n"
        b"~PROCESS~ ~PATH_RO~ rxl\n~PROCESS~ ~AUTHOR~ rwxatl\n",
        b"r.pk": b"System User::Pkg::pk rwxat\nUser User::Pkg::pk rwxat\nUser::Pkg::pk System wx\n"
        b"User::Pkg::pk User wx\nUser::Pkg::pk User::Home rxl\nSystem User::Pkg::pk rwxat\n"
        b"User::Pkg::pk User::Pkg::pk rwxatl\nSystem User::Pkg::pk::RO rwxat\nUser::Pkg::pk User::Pkg::pk::RO rxl\n",
    }


def self_test():
    device, worked = Device(), worked_set()
    device.do_layout()
    device.do_install(b"pk", None, b"a1", b"*", {b"p"})
    if files_of(device) != worked:
        sys.exit(f"the worked state is spelled {files_of(device)}")
    hybrid = Device()
    hybrid.do_layout()
    hybrid.do_hybrid(b"pk", None, b"a1", b"*", {b"p"})
    hybrid.do_hybrid(b"pk", None, b"a2", b"*", {b"p", b"q"})
    examples = pathlib.Path(__file__).resolve().parents[2] / "examples"
    after = next(examples.rglob("hybrid_package_in_files")) / "after"
    typed = {file.name.encode(): file.read_bytes() for file in after.iterdir() if file.name != "list"}
    if files_of(hybrid) != typed:
        sys.exit(f"the state with a hybrid package is spelled {files_of(hybrid)}")
    cases = [
        (worked, b"desk same"),
        (typed, b"desk same"),
        (typed | {b"apps": typed[b"apps"].replace(b"+pk;;a2", b"pk;;a2")}, b"damaged apps 2"),
        (worked | {b"apps": b"++pk;;a1;*;p\n"}, b"damaged apps 1"),
        (worked | {b"stamp": b"02\n"}, b"damaged stamp 1"),
        (worked | {b"buckets": worked[b"buckets"].replace(b"0x0", b"0X0", 1)}, b"damaged buckets 1"),
        (worked | {b"_a.b": b""}, b"damaged _a.b 0"),
        (worked | {b"r.pk": b""}, b"damaged r.pk 0"),
    ]
    for files, wanted in cases:
        if answer(files) != wanted:
            sys.exit(f"the model answers {answer(files)}, and {wanted} is wanted")
    print(f"{len(cases) + 2} worked cases, answered as wanted")


if __name__ == "__main__":
    if sys.argv[1:] != ["--self-test"]:
        sys.exit(__doc__)
    self_test()
