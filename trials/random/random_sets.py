#!/usr/bin/env python3
"""random_sets.py COUNT SEED: compares what the crate `set_text` and the model make of so many random sets of files,
most of them damaged, and of 14 that are at a limit or one above it. 10,000 take a minute, and the time of a build: some
minutes, and more where the crates aren't built yet. Shows the sets that are answered differently, and then ends with
status 1."""

import collections
import pathlib
import random
import sys
import tempfile

import models
import random_scripts
from device_model import LIMITS, Device, Install
from program import Progress
from script_model import ALLOW, MOST_TEMPLATE_LINES, USER_TYPES
from set_damages import Damages
from set_model import MAIN, MANIFESTS, answer, files_of, main_of, manifests_of, sort_of
from set_program import answers, built
from smack_model import USUAL_TEMPLATE

# How many damages a set has in its state and in its files.
DAMAGES = [(0, 0), *(3 * [(0, 1)]), *(3 * [(1, 0)]), (0, 2), (0, 4), (2, 0), (3, 0), (1, 1), (2, 3)]
AT_ONCE = 250
SHOWN = 5
COMMANDS = {
    "set": 8, "batch": 2, "bucket": 4, "drop": 1, "unset": 1, "user": 4, "nouser": 1, "install": 8, "hybrid": 6, "convert": 2, "remove": 1,
    "template": 1,
}


class States(random_scripts.Scripts):
    """Random policy states, each of a random script."""

    def state(self):
        self.buckets = random_scripts.BUCKETS + self.one([[], random_scripts.BUILT_IN])
        names = self.draw.sample(random_scripts.BUCKETS[1:], self.draw.randrange(4))
        lines = [b"bucket %s deny" % name for name in names]
        if self.draw.random() < 0.8:
            lines += [b"layout", *(b"user %s %s" % (uid, self.one(USER_TYPES)) for uid in random_scripts.UIDS[:3])]
        lines += self.lines(COMMANDS, self.one([0, 1, 5, 20, 60]))
        device = Device()
        collections.deque(models.answers(b"\n".join(lines), device), 0)
        return device


def random_set(draw):
    """The files of a state, with some damages in the state and some in the files."""
    device, damages = States(draw).state(), Damages(draw)
    in_state, in_files = draw.choice(DAMAGES)
    for _ in range(in_state):
        draw.choice(damages.of_states)(device)
    files = files_of(device)
    for _ in range(in_files):
        draw.choice(damages.of_sets)(files)
    return files


def full_state(counted, more):
    """A state that has the most of what is counted, and so many more."""
    device, most = Device(), LIMITS.get(counted, MOST_TEMPLATE_LINES) + more
    device.do_layout()
    if counted == "users":
        device.users = {uid: b"guest" for uid in range(most)}
    elif counted == "packages":
        device.installs = {(b"a%d" % number, b"*"): Install(b"p%d" % number, None, set()) for number in range(most)}
    elif counted == "installs":
        packages = [b"p%d" % (number % 1_000) for number in range(most)]
        device.installs = {(b"a%d" % at, b"*"): Install(package, b"au", {b"p"}) for at, package in enumerate(packages)}
    elif counted == "grants":
        # installs of one package that ask for the same, so that there are half as many policies
        half = {b"p%d" % number for number in range(most // 2)}
        device.installs = {(app, b"*"): Install(b"pk", None, half) for app in (b"a", b"b")}
        device.installs[b"c", b"*"] = Install(b"pk", None, set([b"p1"][:more]))
    elif counted == "buckets":
        names = [b"b%d" % number for number in range(most - len(device.policies))]
        device.policies |= {name: {} for name in names}
        device.fallbacks |= {name: (ALLOW, b"") for name in names}
    elif counted == "policies":
        keys = [(b"c%d" % number, b"u", b"p") for number in range(most - device.count())]
        device.policies[b"ADMIN"] = {key: (ALLOW, b"") for key in keys[:20_000]}
        device.policies[b"USER_TYPE_SYSTEM"] |= {key: (7, b"say") for key in keys[20_000:]}
    else:
        device.template = (7 * USUAL_TEMPLATE)[:most]
    device.policies[MAIN], device.policies[MANIFESTS] = main_of(device), manifests_of(device)
    return device


def full_sets():
    counts = ("users", "packages", "installs", "grants", "buckets", "policies", "template lines")
    return [files_of(full_state(counted, more)) for counted in counts for more in (0, 1)]


def place_of(given):
    """Where a fault is, in few words."""
    word, *place = given.split(b" ")
    if word != b"damaged":
        return given.decode()
    name, line = place
    sort = {b"_": "_NAME", b"r.": "r.PACKAGE"}.get(sort_of(name), "surplus")
    own = name in (b"apps", b"buckets", b"stamp", b"template", b"users", b"_MAIN", b"_MANIFESTS")
    return f"damaged {name.decode() if own else sort} {'0' if line == b'0' else 'LINE'}"


def show(files):
    for name, text in sorted(files.items()):
        print(f"  {name.decode()}: {text[:600]!r}")


class Comparison:
    """Compares the program with the model on sets of files, some at a time."""

    def __init__(self, program):
        self.program = program
        self.places = collections.Counter()
        self.differing = 0

    def compare(self, sets):
        for files, given in zip(sets, answers(self.program, sets), strict=True):
            self.places[place_of(given)] += 1
            wanted = answer(files)
            if given != wanted:
                self.differing += 1
                print(f"the crate: {given}, the model: {wanted}")
                if self.differing <= SHOWN:
                    show(files)


def main():
    if len(sys.argv) != 3 or not all(word.isdecimal() for word in sys.argv[1:]):
        sys.exit(__doc__)
    count, seed = map(int, sys.argv[1:])
    draw, progress = random.Random(seed), Progress(count)
    with tempfile.TemporaryDirectory() as folder:
        comparison = Comparison(built(pathlib.Path(folder)))
        comparison.compare(full_sets())
        for start in range(0, count, AT_ONCE):
            sets = [random_set(draw) for _ in range(start, min(start + AT_ONCE, count))]
            comparison.compare(sets)
            for _ in sets:
                progress.step()
    for place, times in sorted(comparison.places.items()):
        print(f"{place}: {times} times")
    print(f"{comparison.places.total()} sets, {comparison.differing} of them answered differently")
    sys.exit(comparison.differing > 0)


main()
