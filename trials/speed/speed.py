#!/usr/bin/env python3
"""speed.py [WORD..]: times the program and the peer in `peer.rs` on the same inputs, in turn. Takes some two minutes. Words,
as `rules`, choose the inputs whose names have them all.

Each run of `local` has a folder of its own, in memory where the machine has such a place. Prints the best of three runs
each, and where GNU time stands in /usr/bin the most memory that each took. The two must answer alike. The peer is built
here, by `rustc`."""

import os
import pathlib
import random
import subprocess
import sys
import tempfile
import time

from program import PROGRAM, ROOM, build

HERE = pathlib.Path(__file__).resolve().parent
MOST_BYTES = 16_777_216
MOST_POLICIES = 65_536
GNU_TIME = pathlib.Path("/usr/bin/time")


def filled(lines):
    """A text of these lines, as many as it may have."""
    text, size = [], 0
    for line in lines:
        size += len(line) + 1
        if size > MOST_BYTES:
            break
        text.append(line)
    return b"\n".join(text) + b"\n"


def forever(line):
    number = 0
    while True:
        yield line(number)
        number += 1


def batch(changes):
    return [b"batch", *changes, b"end"]


def lines(of):
    return b"\n".join(of) + b"\n"


def inputs():
    draw = random.Random(1)
    rising = [b"set . c%05d u p allow" % number for number in range(MOST_POLICIES)]
    mixed = draw.sample(rising, len(rising))
    gone = [b"un" + line.rsplit(b" ", 1)[0] for line in draw.sample(rising, len(rising))]
    access = ["smack-access", "A", "X", "r"]
    yield "16 MiB of checks, no policy", ["local"], filled(forever(lambda _: b"check c u p"))
    yield "a batch of 65,536 new keys, rising", ["local"], lines(batch(rising))
    yield "the same in any order", ["local"], lines(batch(mixed))
    yield "the same, and a batch deletes them", ["local"], lines(batch(mixed) + batch(gone))
    yield "a batch of 65,536, and 1,000 checks", ["local"], lines(batch(rising) + 1000 * [b"check c00001 u p"])
    yield "4,096 new keys, a command each", ["local"], lines(mixed[:4096])
    yield "16 MiB of rules for one pair", access, filled(forever(lambda _: b"A X rwx"))
    yield "16 MiB of rules, new objects", access, filled(forever(lambda number: b"s%d o%d rx" % (number % 1000, number)))
    yield "16 MiB of rules, new subjects", access, filled(forever(lambda number: b"s%d X rx" % number))
    random_rule = lambda _: b"s%d o%d rx w" % (draw.randrange(10**6), draw.randrange(10))
    random_rules = filled(forever(random_rule))
    yield "16 MiB of rules, random pairs", access, random_rules
    yield "the first half of them", access, random_rules[: random_rules.rindex(b"\n", 0, MOST_BYTES // 2) + 1]
    some_rule = lambda _: b"s%d o%d rx w" % (draw.randrange(100), draw.randrange(10))
    yield "16 MiB of rules for 1,000 pairs", access, filled(forever(some_rule))
    long_rule = lambda _: b"User::App::org.tizen.%d User::Pkg::org.tizen.%d rx w" % (draw.randrange(10**5), draw.randrange(1000))
    yield "16 MiB of rules, labels alike", access, filled(forever(long_rule))


def timed(command, file):
    """How long a run took, its memory in MB, and what it wrote."""
    measured = [GNU_TIME, "-f", "%M", "-o", file.with_suffix(".memory")] if GNU_TIME.exists() else []
    with open(file, "rb") as text, tempfile.TemporaryDirectory(dir=ROOM) as folder:
        kept = {**os.environ, "PRIVILEGE_DIR": folder}
        start = time.perf_counter()
        done = subprocess.run([*measured, *command], stdin=text, stdout=subprocess.PIPE, stderr=subprocess.DEVNULL, env=kept, check=True)
        took = time.perf_counter() - start
    memory = int(file.with_suffix(".memory").read_text()) / 1000 if measured else 0
    return took, memory, done.stdout


def main():
    if any(word.startswith("-") for word in sys.argv[1:]):
        sys.exit(__doc__)
    build()
    with tempfile.TemporaryDirectory() as folder:
        peer, file = pathlib.Path(folder) / "peer", pathlib.Path(folder) / "input"
        subprocess.run(["rustc", "--edition", "2021", "-O", "-o", peer, HERE / "peer.rs"], check=True)
        print(f"{'':36}{'program':>10}{'':>9}{'peer':>10}{'':>9}{'lines':>12}")
        for name, words, text in inputs():
            if not all(word in name for word in sys.argv[1:]):
                continue
            print(f"{name:36}", end="", flush=True)
            file.write_bytes(text)
            runs = [(timed([PROGRAM, *words], file), timed([peer, *words], file)) for _ in range(3)]
            assert all(ours[2] == theirs[2] for ours, theirs in runs), name
            ours = [min(ours[column] for ours, _ in runs) for column in (0, 1)]
            theirs = [min(theirs[column] for _, theirs in runs) for column in (0, 1)]
            each = "".join(f"{took:8.2f} s{memory:6.0f} MB" for took, memory in (ours, theirs))
            print(f"{each}{text.count(bytes([10])):12,}", flush=True)


main()
