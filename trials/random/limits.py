#!/usr/bin/env python3
"""limits.py: compares the program with the models on scripts and rule texts about the limits of lines, texts and counts, and
about the pieces in which the program reads. Takes some five minutes. Ends with status 1 at the first that they answer
differently."""

import itertools
import sys

import models
from program import Progress, build, compare

PIECE = 262_144
CHECK = b"check c u p\n"
RULE = b"A X w\n"
MOST = models.LIMITS


def line_scripts():
    # Lines about their limit, and about one piece.
    for limit in (models.MOST_IN_LINE, PIECE):
        for length in range(limit - 1, limit + 3):
            for end in (b"", b"\n", b"\n" + CHECK):
                yield CHECK + b"a" * length + end
                yield CHECK + b"#" * length + end
    # A line that the end of a piece cuts at each of its places.
    for length in range(1, 30):
        yield CHECK * (PIECE // len(CHECK)) + b"set . " + b"c" * length + b" u p allow\n" + CHECK


def long_scripts():
    # Scripts about their limit: the last line whole, cut, longer, followed by others, or wrong.
    count, rest = divmod(models.MOST_BYTES, len(CHECK))
    last = b"check " + b"c" * (rest + len(CHECK) - 10) + b" u p"
    full = CHECK * (count - 1) + last
    assert len(full) == models.MOST_BYTES
    yield from (full, full[:-1], full + b"\n", full + b"x", full + b"\n" + CHECK, full[:-4] + b"\nab\n", CHECK * (count + 1))
    # A block that the limit cuts.
    yield b"batch\n" + b"\n" * (models.MOST_BYTES - 6)
    yield b"batch\n" + b"\n" * (models.MOST_BYTES - 10) + b"end\n"
    yield b"batch\n" + b"\n" * (models.MOST_BYTES - 9) + b"end\n"


def full_scripts():
    def sets(count):
        return b"".join(b"set . c%d u p allow\n" % number for number in range(count))

    most = MOST["policies"]
    more = b"set . c u p deny\nset . c1 u p deny\nunset . c2 u p\nset . c u p deny\ncheck c u p\n"
    more += b"bucket B deny\nset B c u p deny\nlayout\n"
    # As commands of their own so many sets would take minutes, since each copies the list that it changes.
    yield b"batch\n" + sets(most) + b"end\n" + more
    yield b"batch\n" + sets(most + 1) + b"end\nstatus\n"
    yield b"batch\n" + sets(most + 1) + b"unset . c3 u p\nend\nstatus\n" + more
    # Grants: five applications of one package have the same privileges, so that there are fewer policies than grants.
    letters = b"abcdefghijklmnopqrstuvwxyz"
    names = b" ".join(map(bytes, itertools.islice(itertools.product(letters, repeat=3), most // 5)))
    installs = [b"install pk - a%d * %s\n" % (number, names) for number in range(5)]
    yield b"layout\n" + b"".join(installs) + b"install pk - a * p q\ninstall pk - a * p\nremove a *\n"
    # Here the packages differ, and there are more policies than grants.
    installs = [b"install pk%d - a%d * %s\n" % (number, number, names) for number in range(5)]
    yield b"layout\n" + b"".join(installs) + b"check User::Pkg::pk3 u aaa\ncheck User::Pkg::pk4 u aaa\n"
    # Installs: 64 users with 128 applications each.
    lines = [b"user %d guest\n" % uid for uid in range(64)]
    lines += [b"install pk%d - a%d %d p\n" % (app, app, uid) for uid in range(64) for app in range(128)]
    yield b"layout\n" + b"".join(lines) + b"install pk0 - b * p\nremove a0 0\ninstall pk0 - b * p\ncheck User::Pkg::pk0 0 p\n"


def rule_texts():
    for size in (models.MOST_BYTES + more for more in (-1, 0, 1, 2, 100_000)):
        room = size - len(RULE)
        yield RULE + b" " * room
        yield RULE + b"\n" * room
        yield RULE + b" " * (room - 1) + b"\n"
        yield RULE + b"no rule\n" + b" " * (room - 8)
        yield RULE + b" " * (room - 20) + b"\nB" + b"x" * 18


def cases():
    for scripts in (line_scripts, long_scripts, full_scripts):
        yield from (([b"local"], script) for script in scripts())
    yield from (([b"smack-access", b"A", b"X", b"w"], text) for text in rule_texts())


def main():
    if sys.argv[1:]:
        sys.exit(__doc__)
    build()
    count = sum(1 for _ in cases())
    progress = Progress(count)
    for words, text in cases():
        compare(words, text)
        progress.step()
    print(f"{count} scripts and rule texts, answered alike")


main()
