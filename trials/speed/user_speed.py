#!/usr/bin/env python3
"""user_speed.py: times 64 `user` commands over a policy state in memory that has 1,024 buckets. Takes half a minute, and the time
of a first build of `line_script` and the crates below it, which is many minutes where nothing of them is kept.

The program in `device_script.rt.txt` runs a script that makes the buckets, each with 16 policies that point to the 16 buckets
behind it, and the same script with the 64 commands, in turn; of the processor's time the best of several runs each is taken, and
their difference. Each command puts a policy that points to the bucket of a type of user, which leads to all of those buckets or
to none. At most 50 milliseconds are wanted. Needs `rt`."""

import pathlib
import resource
import subprocess
import sys
import tempfile

from trial_crate import built

RUNS, MOST = 15, 0.050
BUCKETS, POINTING = 1_024, 16
NAMES = [b"b%04d" % number for number in range(BUCKETS - 8)]


def pointing(name, targets):
    return [b"set %s c%02d * * bucket:%s" % (name, at, target) for at, target in enumerate(targets)]


def state(leads):
    lines = [b"layout", *(b"bucket %s deny" % name for name in NAMES), b"batch"]
    for at, name in enumerate(NAMES):
        lines += pointing(name, NAMES[at + 1:at + 1 + POINTING])
    if leads:
        lines += pointing(b"USER_TYPE_NORMAL", NAMES[:POINTING])
    return [*lines, b"end"]


def used():
    """The processor seconds of the runs so far."""
    of = resource.getrusage(resource.RUSAGE_CHILDREN)
    return of.ru_utime + of.ru_stime


def timed(program, lines):
    """The processor seconds of a run, and how many commands it accepts."""
    text = b"\n".join(lines) + b"\n"
    before = used()
    said = subprocess.run([program], input=text, stdout=subprocess.PIPE, check=True).stdout
    return used() - before, int(said.split()[1])


def main():
    if len(sys.argv) != 1:
        sys.exit(__doc__)
    users, is_slow = [b"user %d normal" % (5_001 + number) for number in range(64)], False
    with tempfile.TemporaryDirectory() as name:
        uses = ["cynara_keys", "bucket_eval", "desk_state", "line_script", "anyhow"]
        program = built(pathlib.Path(name), "device_script", uses)
        for leads, words in ((True, "all buckets"), (False, "few buckets")):
            lines = state(leads)
            runs = [(timed(program, lines), timed(program, lines + users)) for _ in range(RUNS)]
            if any(longer[1] - shorter[1] != len(users) for shorter, longer in runs):
                sys.exit("not each command was accepted")
            before, behind = (min(run[which][0] for run in runs) for which in (0, 1))
            print(f"64 users, where the new policy leads to {words}: {(behind - before) * 1_000:.1f} ms, behind {before * 1_000:.0f} ms of the state")
            is_slow |= behind - before > MOST
    sys.exit(is_slow)


if __name__ == "__main__":
    main()
