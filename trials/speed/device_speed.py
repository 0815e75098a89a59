#!/usr/bin/env python3
"""device_speed.py PEER [N]: times the script of a device with N applications, 1,000 where none is said: some commands for
each, and then four checks for each. Takes a second, and the time of a first build of `line_script` and the crates below it,
which is many minutes where nothing of them is kept.

The program in `device_script.rt.txt`, which keeps the policy state in memory, and the program PEER, which does the same
work without proofs as `PEER sample N`, run in turn; `PEER script N` writes the script. Prints the best of several runs of
each, and their quotient (at most 3 is wanted). The two must count alike. Needs `rt`."""

import pathlib
import subprocess
import sys
import tempfile
import time

from trial_crate import built

RUNS = 15
MOST = 3


def timed(words, text=b""):
    """The seconds of a run, and its output."""
    start = time.monotonic()
    done = subprocess.run(words, input=text, stdout=subprocess.PIPE, check=True)
    return time.monotonic() - start, done.stdout


def main():
    if len(sys.argv) not in (2, 3):
        sys.exit(__doc__)
    peer, count = sys.argv[1], (sys.argv[2:] or ["1000"])[0]
    _, script = timed([peer, "script", count])
    with tempfile.TemporaryDirectory() as name:
        uses = ["cynara_keys", "bucket_eval", "desk_state", "line_script", "anyhow"]
        program = built(pathlib.Path(name), "device_script", uses)
        own, bare = [], []
        for _ in range(RUNS):
            seconds, counts = timed([program], script)
            own.append(seconds)
            seconds, wanted = timed([peer, "sample", count])
            bare.append(seconds)
            if counts.splitlines() != wanted.splitlines()[1:]:
                sys.exit(f"other counts:\n{counts.decode()}where these were wanted:\n{wanted.decode()}")
    quotient = min(own) / min(bare)
    print(f"{min(own) * 1_000:.1f} ms, the peer's: {min(bare) * 1_000:.1f} ms, quotient {quotient:.2f}")
    sys.exit(quotient > MOST)


if __name__ == "__main__":
    main()
