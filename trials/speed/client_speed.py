#!/usr/bin/env python3
"""client_speed.py [PROGRAM]: measures what a check of `cynara_client` costs over a link in memory.
- A check whose answer is kept, among 100 questions in turn: the least time of one in twenty rounds of 20,000, beside the least time of the
  one poll of the link that it makes, measured alone (at most a microsecond beside the poll is wanted), and how often it asks for memory
  (never is wanted).
- A check whose answer is not kept: how often it asks for memory, beside how often the sending of its frame and the reading of the reply do
  (two times more is wanted, one for the question and one for the verdict).
- What an entry takes: the memory of 4,096 answers that are kept, by the most that two runs held which asked the same, of which one keeps
  one answer.

Requests for memory are counted by `fail_alloc.c`: the difference of two runs, of which one makes more checks of the kind. Takes seconds, and
some minutes for a first build of `cynara_client` and the crates below it, where nothing of them is kept; PROGRAM is `client_hits` where it
is built. Ends with status 1 where one is not as wanted. Needs `rt`, `gcc` and the command `time`."""

import os
import pathlib
import subprocess
import sys
import tempfile

from trial_crate import built

TRIALS = pathlib.Path(__file__).resolve().parents[1]
USES = ["desk_ports", "link_ports", "cynara_keys", "bucket_eval", "wire_messages", "client_connection", "cynara_client", "host_ports", "anyhow"]
MOST_ENTRIES = 4096
ROUNDS = 20
FEW, MANY = 10_000, 50_000


def times(program, what, asked, entries, rounds):
    """The nanoseconds of one call, in each round."""
    words = [program, what, str(asked), str(entries), str(rounds)]
    lines = subprocess.run(words, check=True, stdout=subprocess.PIPE).stdout.decode().splitlines()
    return [int(nanos) / int(count) for count, nanos in map(str.split, lines)]


def requests(program, shim, counted, *words):
    """How often a run asked for memory."""
    kept = {**os.environ, "LD_PRELOAD": str(shim), "FAIL_ALLOC_COUNT": str(counted)}
    subprocess.run([program, *map(str, words)], check=True, stdout=subprocess.DEVNULL, env=kept)
    return int(counted.read_text())


def held(program, entries):
    """The bytes that a run held at most, which asks 4,096 questions and keeps so many answers. It is started by `time`: what Python starts
    is told to have held at least what Python does."""
    words = ["time", "-f", "%M", program, "hits", str(MOST_ENTRIES), str(entries), "0"]
    said = subprocess.run(words, check=True, stdout=subprocess.DEVNULL, stderr=subprocess.PIPE).stderr
    return int(said.split()[-1]) * 1024


def memory(program, scratch):
    """How often a check asks for memory whose answer is kept, one whose answer is not, and a frame alone."""
    shim, counted = scratch / "fail_alloc.so", scratch / "count"
    subprocess.run(["gcc", "-O2", "-shared", "-fPIC", "-o", shim, TRIALS / "lib" / "fail_alloc.c", "-ldl"], check=True)

    def more(few, many, calls):
        return (requests(program, shim, counted, *many) - requests(program, shim, counted, *few)) / calls

    hit = more(("hits", 100, 4096, 1), ("hits", 100, 4096, ROUNDS), (ROUNDS - 1) * 20_000)
    miss = more(("misses", FEW, 50, 0), ("misses", MANY, 50, 0), MANY - FEW)
    frame = more(("frames", FEW, 1, 0), ("frames", MANY, 1, 0), MANY - FEW)
    return hit, miss, frame


def main():
    with tempfile.TemporaryDirectory() as name:
        scratch = pathlib.Path(name)
        program = pathlib.Path(sys.argv[1]).resolve() if sys.argv[1:] else built(scratch, "client_hits", USES)
        hit_times = times(program, "hits", 100, MOST_ENTRIES, ROUNDS)
        poll_times = times(program, "polls", 1, 1, ROUNDS)
        hit, miss, frame = memory(program, scratch)
        sizes = sorted(held(program, MOST_ENTRIES) - held(program, 1) for _ in range(5))
    beside = min(hit_times) - min(poll_times)
    middle = sorted(hit_times)[ROUNDS // 2]
    print(f"a check that the cache answers: {min(hit_times):.0f} ns, {middle:.0f} ns in the middle round, {min(poll_times):.1f} ns of it the poll")
    print(f"requests for memory: {hit:.3f} of such a check, {miss:.3f} of one that it does not answer, {frame:.3f} of these its frame's")
    print(f"an entry: {sizes[2] / MOST_ENTRIES:.0f} bytes")
    is_frugal = hit == 0 and round(miss - frame, 2) <= 2
    sys.exit(beside > 1000 or not is_frugal)


if __name__ == "__main__":
    main()
