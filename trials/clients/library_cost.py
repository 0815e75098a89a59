#!/usr/bin/env python3
"""library_cost.py [--rounds N] [--hits N] [--misses N] [--core FILE]: what libprivilege costs, beside clients that make the same calls of
the machine, all in turn in one process, over an echo of equal frames (`service_load.c`):
- a check whose answer is kept, beside one by a client written by hand: at most 1.2 of its time is wanted;
- a check whose answer is not kept, beside the round trip of a bare client: at most 1.05 of its time is wanted.
Prints the middle of the rounds, and with valgrind the instructions of one call, where time is noisy. Ends with status 1 where one is not as
wanted. Needs gcc, and libclient_c.a, which `rt lib` makes in crates/client_c. Linux alone."""

import argparse
import pathlib
import re
import statistics
import struct
import subprocess
import sys
import tempfile
import time

import program
from library_build import TOP, built_library
from service import JUDGED, frame, text, texts

HERE = pathlib.Path(__file__).resolve().parent
NAMES = "library_hits", "hand_hits", "library_misses", "bare_trips"


def echo_at(scratch, path):
    """An echo that answers each frame with an allow of the policies."""
    subprocess.run(["gcc", "-O2", "-pthread", TOP / "trials" / "service" / "service_load.c", "-o", scratch / "load"], check=True)
    key = [b"User::Pkg::org.tizen.example1", b"*", b"http://tizen.org/privilege/camera"]
    fields = struct.pack(">QH", 7, 0xFFFF) + text(b"") + text(b"MANIFESTS") + b"\1" + texts(key)
    (scratch / "reply").write_bytes(frame(1, JUDGED, fields))
    process = subprocess.Popen([scratch / "load", "echo", path, "4", scratch / "reply"])
    while not path.exists():
        time.sleep(0.01)
    return process


def instructions(cost, path, name):
    """The instructions of one call: the difference of two runs by what one calls more."""
    counts = []
    for count in 1000, 11000:
        words = ["valgrind", "--tool=callgrind", "--callgrind-out-file=/dev/null", cost, path, "1", str(count), str(count), name]
        said = subprocess.run(words, check=True, stdout=subprocess.DEVNULL, stderr=subprocess.PIPE).stderr.decode()
        counts.append(int(re.search(r"Collected : (\d+)", said)[1]))
    return (counts[1] - counts[0]) / 10000


def main():
    words = argparse.ArgumentParser(description=__doc__, formatter_class=argparse.RawDescriptionHelpFormatter)
    words.add_argument("--rounds", type=int, default=21)
    words.add_argument("--hits", type=int, default=500_000)
    words.add_argument("--misses", type=int, default=20_000)
    words.add_argument("--core", type=pathlib.Path)
    options = words.parse_args()
    with tempfile.TemporaryDirectory(dir=program.ROOM) as name:
        scratch = pathlib.Path(name)
        library = built_library(scratch, options.core)
        build = ["gcc", "-std=c11", "-O2", "-Wall", "-Wextra", "-Werror", "-I", library / "include", HERE / "library_cost.c"]
        subprocess.run([*build, library / "lib" / "libprivilege.a", "-o", scratch / "cost"], check=True)
        path = scratch / "client.socket"
        echo = echo_at(scratch, path)
        try:
            command = [scratch / "cost", path, str(options.rounds), str(options.hits), str(options.misses)]
            said = subprocess.run(command, check=True, stdout=subprocess.PIPE).stdout.decode()
            counted = {name: instructions(scratch / "cost", path, name) for name in NAMES}
        finally:
            echo.kill()
    rows = [tuple(map(float, row.split())) for row in said.splitlines()]
    hit, hand, miss, bare = (statistics.median(column) for column in zip(*rows))
    kept = statistics.median(row[0] / row[1] for row in rows)
    asked = statistics.median(row[2] / row[3] for row in rows)
    least = [min(column) for column in zip(*rows)]
    count = options.rounds * options.hits
    print(f"{count} kept answers: {hit:.0f} ns, by hand {hand:.0f} ns, {kept:.2f}; least {least[0]:.0f} and {least[1]:.0f}")
    least = [nanoseconds / 1000 for nanoseconds in least]
    print(f"a miss: {miss / 1000:.2f} us, a bare round trip {bare / 1000:.2f} us, {asked:.3f}; least {least[2]:.2f} and {least[3]:.2f}")
    print("instructions of one call:", ", ".join(f"{name} {count:.0f}" for name, count in counted.items()))
    sys.exit(kept > 1.2 or asked > 1.05)


if __name__ == "__main__":
    main()
