#!/usr/bin/env python3
"""set_speed.py: times how `set_text` reads and writes the files of a policy state with 65,536 policies and 8,192
installs. Takes half a minute, and the time of a build: some minutes, and more where the crates aren't built yet.

The crate and the peer in `set_peer.rs`, which does the same without proofs, run in turn on the same set and time
themselves. Prints the best of several runs of each, in milliseconds, and their quotient (at most 3 is wanted). Needs
`rt` and `rustc`."""

import pathlib
import subprocess
import sys
import tempfile

from device_model import LIMITS, Device, Install
from script_model import ALLOW, BUCKET
from set_model import MAIN, MANIFESTS, files_of, main_of, manifests_of
from set_program import answers, built

HERE = pathlib.Path(__file__).resolve().parent
RUNS, TIMES = 5, 3
MOST = 3


def full_device():
    """64 users, 1,024 packages of 8 applications with 4 privileges each, and buckets that share the other policies."""
    device = Device()
    device.do_layout()
    device.commit = 123_456
    device.users = {uid: (b"admin", b"normal", b"guest")[uid % 3] for uid in range(5_000, 5_000 + LIMITS["users"])}
    for number in range(LIMITS["installs"]):
        package, author = b"org.tizen.package%d" % (number // 8), b"author%d" % (number // 80)
        scope = b"*" if number % 4 else 5_000 + number % LIMITS["users"]
        privileges = {b"http://tizen.org/privilege/p%d" % (number % 8 * 4 + more) for more in range(4)}
        device.installs[b"org.tizen.app%d" % number, scope] = Install(package, author, privileges)
    device.policies[MAIN], device.policies[MANIFESTS] = main_of(device), manifests_of(device)
    own = [b"bucket%03d" % number for number in range(LIMITS["buckets"] - len(device.policies))]
    for name, following in zip(own, [*own[1:], b"ADMIN"]):
        device.fallbacks[name] = ALLOW, b""
        device.policies[name] = {(b"*", b"*", b"http://tizen.org/privilege/p0"): (BUCKET, following)}
    for number in range(LIMITS["policies"] - device.count()):
        client, user = b"User::Pkg::org.tizen.package%d" % (number % 1_024), b"%d" % (5_000 + number % 64)
        key = client, user, b"http://tizen.org/privilege/q%d" % number
        device.policies[own[number % len(own)]][key] = (ALLOW, b"") if number % 2 else (10, b"ask")
    return device


def say(text):
    print(text, file=sys.stderr, flush=True)


def timed(program, files):
    """The milliseconds that the program takes to read the set, and to write it again."""
    is_same, times = answers(program, [files], [str(TIMES)])
    if is_same != b"desk same":
        sys.exit(f"{program.name}: {is_same.decode()}")
    _, reading, _, writing = times.split()
    return int(reading) / 1_000, int(writing) / 1_000


def main():
    if len(sys.argv) > 1:
        sys.exit(__doc__)
    files = files_of(full_device())
    texts = b"".join(files.values())
    print(f"{len(files):,} files, {len(texts):,} bytes, {texts.count(10):,} lines")
    with tempfile.TemporaryDirectory() as folder:
        say("building the program and the peer")
        program, peer = built(pathlib.Path(folder)), pathlib.Path(folder) / "set_peer"
        subprocess.run(["rustc", "--edition", "2021", "-O", "-o", peer, HERE / "set_peer.rs"], check=True)
        times = {program: [], peer: []}
        for run in range(RUNS):
            say(f"run {run + 1} of {RUNS}")
            for each in (program, peer):
                times[each].append(timed(each, files))
    best = [[min(column) for column in zip(*times[each])] for each in (program, peer)]
    for name, own, bare in zip(("read", "written"), *best):
        print(f"{name}: {own:.1f} ms, by the peer {bare:.1f} ms, quotient {own / bare:.2f}")
    own, bare = map(sum, best)
    print(f"both: {own:.1f} ms, by the peer {bare:.1f} ms, quotient {own / bare:.2f}")
    sys.exit(own / bare > MOST)


if __name__ == "__main__":
    main()
