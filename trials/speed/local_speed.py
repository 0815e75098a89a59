#!/usr/bin/env python3
"""local_speed.py [FOLDER]: times `local` over a real folder, made in that folder or else in this one. Takes some minutes, most of
them in a slow disk's syncs.

Commits: `local` on a script of accepted commands over a device of 14 small files and their list, and the peer in
`folder_peer.rs`, which makes such system calls without proofs, in turn on folders of their own. Prints the middle of several
runs of each, and their quotient (at most 1.2 is wanted). Then, over devices of 200 and of 1,000 packages, the time of one `set`, the
calls of one that make something durable (at most 12 are wanted), and its system calls for each file of the set (at most five),
beside the time in which SQLite commits one row; and the time of 200 installs, a command each (at most 10 seconds). Then the time of a mount of the largest device, 65,536 policies
and 8,192 installs in some 1,300 files, of `smack-load` on it, and the program's memory. Needs `rustc`, `strace` and what builds
the program."""

import collections
import os
import pathlib
import re
import resource
import sqlite3
import statistics
import subprocess
import sys
import tempfile
import time

import models
import program
from device_model import Device
from set_model import files_of
from set_speed import full_device

HERE = pathlib.Path(__file__).resolve().parent
RUNS, COMMITS = 7, 20
MOST = 1.2
DEVICE = b"layout\ninstall pk - a1 * p\n"


def run(folder, words, text):
    """The seconds of a run of the program over the folder `store` in this one, and its output."""
    folder.mkdir(exist_ok=True)
    kept = {**os.environ, "PRIVILEGE_DIR": str(folder)}
    start = time.monotonic()
    done = subprocess.run([program.PROGRAM, *words], input=text, stdout=subprocess.PIPE, env=kept, check=True)
    return time.monotonic() - start, done.stdout


def commit_time(folder):
    """The microseconds of a commit, without the mount."""
    run(folder, ["local"], DEVICE)
    lines = b"".join(b"set . c u p %s\n" % (b"allow", b"deny")[number % 2] for number in range(COMMITS))
    empty, _ = run(folder, ["local"], b"")
    full, answers = run(folder, ["local"], lines)
    if answers.count(b"ok ") != COMMITS:
        sys.exit(f"not each command was accepted: {answers.decode()}")
    return (full - empty) * 1_000_000 / COMMITS


def peer_time(peer, folder):
    return int(subprocess.run([peer, folder, str(COMMITS)], check=True, stdout=subprocess.PIPE).stdout) / COMMITS


def install(number):
    return b"install pkg%d - app%d * p%d q%d\n" % (number, number, number % 7, number % 5)


def sets(count):
    return b"".join(b"set ADMIN c u p %s\n" % (b"allow", b"deny")[number % 2] for number in range(count))


def store_of(device, store):
    """The files of a device, as a store at rest has them. Their count and their length."""
    return write_files(files_of(device), store)


def device_of(packages):
    device = Device()
    for _ in models.answers(b"layout\n" + b"".join(map(install, range(packages))), device):
        pass
    return device


def calls_of_sets(folder, count):
    """How many system calls of each kind a run with so many commands makes."""
    log = folder / "log"
    kept = {**os.environ, "PRIVILEGE_DIR": str(folder)}
    subprocess.run(["strace", "-o", log, program.PROGRAM, "local"], input=sets(count), stdout=subprocess.DEVNULL, env=kept, check=True)
    return collections.Counter(re.findall(r"^(\w+)\(", log.read_text(), re.M))


def of_one_set(folder, packages):
    """The milliseconds, the durable calls, and the system calls a file of one `set` at so many packages."""
    count, _ = store_of(device_of(packages), folder / "store")
    calls = calls_of_sets(folder, 4)
    calls.subtract(calls_of_sets(folder, 2))
    empty = statistics.median(run(folder, ["local"], b"")[0] for _ in range(3))
    full, _ = run(folder, ["local"], sets(COMMITS))
    durable = calls["fsync"] + calls["fdatasync"] + calls["syncfs"]
    return (full - empty) * 1_000 / COMMITS, durable / 2, sum(calls.values()) / 2 / count


def sqlite_time(folder):
    """The milliseconds in which SQLite commits one row."""
    folder.mkdir()
    base = sqlite3.connect(folder / "base", isolation_level=None)
    base.execute("create table policies (client, user, privilege, result)")
    start = time.monotonic()
    for number in range(COMMITS):
        base.execute("insert into policies values ('c', 'u', 'p', ?)", (number,))
    return (time.monotonic() - start) * 1_000 / COMMITS


def write_largest(store):
    """The files of the largest device, as a store at rest has them."""
    return store_of(full_device(), store)


def write_files(files, store):
    store.mkdir(parents=True)
    for name, text in files.items():
        (store / os.fsdecode(name)).write_bytes(text)
    (store / "list").write_bytes(b"version 2\n" + b"".join(b"%s\n" % name for name in sorted(files)))
    return len(files), sum(map(len, files.values()))


def say(text):
    print(text, file=sys.stderr, flush=True)


def main():
    if len(sys.argv) > 2 or not pathlib.Path(*sys.argv[1:]).is_dir():
        sys.exit(__doc__)
    program.build()
    with tempfile.TemporaryDirectory(dir=pathlib.Path(*sys.argv[1:]).resolve()) as name:
        scratch = pathlib.Path(name)
        peer = scratch / "peer"
        subprocess.run(["rustc", "-O", "-o", peer, HERE / "folder_peer.rs"], check=True)
        own, bare, is_slow = [], [], False
        for number in range(RUNS):
            say(f"run {number + 1} of {RUNS}")
            own.append(commit_time(scratch / f"own{number}"))
            bare.append(peer_time(peer, scratch / f"peer{number}"))
        quotient = statistics.median(own) / statistics.median(bare)
        print(f"a commit: {statistics.median(own):.0f} us, the peer's: {statistics.median(bare):.0f} us, quotient {quotient:.3f}")
        for packages in (200, 1_000):
            say(f"{packages} packages")
            folder = scratch / f"packages{packages}"
            folder.mkdir()
            took, durable, calls = of_one_set(folder, packages)
            print(f"a set at {packages:,} packages: {took:.1f} ms, {durable:.0f} durable calls, {calls:.2f} system calls a file of the set")
            is_slow |= durable > 12 or calls > 5
        print(f"a row of SQLite: {sqlite_time(scratch / 'sqlite'):.1f} ms")
        took, answers = run(scratch / "installs", ["local"], b"layout\n" + b"".join(map(install, range(200))))
        print(f"200 installs, a command each: {took:.1f} s, {answers.count(b'ok ')} accepted commands")
        is_slow |= took > 10
        say("the largest device")
        count, size = write_largest(scratch / "largest" / "store")
        first, _ = run(scratch / "largest", ["local"], b"status\n")
        again, answer = run(scratch / "largest", ["local"], b"status\n")
        loads, rules = run(scratch / "largest", ["smack-load"], b"")
        memory = resource.getrusage(resource.RUSAGE_CHILDREN).ru_maxrss // 1024
        print(f"{count:,} files, {size:,} bytes, {answer.decode().strip()}: mounted in {first:.2f} s, again in {again:.2f} s")
        print(f"smack-load: {rules.count(10):,} rules in {loads:.2f} s; at most {memory} MB of any of these")
    sys.exit(is_slow or quotient > MOST)


if __name__ == "__main__":
    main()
