#!/usr/bin/env python3
"""frame_speed.py [WORD..]: times the reading and spelling of frames. Takes half a minute, and the time of a first build
of `wire_messages` and the crates below it, which is many minutes where nothing of them is kept. Words, as `checks`,
choose the inputs whose names have them all: `trials/try frame_speed verdicts read`.

The program in `frame_codec.rt.txt`, over `wire_messages`, and the peer in `frame_peer.rs`, the same work in Rust
without proofs, run in turn on the same bytes, which are made here from the table in docs/use/PROTOCOL.md. Prints the best of
several runs each as frames a second, and the program's over the peer's. What is spelled are a few messages, again and
again: a service spells what it has just made, and messages that fill more than the caches would time the memory. Both keep
what they free (`KEPT`): whether glibc gives the memory of a long frame back to the system before the next one hangs on a few
percent of its size, and then the system has a third of the time. Ends with status 1 where a quotient is below 0.9, which is
wanted. Needs `rt` and `rustc`."""

import os
import pathlib
import shutil
import struct
import subprocess
import sys
import tempfile

HERE = pathlib.Path(__file__).resolve().parent
ROOT = HERE.parents[1]
RUNS = 9
LEAST = 0.9
KEPT = {**os.environ, "GLIBC_TUNABLES": "glibc.malloc.trim_threshold=67108864:glibc.malloc.mmap_threshold=33554432"}
CLIENT, USER, PRIVILEGE = b"User::Pkg::org.tizen.browser", b"5001", b"http://tizen.org/privilege/internet"


def text(of):
    return struct.pack(">H", len(of)) + of


def frame(number, fields):
    return struct.pack(">IHB", len(fields) + 3, 1, number) + fields


def inputs():
    """Name, side, bytes, what is asked of them, and how often."""
    short = b"".join(map(text, (b"c", b"u", b"p")))
    names = b"".join(map(text, (CLIENT, USER, PRIVILEGE)))
    check = frame(0x01, names)
    verdict = frame(0x81, struct.pack(">QH", 2, 0) + text(b"") + text(b"MANIFESTS") + b"\1" + names)
    change = b"\1" + text(b"") + b"".join(map(text, (b"c00001", b"u", b"p"))) + struct.pack(">H", 65535) + text(b"")
    count = (1_048_576 - 7) // len(change)
    policies = frame(0x12, struct.pack(">I", count) + count * change)
    yield "checks of short names, read", "client", 100_000 * frame(0x01, short), "read", 10
    yield "checks of longer names, read", "client", 50_000 * check, "read", 10
    yield "checks of longer names, spelled", "client", 500 * check, "spell", 2_000
    yield "verdicts, spelled", "replies", 500 * verdict, "spell", 2_000
    yield "verdicts, read", "replies", 50_000 * verdict, "read", 10
    yield "changes of policies, a mebibyte, read", "admin", policies, "read", 20
    yield "changes of policies, a mebibyte, read byte by byte", "admin", policies, "bytes", 20
    yield "changes of policies, a mebibyte, spelled", "admin", policies, "spell", 40


def below(crate):
    """The crates of the repository that a crate stands on, lowest first, with their lines of crates.txt."""
    rows = [line.split(":", 1) for line in (ROOT / "crates.txt").read_text().splitlines() if line and line[0] != "#"]
    lines = {name: uses.split() for name, uses in rows}
    found = {}

    def add(name):
        if name in lines and name not in found:
            for use in lines[name]:
                add(use)
            found[name] = f"{name}: {' '.join(lines[name])}"

    add(crate)
    return found


def built(scratch):
    """The program and the peer, built in a repository of their own."""
    crates = below("wire_messages")
    for crate in crates:
        shutil.copytree(ROOT / "crates" / crate, scratch / "crates" / crate, symlinks=True)
    source = scratch / "crates" / "frame_codec" / "src"
    source.mkdir(parents=True)
    shutil.copy(HERE / "frame_codec.rt.txt", source / "main.rt")
    lines = [*crates.values(), "frame_codec: desk_ports wire_messages anyhow"]
    (scratch / "crates.txt").write_text("\n".join(lines) + "\n")
    words = ["rt", "run", "--", "read", "client", "1"]
    kept = {"stdin": subprocess.DEVNULL, "stdout": subprocess.PIPE, "stderr": subprocess.STDOUT}
    made = subprocess.run(words, cwd=source.parent, **kept)
    program = source.parent / "out" / "frame_codec"
    if not program.exists():
        sys.exit(made.stdout.decode())
    peer = scratch / "peer"
    subprocess.run(["rustc", "-O", "-o", peer, HERE / "frame_peer.rs"], check=True)
    return program, peer


def rate(program, side, data, what, times):
    """How many frames there were, and how many a second."""
    done = subprocess.run([program, what, side, str(times)], input=data, check=True, stdout=subprocess.PIPE, env=KEPT)
    count, nanos = map(int, done.stdout.split())
    return count, count / nanos * 1e9


def main():
    slow = False
    with tempfile.TemporaryDirectory() as name:
        print("building the program and the peer", file=sys.stderr, flush=True)
        program, peer = built(pathlib.Path(name))
        for title, side, data, what, times in inputs():
            if not all(word in title for word in sys.argv[1:]):
                continue
            rates = {program: [], peer: []}
            for _ in range(RUNS):
                counts = set()
                for each in (program, peer):
                    count, a_second = rate(each, side, data, what, times)
                    counts.add(count)
                    rates[each].append(a_second)
                assert len(counts) == 1, counts
            own, bare = (max(rates[each]) for each in (program, peer))
            slow = slow or own / bare < LEAST
            print(f"{title}: {own:,.0f} a second, the peer {bare:,.0f}, quotient {own / bare:.2f}", flush=True)
    sys.exit(slow)


main()
