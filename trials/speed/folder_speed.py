#!/usr/bin/env python3
"""folder_speed.py [FOLDER]: times commits of 14 small files and their list into a real folder, in that folder or else in this
one. Takes a minute, and the time of a first build of `folder_disk`, which is some minutes.

The disk of `folder_disk` and the peer in `folder_peer.rs`, which makes the same system calls without proofs, run in turn on
folders of their own. Prints the middle of several runs each, their quotient (at most 1.15 is wanted), and how many system
calls of each kind a commit makes. Needs `rt`, `rustc` and, for the calls, `strace`."""

import pathlib
import re
import shutil
import statistics
import subprocess
import sys
import tempfile

HERE = pathlib.Path(__file__).resolve().parent
CRATES = HERE.parents[1] / "crates"
RUNS, COMMITS = 9, 20
MOST = 1.15


def built(scratch):
    """The program and the peer, built in a repository of their own."""
    for crate in ("desk_ports", "folder_disk"):
        shutil.copytree(CRATES / crate, scratch / "crates" / crate, symlinks=True)
    source = scratch / "crates" / "folder_commit" / "src"
    source.mkdir(parents=True)
    shutil.copy(HERE / "folder_commit.rt.txt", source / "main.rt")
    lines = ["desk_ports: thiserror", "folder_disk: desk_ports arrayvec sha2", "folder_commit: desk_ports folder_disk anyhow"]
    (scratch / "crates.txt").write_text("\n".join(lines) + "\n")
    first = scratch / "first"
    made = subprocess.run(["rt", "run", "--", str(first), "1"], cwd=source.parent, stdout=subprocess.PIPE, stderr=subprocess.STDOUT)
    program = source.parent / "out" / "folder_commit"
    if not program.exists():
        sys.exit(made.stdout.decode())
    peer = scratch / "peer"
    subprocess.run(["rustc", "-O", "-o", peer, HERE / "folder_peer.rs"], check=True)
    return program, peer


def micros(program, folder, commits=COMMITS):
    return int(subprocess.run([program, folder, str(commits)], check=True, stdout=subprocess.PIPE).stdout)


def calls(program, folder):
    """The system calls of one commit behind another, by kind: those of three commits without those of two, in a folder that a
    commit has filled before."""
    micros(program, folder, 1)
    counts = {}
    for commits, sign in ((3, 1), (2, -1)):
        log = folder.with_suffix(".log")
        subprocess.run(["strace", "-f", "-o", log, program, folder, str(commits)], check=True, stdout=subprocess.DEVNULL)
        for kind in re.findall(r"^\d+ +(\w+)\(", log.read_text(), re.M):
            counts[kind] = counts.get(kind, 0) + sign
    return {kind: count for kind, count in sorted(counts.items()) if count}


def say(text):
    print(text, file=sys.stderr, flush=True)


def main():
    if len(sys.argv) > 2 or not pathlib.Path(*sys.argv[1:]).is_dir():
        sys.exit(__doc__)
    place = pathlib.Path(*sys.argv[1:]).resolve()
    with tempfile.TemporaryDirectory(dir=place) as name:
        scratch = pathlib.Path(name)
        say("building the program and the peer")
        program, peer = built(scratch)
        times = {program: [], peer: []}
        for run in range(RUNS):
            say(f"run {run + 1} of {RUNS}")
            for each in (program, peer):
                times[each].append(micros(each, scratch / f"{each.name}{run}") / COMMITS)
        own, bare = (statistics.median(times[each]) for each in (program, peer))
        print(f"a commit: {own:.0f} us, the peer's: {bare:.0f} us, quotient {own / bare:.3f}")
        if shutil.which("strace"):
            for each in (program, peer):
                print(f"{each.name}: {calls(each, scratch / (each.name + '_calls'))}")
    sys.exit(own / bare > MOST)


main()
