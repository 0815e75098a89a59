"""The time of `privctl may` beside that of `privilege check`, on a service with a device of 200 packages. may_speed [ROUNDS]

Both are run in turn, each in a process of its own; the least and the median of the rounds are told. PROGRAM and PRIVCTL name other
programs."""

import os
import pathlib
import statistics
import subprocess
import sys
import tempfile
import time

import program

PROGRAM = pathlib.Path(os.environ.get("PROGRAM", program.PROGRAM)).resolve()
PRIVCTL = pathlib.Path(os.environ.get("PRIVCTL", program.TOP / "crates/privctl/out/privctl")).resolve()
QUESTION = ["User::Pkg::org.p7", "5001", "p:1"]


def device():
    yield b"layout"
    yield b"user 5001 normal"
    for at in range(200):
        yield b"install org.p%d - org.p%d * p:1 p:2 p:3" % (at, at)


def seconds(words, around):
    start = time.perf_counter()
    done = subprocess.run(words, env=around, stdout=subprocess.DEVNULL, check=False)
    taken = time.perf_counter() - start
    if done.returncode:
        sys.exit(f"{words} ended with {done.returncode}")
    return taken


def main():
    rounds = int(sys.argv[1]) if len(sys.argv) > 1 else 500
    with tempfile.TemporaryDirectory(dir=program.ROOM) as folder:
        room = pathlib.Path(folder)
        around = {**os.environ, "PRIVILEGE_DIR": str(room)}
        service = subprocess.Popen([PROGRAM, "serve", "4"], env=around, stderr=subprocess.DEVNULL)
        while not (room / "admin.socket").exists():
            time.sleep(0.01)
        subprocess.run([PROGRAM, "admin"], input=b"".join(line + b"\n" for line in device()), capture_output=True, env=around, check=True)
        check = [PROGRAM, "check", QUESTION[0], "session", *QUESTION[1:]]
        ways = {"check": check, "may": [PRIVCTL, "may", *QUESTION], "may -q": [PRIVCTL, "may", "-q", *QUESTION]}
        taken = {way: [] for way in ways}
        for _ in range(rounds):
            for way, words in ways.items():
                taken[way].append(seconds(words, around))
        subprocess.run([PROGRAM, "admin"], input=b"stop\n", capture_output=True, env=around, check=False)
        service.wait(timeout=30)
    for way, times in taken.items():
        least, middle = min(times) * 1000, statistics.median(times) * 1000
        print(f"{way}: least {least:.2f} ms, median {middle:.2f} ms, {statistics.median(times) / statistics.median(taken['check']):.2f} of check")


main()
