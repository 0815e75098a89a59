#!/usr/bin/env python3
"""service_instructions.py [--program PATH] [--peer PATH]: how many instructions of the program a check over a socket takes, 16 frames
at a time and one at a time, and where its program is named how many of the peer's (`PEER serve DIRECTORY WORKERS SCRIPT`). Each is
the difference of two runs under callgrind, over the device of `sample 200` and its 800 questions, with four workers. Unlike times
these figures do not depend on other work. A minute. Needs `valgrind`."""

import argparse
import pathlib
import re
import signal
import socket
import subprocess
import sys
import tempfile
import time

import program
from local_speed import store_of
from sample_model import commands_of, questions_of
from service import Service, check
from service_load import APPLICATIONS, WORKERS, device_of

FEW, MANY = 1600, 17600
PATIENCE = 30


def dialled(path):
    """A connection, once somebody listens."""
    until = time.monotonic() + PATIENCE
    while True:
        link = socket.socket(socket.AF_UNIX)
        try:
            link.connect(str(path))
            return link
        except OSError:
            link.close()
            if time.monotonic() > until:
                sys.exit(f"nobody listens at {path}")
            time.sleep(0.05)


def whole_frames(held):
    """How many whole frames stand in front, and the bytes behind them."""
    count = 0
    while len(held) >= 4 and len(held) >= 4 + int.from_bytes(held[:4], "big"):
        held = held[4 + int.from_bytes(held[:4], "big") :]
        count += 1
    return count, held


def ask(path, frames, depth, count):
    """Asks so many questions, so many at a time, and hears a reply to each."""
    with dialled(path) as link:
        for first in range(0, count, depth):
            link.sendall(b"".join(frames[(first + n) % len(frames)] for n in range(depth)))
            heard, held = 0, b""
            while heard < depth:
                piece = link.recv(65536)
                if not piece:
                    sys.exit(f"{path} is closed")
                more, held = whole_frames(held + piece)
                heard += more


def counted(path):
    """What callgrind says that a run collected."""
    return int(re.findall(r"Collected : (\d+)", path.read_text())[-1])


def under_callgrind(scratch):
    words = ["valgrind", "--tool=callgrind", f"--log-file={scratch}/log", f"--callgrind-out-file={scratch}/out"]
    return [str(word) for word in words]


def of_program(scratch, path, lines, ask_all):
    wrapped = scratch / "wrapped"
    wrapped.write_text(f'#!/bin/sh\nexec {" ".join(under_callgrind(scratch))} {path} "$@"\n')
    wrapped.chmod(0o755)
    service = Service(scratch, wrapped, WORKERS)
    store_of(device_of("".join(line + "\n" for line in lines).encode()), scratch / "store")
    service.start()
    ask_all(scratch / "client.socket")
    if service.stop() != 0:
        sys.exit("the service does not end well")
    return counted(scratch / "log")


def of_peer(scratch, path, lines, ask_all):
    script = scratch / "script"
    script.write_text("".join(line + "\n" for line in lines))
    process = subprocess.Popen([*under_callgrind(scratch), path, "serve", scratch, str(WORKERS), script], stdin=subprocess.DEVNULL)
    ask_all(scratch / "client.socket")
    process.send_signal(signal.SIGTERM)
    process.wait()
    return counted(scratch / "log")


def show(name, run, path):
    lines = commands_of(APPLICATIONS) + questions_of(APPLICATIONS)
    frames = [check(line.encode().split()[1:], place % 65536) for place, line in enumerate(questions_of(APPLICATIONS))]
    for depth in 16, 1:
        taken = []
        for count in FEW, MANY:
            with tempfile.TemporaryDirectory() as scratch:
                taken.append(run(pathlib.Path(scratch), path, lines, lambda at: ask(at, frames, depth, count)))
        print(f"{name}, {depth} at a time: {(taken[1] - taken[0]) / (MANY - FEW):.0f} instructions a check", flush=True)


def main():
    words = argparse.ArgumentParser(description=__doc__, formatter_class=argparse.RawDescriptionHelpFormatter)
    words.add_argument("--program", default=program.PROGRAM)
    words.add_argument("--peer")
    options = words.parse_args()
    show("program", of_program, options.program)
    if options.peer:
        show("peer", of_peer, options.peer)


if __name__ == "__main__":
    main()
