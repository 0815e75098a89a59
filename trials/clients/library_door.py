"""The service's side of a trial of libprivilege, made by hand: a door, one connection at a time, and the driver that asks."""

import contextlib
import os
import pathlib
import select
import socket
import subprocess

from library_build import built_library

HERE = pathlib.Path(__file__).resolve().parent
VALGRIND = ["valgrind", "-q", "--error-exitcode=9", "--leak-check=full", "--show-leak-kinds=all"]
# The driver is waited for so long, in seconds.
PATIENCE = 60


class Wrong(Exception):
    """Something is not as the model has it."""


def driver_of(scratch, options, source):
    """The words that start a driver, which is linked with the library, with its own calls before those of the machine."""
    flags = ["-O1", "-g"] + ([] if options.valgrind else ["-fsanitize=address,undefined", "-fno-sanitize-recover=all"])
    library = built_library(scratch, options.core, flags)
    wrapped = [f"-Wl,--wrap={call}" for call in ("recv", "send", "poll", "connect")]
    words = ["gcc", "-std=c11", *flags, "-Wall", "-Wextra", "-Werror", "-I", library / "include", HERE / source, HERE / "library_calls.c"]
    subprocess.run([*words, *wrapped, library / "lib" / "libprivilege.a", "-o", scratch / "driver"], check=True)
    return [*(VALGRIND if options.valgrind else ()), scratch / "driver"]


class Door:
    """A door at this socket, and a driver by these words."""

    def __init__(self, path, words, draw, counts):
        self.path, self.draw = str(path), draw
        self.door = self.link = None
        self.counts = dict.fromkeys(("calls", "frames", "dials", "ends", *counts), 0)
        self.open_door()
        self.driver = subprocess.Popen(words, stdin=subprocess.PIPE, stdout=subprocess.PIPE)

    def open_door(self):
        self.door = socket.socket(socket.AF_UNIX)
        self.door.bind(self.path)
        self.door.listen()

    def close_door(self):
        self.door.close()
        self.door = None
        os.unlink(self.path)

    def hang_up(self):
        if self.link:
            self.link.close()
            self.counts["ends"] += 1
        self.link = None

    # ---- what comes

    def wait_for(self, what):
        """Waits for a connection, a frame or the driver's word, which has to come next."""
        ready, _, _ = select.select([self.driver.stdout, *filter(None, (self.door, self.link))], [], [], PATIENCE)
        if not ready:
            raise Wrong("nothing happens")
        found = "dial" if self.door in ready else "frame" if self.link in ready else "line"
        if found != what:
            said = self.driver.stdout.readline() if found == "line" else b""
            raise Wrong(f"a {found} {said} came, and a {what} was wanted")

    def accept(self):
        self.wait_for("dial")
        self.link, _ = self.door.accept()
        self.link.settimeout(PATIENCE)
        self.counts["dials"] += 1

    def take(self, wanted):
        """Takes the frame that is wanted, and gives its sequence number, which is not looked at."""
        found = b""
        while len(found) < len(wanted):
            self.wait_for("frame")
            found += (piece := self.link.recv(len(wanted) - len(found)))
            if not piece:
                raise Wrong("the client ended the connection")
        if found[:4] + found[6:] != wanted[:4] + wanted[6:]:
            raise Wrong(f"the frame {found.hex()}, and {wanted.hex()} is wanted")
        self.counts["frames"] += 1
        return int.from_bytes(found[4:6], "big")

    def give(self, data):
        """Sends it whole or in pieces. The client may drop the connection within a wrong reply."""
        at = 0
        with contextlib.suppress(BrokenPipeError, ConnectionResetError):
            while at < len(data):
                size = len(data) if self.draw.random() < 0.6 else self.draw.randint(1, 9)
                self.link.sendall(data[at : at + size])
                at += size

    def closed_by_client(self):
        """The client ends the connection, and nothing else; with a reset where it has left bytes unread."""
        with contextlib.suppress(ConnectionResetError):
            if self.link and self.link.recv(1) != b"":
                raise Wrong("the client goes on with a connection that it has to drop")
        self.hang_up()

    # ---- the driver

    def say(self, line):
        self.counts["calls"] += 1
        self.driver.stdin.write(f"{line}\n".encode())
        self.driver.stdin.flush()

    def hear(self, wanted):
        found = self.driver.stdout.readline().decode().strip()
        if found != wanted:
            raise Wrong(f"{found!r}, and {wanted!r} is wanted")

    def end(self):
        self.driver.stdin.close()
        if self.driver.wait(PATIENCE):
            raise Wrong(f"the driver ends with {self.driver.returncode}")


def run_all(options, scratch, made, calls):
    """Runs so many schedules, each made of a folder and a seed, and tells what they counted together. None may be otherwise."""
    totals = {}
    for at in range(options.count):
        folder = scratch / str(at)
        folder.mkdir()
        schedule = made(folder, f"{options.seed} {at}")
        try:
            schedule.run(calls)
        except (Wrong, OSError) as why:
            schedule.driver.kill()
            return f"schedule {at} of seed {options.seed}, call {schedule.counts['calls']}: {why!r}"
        for what, count in schedule.counts.items():
            totals[what] = totals.get(what, 0) + count
    print(f"{options.count} schedules, none otherwise:", ", ".join(f"{count} {what}" for what, count in totals.items()))
    return None


def words_of(argument_parser):
    argument_parser.add_argument("--count", type=int, default=200)
    argument_parser.add_argument("--seed", type=int, default=1)
    argument_parser.add_argument("--valgrind", action="store_true")
    argument_parser.add_argument("--core", type=pathlib.Path)
    return argument_parser.parse_args()
