"""privctl ends in the time that it is given, whatever the service does. in_time

Services of our own: one whose line of connections is full; one that takes a connection and never answers; one that sends a byte at a time,
each sooner than the time is over; one that does so in each of the calls that an order makes; and one that reads nothing. Each order ends with
3, not before its time and not much behind it. PRIVCTL names another program."""

import contextlib
import os
import pathlib
import socket
import subprocess
import sys
import tempfile
import threading
import time

import program

PRIVCTL = pathlib.Path(os.environ.get("PRIVCTL", program.TOP / "crates/privctl/out/privctl")).resolve()
SECONDS, LATE = 2, 1.0
ORDERS = (["may", "c", "u", "p"], ["users"], ["status"], ["explain", "c", "u", "p"], ["level", "get", "5001"])
# `StateFile` of a file `a` with a thousand bytes: as much as a reader waits for
FRAME = (1000 + 2 + 2 + 1 + 4 + 1).to_bytes(4, "big")


def listening(room, name):
    door = socket.socket(socket.AF_UNIX)
    door.bind(str(room / name))
    door.listen(0)
    return door


def fill(room, name):
    """Connects until the line is full."""
    waiting = []
    while True:
        peer = socket.socket(socket.AF_UNIX)
        peer.setblocking(False)
        try:
            peer.connect(str(room / name))
        except BlockingIOError:
            return waiting
        waiting.append(peer)


def serve(door, talk):
    """Talks with each connection, until the door is closed."""

    def one(peer):
        with contextlib.suppress(OSError):
            talk(peer)

    def run():
        with contextlib.suppress(OSError):
            while True:
                peer, _ = door.accept()
                threading.Thread(target=one, args=(peer,), daemon=True).start()

    threading.Thread(target=run, daemon=True).start()


def silent(peer):
    while peer.recv(4096):
        pass


def dripping(peer):
    for byte in FRAME + bytes(1000):
        peer.send(bytes([byte]))
        time.sleep(0.2)


def deaf(_):
    time.sleep(60)


def tried(room, words):
    start = time.monotonic()
    done = subprocess.run(
        [PRIVCTL, *words, "--timeout", str(SECONDS)], env={**os.environ, "PRIVILEGE_DIR": str(room)}, capture_output=True, check=False, timeout=60
    )
    took = time.monotonic() - start
    if done.returncode != 3 or not SECONDS - 0.1 <= took <= SECONDS + LATE:
        sys.exit(f"wrong: {words} ended with {done.returncode} after {took:.2f} s: {done.stderr!r}")
    return took


def main():
    longest = 0
    for name, talk in (("a full line", None), ("silence", silent), ("a byte at a time", dripping), ("nothing is read", deaf)):
        with tempfile.TemporaryDirectory() as folder:
            room = pathlib.Path(folder)
            doors = {name: listening(room, name) for name in ("admin.socket", "client.socket")}
            if talk:
                for door in doors.values():
                    serve(door, talk)
            waiting = [] if talk else [peer for name in doors for peer in fill(room, name)]
            for words in ORDERS:
                longest = max(longest, tried(room, words))
            for it in (*waiting, *doors.values()):
                it.close()
        print(f"{name}: {len(ORDERS)} orders in time")
    print(f"the longest took {longest:.2f} s of {SECONDS}")


main()
