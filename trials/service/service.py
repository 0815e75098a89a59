"""A service over real sockets, as the trials start it, talk with it, kill it and stop it: `PROGRAM serve W` with PRIVILEGE_DIR."""

import os
import pathlib
import socket
import struct
import subprocess
import tempfile
import time

import program

ALLOW, DENY, NONE = 0xFFFF, 0, 1
CHECK, SIMPLE = 0x01, 0x02
SET_BUCKET, SET_POLICIES, ERASE, LAYOUT, LISTING, ADMIN_CHECK, STOP = 0x10, 0x12, 0x13, 0x14, 0x1A, 0x1B, 0x1C
REGISTER, ANSWER = 0x20, 0x21
JUDGED, FROM_AGENT, NOT_RESOLVED, NO_AGENT, AGENT_GONE, AGENT_FULL = range(0x81, 0x87)
DONE, REFUSED, ROW, END = 0x90, 0x91, 0x92, 0x93
REGISTERED, TAKEN, QUESTION, UNKNOWN, WITHDRAWN = range(0xA0, 0xA5)
DOORS = ("client", "admin", "agent")
# Where an answer is this late, the service is taken to stand still.
PATIENCE = 60


def frame(sequence, operation, fields=b""):
    return struct.pack(">IHB", 3 + len(fields), sequence, operation) + fields


def text(word):
    return struct.pack(">H", len(word)) + word


def texts(words):
    return b"".join(map(text, words))


def check(question, sequence=1, operation=CHECK):
    return frame(sequence, operation, texts(question))


def setting(bucket, key, kind, metadata=b"", sequence=1):
    """One policy that is set, as a message of an administrator."""
    result = struct.pack(">H", kind) + text(metadata)
    return frame(sequence, SET_POLICIES, b"\0\0\0\1\1" + text(bucket) + texts(key) + result)


def number(fields, at, size):
    return int.from_bytes(fields[at : at + size], "big")


class HungUp(Exception):
    """The connection ended before a frame was whole."""


class Link:
    """A connection at a door."""

    def __init__(self, folder, door, patience=PATIENCE):
        self.socket = socket.socket(socket.AF_UNIX)
        self.socket.settimeout(patience)
        self.held = bytearray()
        try:
            self.socket.connect(str(pathlib.Path(folder) / f"{door}.socket"))
        except OSError as error:
            self.socket.close()
            raise HungUp from error

    def __enter__(self):
        return self

    def __exit__(self, *_):
        self.close()

    def close(self):
        self.socket.close()

    def send(self, data):
        try:
            self.socket.sendall(data)
        except TimeoutError:
            raise
        except OSError as error:
            raise HungUp from error

    def is_up(self):
        """Whether the service has not closed it: a write of no bytes says so."""
        try:
            self.socket.send(b"")
            return True
        except OSError:
            return False

    def more(self):
        try:
            piece = self.socket.recv(1 << 16)
        except TimeoutError:
            raise
        except OSError as error:
            raise HungUp from error
        if not piece:
            raise HungUp
        self.held += piece

    def read(self):
        """The sequence number, the operation and the fields of the next frame."""
        while len(self.held) < 4 or len(self.held) < 4 + number(self.held, 0, 4):
            self.more()
        end = 4 + number(self.held, 0, 4)
        body = bytes(self.held[4:end])
        del self.held[:end]
        return number(body, 0, 2), body[2], body[3:]

    def ask(self, data):
        self.send(data)
        return self.read()


class Service:
    """A service in a folder, with so many workers of clients."""

    def __init__(self, folder, path=None, workers=4, word="serve", **kept):
        self.folder, self.workers, self.word = pathlib.Path(folder), workers, word
        self.path, self.kept = pathlib.Path(path or program.PROGRAM), kept
        self.process = None

    def start(self):
        kept = {**os.environ, "PRIVILEGE_DIR": str(self.folder), **self.kept}
        words = [self.path, self.word, str(self.workers)]
        with open(self.folder / "errors", "ab") as errors, open(self.folder / "output", "ab") as output:
            self.process = subprocess.Popen(
                words, env=kept, cwd=self.folder, stdin=subprocess.DEVNULL, stdout=output, stderr=errors
            )
        until = time.monotonic() + PATIENCE
        while not self.answers():
            if self.process.poll() is not None or time.monotonic() > until:
                raise SystemExit(f"the service does not start: {(self.folder / 'errors').read_text()}")
            time.sleep(0.002)
        return self

    def answers(self):
        """Whether all three doors are open."""
        for door in DOORS:
            try:
                Link(self.folder, door).close()
            except HungUp:
                return False
        return True

    def kill(self):
        self.process.kill()
        self.process.wait()

    def stop(self):
        """Stops it by a message. The status that it ends with, and None where it does not end."""
        with Link(self.folder, "admin") as link:
            _, operation, _ = link.ask(frame(1, STOP))
        if operation != DONE:
            raise SystemExit(f"a stop was answered by {operation:#x}")
        try:
            return self.process.wait(PATIENCE)
        except subprocess.TimeoutExpired:
            return None

    def left(self):
        """The sockets that are there."""
        return [door for door in DOORS if (self.folder / f"{door}.socket").exists()]

    def said(self, line):
        """A line of what the machine says of it, as `VmRSS`, as a number."""
        lines = pathlib.Path(f"/proc/{self.process.pid}/status").read_text().splitlines()
        return next(int(row.split()[1]) for row in lines if row.startswith(line + ":"))

    def ticks(self):
        """The processor time that it took, in seconds."""
        fields = pathlib.Path(f"/proc/{self.process.pid}/stat").read_text().rsplit(")", 1)[1].split()
        return (int(fields[11]) + int(fields[12])) / os.sysconf("SC_CLK_TCK")

    def command(self, data):
        """The commit of an administrator's message, which is wanted done."""
        with Link(self.folder, "admin") as link:
            _, operation, fields = link.ask(data)
        if operation != DONE:
            raise SystemExit(f"an administrator's message was answered by {operation:#x} {fields!r}")
        return number(fields, 0, 8)


def room():
    """A folder of its own, in memory where the machine has such a place."""
    return tempfile.TemporaryDirectory(dir=program.ROOM, prefix="service-")
