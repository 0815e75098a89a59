#!/usr/bin/env python3
"""talk.py PROGRAM FILE.. talks with a service for each FILE, `PROGRAM serve 2` in a folder of its own, and shows the first step that
goes another way. Its last line counts the files, and it ends with 0 where none went another way. A line of a file is a step:
    LINK dials DOOR        a connection at the door client, admin or agent
    LINK > FRAME           a frame is sent; numbers are hexadecimal, texts stand in quotes, and the length comes by itself
    LINK >> BYTES          these bytes are sent, without a length
    LINK < FRAME           this frame is the next that comes
    LINK ends              nothing more comes: the service has closed the connection
    LINK stands            the service has not closed it, and nothing has come
    LINK leaves            this end closes it
    wait                   a third of a second, within which the service does what is not seen from outside
    service ends STATUS    the service has ended so
    service is killed      it is killed
    service starts         it is started anew
A line that begins with # says why."""

import os
import pathlib
import socket
import subprocess
import sys
import tempfile
import time

sys.path.insert(0, str(pathlib.Path(__file__).resolve().parent.parent))
from frames import body_of, frame_of

SECONDS = 20


class Differs(Exception):
    pass


class Talk:
    def __init__(self, program, folder):
        self.program, self.folder, self.links = program, folder, {}
        self.start()

    def start(self):
        kept = {**os.environ, "PRIVILEGE_DIR": str(self.folder)}
        self.service = subprocess.Popen([self.program, "serve", "2"], env=kept, stdin=subprocess.DEVNULL, stderr=subprocess.DEVNULL)
        until = time.monotonic() + SECONDS
        while time.monotonic() < until:
            try:
                for door in "client", "admin", "agent":
                    self.dial(door).close()
                return
            except OSError:
                time.sleep(0.01)
        raise Differs("the service does not start")

    def dial(self, door):
        link = socket.socket(socket.AF_UNIX)
        link.settimeout(SECONDS)
        link.connect(str(self.folder / f"{door}.socket"))
        return link

    def take(self, link, count):
        """So many bytes, or fewer where the connection is closed before."""
        data = b""
        while len(data) < count:
            try:
                more = self.links[link].recv(count - len(data))
            except TimeoutError:
                raise Differs("nothing comes") from None
            except ConnectionError:
                more = b""
            if not more:
                break
            data += more
        return data

    def send(self, link, data):
        try:
            self.links[link].sendall(data)
        except ConnectionError:
            # what comes next shows it
            pass

    def expect(self, link, wanted):
        found = self.take(link, len(wanted))
        if found != wanted:
            raise Differs(f"wanted {wanted.hex()}, found {found.hex()}")

    def end(self, status):
        try:
            found = self.service.wait(SECONDS)
        except subprocess.TimeoutExpired:
            found = None
        if found != status:
            raise Differs(f"wanted the status {status}, found {found}")

    def step(self, line):
        match line.split(" ", 2):
            case ["wait"]:
                time.sleep(0.3)
            case ["service", "starts"]:
                self.start()
            case ["service", "is", "killed"]:
                self.service.kill()
                self.service.wait()
            case ["service", "ends", status]:
                self.end(int(status))
            case [link, "dials", door]:
                self.links[link] = self.dial(door)
            case [link, ">", words]:
                self.send(link, frame_of(words))
            case [link, ">>", words]:
                self.send(link, body_of(words))
            case [link, "<", words]:
                self.expect(link, frame_of(words))
            case [link, "ends"]:
                if more := self.take(link, 1):
                    raise Differs(f"{more.hex()} comes")
            case [link, "stands"]:
                self.links[link].send(b"")
                self.links[link].setblocking(False)
                try:
                    raise Differs(f"{self.links[link].recv(1).hex()} comes")
                except BlockingIOError:
                    self.links[link].settimeout(SECONDS)
            case [link, "leaves"]:
                self.links.pop(link).close()
            case _:
                raise Differs("no step")


def run(program, file):
    """The step at which a talk goes another way, and how; or None."""
    with tempfile.TemporaryDirectory() as folder:
        talk = Talk(program, pathlib.Path(folder))
        try:
            for number, line in enumerate(file.read_text().splitlines(), 1):
                if line and not line.startswith("#"):
                    try:
                        talk.step(line)
                    except (Differs, OSError, KeyError) as found:
                        return f"{file.name}, line {number}: {line}: {found}"
        finally:
            for link in talk.links.values():
                link.close()
            talk.service.kill()
            talk.service.wait()
    return None


def main():
    program, *files = sys.argv[1:]
    faults = [fault for file in files if (fault := run(program, pathlib.Path(file)))]
    for fault in faults:
        print(fault)
    print(f"{len(files) - len(faults)} passed, {len(faults)} failed")
    sys.exit(1 if faults else 0)


if __name__ == "__main__":
    main()
