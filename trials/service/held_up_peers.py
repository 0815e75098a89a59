"""Peers that hold a service up, and honest ones, as held_up.py has them come."""

import random
import threading
import time

from service import ALLOW, DONE, JUDGED, REGISTER, REGISTERED, HungUp, Link, check, frame, number, setting

WORKERS = 4
AGENT_WORKERS = 9
ASKED = (b"c", b"u", b"p")
HELD, FREE = 2.25, 0.1
# How long a peer that is to be let go by a limit of five seconds is waited for.
LIMIT = 5.5
wrong = []


def wanted(what, holds, found=""):
    if not holds:
        wrong.append(what)
        print(f"  {what}: {found}", flush=True)


def timed(what, most, call):
    """The call's answer, which is wanted in so many seconds."""
    start = time.monotonic()
    answer = call()
    took = time.monotonic() - start
    print(f"  {what}: {took:.3f} s", flush=True)
    wanted(what, took <= most, f"took {took:.3f} s, {most} s are wanted")
    return answer


def answered(folder, sequence=1):
    """A check by a client of its own, which dials anew where it is hung up, as the shipped one does: three times."""
    for _ in range(3):
        try:
            with Link(folder, "client", 20) as link:
                return link.ask(check(ASKED, sequence))[1] == JUDGED
        except HungUp:
            pass
        except TimeoutError:
            return False
    return False


def obeyed(folder):
    try:
        with Link(folder, "admin", 20) as link:
            return link.ask(setting(b"", (b"d", b"*", b"p"), ALLOW))[1] == DONE
    except (HungUp, TimeoutError):
        return False


def registered(folder, kind=99):
    try:
        with Link(folder, "agent", 20) as link:
            return link.ask(frame(1, REGISTER, kind.to_bytes(2, "big")))[1] == REGISTERED
    except (HungUp, TimeoutError):
        return False


def honest(service, door, most=HELD):
    """Each honest peer is answered, that of the held door within so much."""
    for name, call in ("client", answered), ("admin", obeyed), ("agent", registered):
        limit = most if name == door else FREE
        wanted(f"{name} is answered", timed(f"honest {name}", limit, lambda: call(service.folder)))


def is_ended(link, seconds):
    """Whether the service ends the link in so many seconds."""
    link.socket.settimeout(seconds)
    until = time.monotonic() + seconds
    try:
        while time.monotonic() < until:
            link.more()
    except HungUp:
        return True
    except TimeoutError:
        pass
    return False


class Dripping:
    """Peers that send a byte of a frame each tenth of a second."""

    def __init__(self, links, data):
        self.links, self.data, self.is_over = links, data, False
        self.thread = threading.Thread(target=self.drip)
        self.thread.start()

    def drip(self):
        for byte in self.data:
            for link in self.links:
                try:
                    link.socket.send(bytes([byte]))
                except OSError:
                    pass
            time.sleep(0.1)
            if self.is_over:
                return

    def end(self):
        self.is_over = True
        self.thread.join()


def asked_once(service, count):
    links = []
    for _ in range(count):
        link = Link(service.folder, "client")
        link.ask(check(ASKED))
        links.append(link)
    return links


def fill(link, data, seconds=3):
    """Sends so often that the answers, which nobody reads, fill what the machine keeps of them."""
    link.socket.settimeout(0.2)
    until = time.monotonic() + seconds
    try:
        while time.monotonic() < until:
            link.socket.sendall(data * 100)
    except OSError:
        pass


class Busy:
    """Clients that ask without a pause, and dial anew where they are hung up."""

    def __init__(self, service, count):
        self.service, self.is_over, self.lost = service, False, 0
        self.threads = [threading.Thread(target=self.ask) for _ in range(count)]
        for thread in self.threads:
            thread.start()

    def ask(self):
        link, failed = None, 0
        while not self.is_over:
            try:
                link = link or Link(self.service.folder, "client", 20)
                link.ask(check(ASKED))
                failed = 0
            except (HungUp, TimeoutError):
                if link:
                    link.close()
                link, failed = None, failed + 1
                self.lost += failed == 3

    def end(self):
        self.is_over = True
        for thread in self.threads:
            thread.join()
        wanted("each of them is answered within three dials", not self.lost, self.lost)


class Kept:
    """A client that keeps its link between questions, dials anew where it is hung up, and notes how long it waits."""

    def __init__(self, service, acknowledged, until):
        self.service, self.acknowledged, self.until = service, acknowledged, until
        self.link, self.longest, self.answers, self.stale, self.lost = None, 0, 0, 0, 0
        self.thread = threading.Thread(target=self.run)
        self.thread.start()

    def run(self):
        draw = random.Random(id(self))
        while time.monotonic() < self.until:
            start, least = time.monotonic(), self.acknowledged[0]
            commit = self.ask()
            self.longest = max(self.longest, time.monotonic() - start)
            if commit is None:
                self.lost += 1
            else:
                self.answers += 1
                self.stale += commit < least
            time.sleep(draw.random())
        if self.link:
            self.link.close()

    def ask(self):
        # Commits may hang up any number of links in a row; the shipped client gives up behind three.
        for _ in range(10):
            try:
                self.link = self.link or Link(self.service.folder, "client", 20)
                return number(self.link.ask(check(ASKED))[2], 0, 8)
            except (HungUp, TimeoutError):
                if self.link:
                    self.link.close()
                self.link = None
        return None
