#!/usr/bin/env python3
"""service_load.py [--peer PATH] [--program PATH] [--seconds N] [--rounds N] [--policies N]: times a service over real sockets, in
turn with an echo of frames of the same lengths (`service_load.c`) and, where its program is named, with a peer: `PEER serve DIRECTORY
WORKERS SCRIPT [MILLISECONDS]`, a client's door without proofs that publishes a copy so often. All of them have the device of `sample
200`, which `sample_model.py` writes, or else so many policies in one bucket, with four workers, and are asked its 800 questions, or
1,000, by one loader. Minutes; other work stops meanwhile, or the quotients say little. Wanted are
- checks a second over one link and over four at least 0.90 of the echo's, the 99th of 100 times at most 1.3 of the echo's;
- over four links, 16 frames at a time, at least as many as the peer's;
- each of these within a tenth while an administrator commits every 100 milliseconds, and each commit hangs up all links;
- no processor time of 64 workers that wait, with no connections and with 64 that say nothing;
- at most 300 MB with the largest device.
Prints the middle of the rounds as a table, and a line for each of the last two; ends with status 1 where one is not as wanted.
Needs `gcc`."""

import argparse
import pathlib
import statistics
import subprocess
import sys
import threading
import time

import models
import program
from device_model import Device
from local_speed import store_of, write_largest
from sample_model import commands_of, questions_of
from service import ALLOW, DENY, JUDGED, Link, Service, check, frame, room, setting

HERE = pathlib.Path(__file__).resolve().parent
APPLICATIONS, WORKERS, MOST_WORKERS = 200, 4, 64
# How the loader asks: links, and frames at a time.
WAYS = {"one link": (1, 1), "four links": (4, 1), "four links, 16 at a time": (4, 16)}
OF_ECHO, OF_ECHO_AT_MOST, OF_PEER, OF_QUIET = 0.90, 1.3, 1.0, 0.9
COMMIT_SECONDS = 0.1
# A policy of the largest device, in its bucket `bucket000`, which leaves no room for a further one.
OF_LARGEST = b"User::Pkg::org.tizen.package0", b"5000", b"http://tizen.org/privilege/q0"
MOST_MB = 300
IDLE_SECONDS = 5
WRONG = []


def say(text):
    print(text, file=sys.stderr, flush=True)


def one_bucket(count):
    """The lines of a batch of so many policies in the root bucket, of four shapes, and of 1,000 questions."""
    def texts(place):
        return f"c{place}", f"u{place % 64}", f"p{place % 50}"

    def key(place):
        client, user, privilege = texts(place)
        shapes = (client, "*", privilege), (client, user, "*"), ("*", user, f"q{place}"), (client, user, privilege)
        return " ".join(shapes[place % 4])

    policies = [f"set . {key(place)} {'deny' if place % 10 == 0 else 'allow'}" for place in range(count)]
    asked = [texts(number * count // 1000) for number in range(1000)]
    return ["batch", *policies, "end"], [" ".join(["check", *question]) for question in asked]


class Loader:
    def __init__(self, scratch, policies=0):
        self.tool = scratch / "service_load"
        subprocess.run(["gcc", "-O2", "-o", self.tool, HERE / "service_load.c", "-lpthread"], check=True)
        self.script = scratch / "script"
        commands, checks = one_bucket(policies) if policies else (commands_of(APPLICATIONS), questions_of(APPLICATIONS))
        self.script.write_text("".join(line + "\n" for line in commands + checks))
        questions = [line.encode().split()[1:] for line in checks]
        self.frames = scratch / "frames"
        self.frames.write_bytes(b"".join(check(question, place % 65536) for place, question in enumerate(questions)))
        self.first = questions[0]

    def ask(self, path, links, depth, seconds):
        """Checks a second, the middle and the 99th of 100 times in microseconds, hang-ups, and bytes of a reply."""
        words = [self.tool, "load", path, str(links), str(int(seconds * 1000)), str(depth), self.frames]
        done = subprocess.run(words, check=True, stdout=subprocess.PIPE, timeout=seconds + 60).stdout.split()
        rate, middle, late, hung_up, size, others = map(float, done)
        if others:
            sys.exit(f"{others:.0f} replies at {path} are no verdicts")
        return rate, middle, late, hung_up, size


class Administrator(threading.Thread):
    """Commits every 100 milliseconds until it is stopped."""

    def __init__(self, service):
        super().__init__()
        self.service, self.ended, self.times = service, threading.Event(), []

    def run(self):
        with Link(self.service.folder, "admin") as link:
            while not self.ended.wait(COMMIT_SECONDS):
                start = time.monotonic()
                link.ask(setting(b"", (b"x", b"*", b"y"), (ALLOW, DENY)[len(self.times) % 2]))
                self.times.append(time.monotonic() - start)

    def __enter__(self):
        self.start()
        return self

    def __exit__(self, *_):
        self.ended.set()
        self.join()


def wait_for(path):
    until = time.monotonic() + 30
    while not path.exists() and time.monotonic() < until:
        time.sleep(0.01)


def started(words):
    return subprocess.Popen(words, stdin=subprocess.DEVNULL)


def device_of(script):
    device = Device()
    for _ in models.answers(script, device):
        pass
    return device


class Turns:
    """What is timed in turn: the echo, the service and the peer, and the latter two with commits."""

    def __init__(self, scratch, loader, options):
        self.loader, self.seconds, self.processes = loader, options.seconds, []
        self.service = Service(scratch / "service", options.program, WORKERS)
        store_of(device_of(loader.script.read_bytes()), self.service.folder / "store")
        self.service.start()
        self.processes.append(self.service.process)
        self.paths = {"service": self.service.folder / "client.socket"}
        self.add_echo(scratch)
        if options.peer:
            for name, every in ("peer", ()), ("peer with commits", (str(int(COMMIT_SECONDS * 1000)),)):
                folder = scratch / name.replace(" ", "_")
                folder.mkdir()
                self.add(name, folder / "client.socket", [options.peer, "serve", folder, str(WORKERS), loader.script, *every])

    def add(self, name, path, words):
        self.processes.append(started(words))
        self.paths[name] = path
        wait_for(path)

    def add_echo(self, scratch):
        """An echo of the reply whose length is the middle one of the service's."""
        *_, size = self.loader.ask(self.paths["service"], 1, 1, 0.2)
        with Link(self.service.folder, "client") as link:
            sequence, operation, fields = link.ask(check(self.loader.first))
        assert operation == JUDGED
        reply = frame(sequence, operation, fields)
        reply = reply + bytes(max(0, round(size) - len(reply)))
        reply = (len(reply) - 4).to_bytes(4, "big") + reply[4:]
        (scratch / "reply").write_bytes(reply)
        path = scratch / "echo.socket"
        self.add("echo", path, [self.loader.tool, "echo", path, str(WORKERS), scratch / "reply"])

    def turn(self, links, depth):
        """What each is measured at, one after the other."""
        found = {name: self.loader.ask(path, links, depth, self.seconds) for name, path in self.paths.items()}
        with Administrator(self.service) as administrator:
            found["service with commits"] = self.loader.ask(self.paths["service"], links, depth, self.seconds)
        found["commits"] = len(administrator.times), statistics.median(administrator.times)
        return found

    def end(self):
        for process in self.processes:
            process.kill()
            process.wait()


def middle(rounds, name, place, other=None):
    """The middle of the rounds of a number, or of its quotient with another's."""
    return statistics.median(found[name][place] / (found[other][place] if other else 1) for found in rounds)


def compare(way, rounds):
    """Says what is not as wanted of a way to ask."""
    def expect(said, holds):
        if not holds:
            WRONG.append(f"{way}: {said}")

    if "16" not in way:
        rate, late = middle(rounds, "service", 0, "echo"), middle(rounds, "service", 2, "echo")
        expect(f"{rate:.2f} of the echo's checks a second, {OF_ECHO} is wanted", rate >= OF_ECHO)
        expect(f"the 99th time is {late:.2f} of the echo's, {OF_ECHO_AT_MOST} is wanted", late <= OF_ECHO_AT_MOST)
    elif "peer" in rounds[0]:
        rate = middle(rounds, "service", 0, "peer")
        expect(f"{rate:.2f} of the peer's checks a second, {OF_PEER} is wanted", rate >= OF_PEER)
    quiet, late = middle(rounds, "service with commits", 0, "service"), middle(rounds, "service with commits", 2, "service")
    expect(f"with commits {quiet:.2f} of the checks a second without, {OF_QUIET} is wanted", quiet >= OF_QUIET)
    expect(f"with commits the 99th time is {late:.2f} of that without, {1 / OF_QUIET:.2f} is wanted", late <= 1 / OF_QUIET)


def show(way, rounds):
    for name in rounds[0]:
        if name == "commits":
            continue
        rate, half, late, hung_up = (middle(rounds, name, place) for place in range(4))
        of_echo, late_of_echo = middle(rounds, name, 0, "echo"), middle(rounds, name, 2, "echo")
        of_peer = f"{middle(rounds, name, 0, 'peer'):.2f}" if "peer" in rounds[0] else "-"
        print(
            f"| {way} | {name} | {rate:,.0f} | {half:.1f} | {late:.1f} | {of_echo:.2f} | {of_peer} | {late_of_echo:.2f} | {hung_up:.0f} |"
        )
    count, took = (middle(rounds, "commits", place) for place in range(2))
    print(f"| {way} | commits | {count:.0f} in a round, of {took * 1000:.1f} ms each | | | | | | |", flush=True)


def idle(scratch, options):
    """The processor time of a service with as many workers as there may be, of which each waits."""
    with_nothing = scratch / "idle"
    with_nothing.mkdir()
    service = Service(with_nothing, options.program, MOST_WORKERS).start()
    try:
        time.sleep(0.5)
        before = service.ticks()
        time.sleep(IDLE_SECONDS)
        alone = service.ticks() - before
        links = [Link(with_nothing, "client") for _ in range(MOST_WORKERS)]
        time.sleep(0.5)
        before = service.ticks()
        time.sleep(IDLE_SECONDS)
        held = service.ticks() - before
        for link in links:
            link.close()
        print(f"{MOST_WORKERS} workers that wait: {alone:.2f} s of processor time in {IDLE_SECONDS} s, {held:.2f} s with a connection each")
        if alone or held:
            WRONG.append("workers that wait take processor time")
    finally:
        service.kill()


def largest(scratch, loader, options):
    """What a service holds in memory over the largest device, after commits and with clients at all workers."""
    folder = scratch / "largest"
    count, size = write_largest(folder / "store")
    service = Service(folder, options.program, WORKERS)
    start = time.monotonic()
    service.start()
    try:
        took, mounted = time.monotonic() - start, service.said("VmHWM")
        times = []
        for number in range(5):
            loader.ask(folder / "client.socket", WORKERS, 16, 0.3)
            start = time.monotonic()
            service.command(setting(b"bucket000", OF_LARGEST, (ALLOW, DENY)[number % 2]))
            times.append(time.monotonic() - start)
        most, now = service.said("VmHWM"), service.said("VmRSS")
        print(
            f"the largest device ({count:,} files, {size:,} bytes): {took:.1f} s until it answers, {mounted // 1024} MB by then;"
            f" behind 5 commits, {statistics.median(times):.2f} s each, {now // 1024} MB, at most {most // 1024} MB"
        )
        if most // 1024 > MOST_MB:
            WRONG.append(f"{most // 1024} MB with the largest device, at most {MOST_MB} are wanted")
    finally:
        service.kill()


def main():
    words = argparse.ArgumentParser(description=__doc__, formatter_class=argparse.RawDescriptionHelpFormatter)
    words.add_argument("--peer", type=pathlib.Path)
    words.add_argument("--program", type=pathlib.Path)
    words.add_argument("--seconds", type=float, default=2)
    words.add_argument("--rounds", type=int, default=7)
    words.add_argument("--policies", type=int, default=0)
    options = words.parse_args()
    if not options.program:
        program.build()
    with room() as name:
        scratch = pathlib.Path(name)
        loader = Loader(scratch, options.policies)
        (scratch / "service").mkdir()
        turns = Turns(scratch, loader, options)
        print("| asked over | | checks a second | middle, us | 99th of 100, us | of echo | of peer | 99th, of echo | hang-ups |")
        print("|---|---|---|---|---|---|---|---|---|", flush=True)
        try:
            for way, (links, depth) in WAYS.items():
                rounds = []
                for number in range(options.rounds):
                    say(f"{way}, round {number + 1} of {options.rounds}")
                    rounds.append(turns.turn(links, depth))
                show(way, rounds)
                compare(way, rounds)
        finally:
            turns.end()
        idle(scratch, options)
        largest(scratch, loader, options)
    for wrong in WRONG:
        print(f"not as wanted: {wrong}")
    sys.exit(1 if WRONG else 0)


if __name__ == "__main__":
    main()
