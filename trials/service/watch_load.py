#!/usr/bin/env python3
"""watch_load.py [--program PATH] [--checks N] [--seconds N] [--rounds N]: has a service that is watched (`watch 4`) answer a million
checks over eight links, of which four are open at a time, while an administrator connects again and again; and looks at what it
wrote. Each link asks by a client of its own, and names the place of each check in its privilege, so that a line tells which check it
is of:
- the lines of each worker have the numbers from 0 on, in turn;
- of each link the places in its lines rise, so no check stands there twice, and all are in their order;
- a line has the answer and the commit that its check got, the policy that decided, and a time of the trial that is not before that of
  the worker's line before it;
- the lines of a worker and its count of missed checks add up to the checks of the links that it served;
- nothing else is written, and standard error tells of checks that were missed where some were.
Then times it beside `serve 4` over four links, in turn, with the device of `sample 200`, twice: with an administrator who connects every
10 milliseconds, and with none: at least 0.97 of the checks a second are wanted. Other work stops meanwhile, or the quotients say
little. Ends with status 1 where something is not as wanted. Two minutes; needs `gcc`."""

import argparse
import collections
import datetime
import pathlib
import random
import statistics
import sys
import threading

import program
from local_speed import store_of
from service import ALLOW, DENY, JUDGED, Link, Service, check, room, setting
from service_load import Loader, device_of

LINKS, AT_ONCE, WORKERS, BATCH = 8, 4, 4, 250
AS_FAST, EVERY_SECONDS = 0.97, 0.01
# The longest pause of an administrator, in seconds, while the checks are counted.
LONGEST_PAUSE = 0.05
# Where the kind of the answer stands in the frame of a reply.
KIND_AT = 15
MISSED_NOTE = "some checks were not written"
WRONG = []
START = datetime.datetime.now(datetime.timezone.utc)


def expect(said, holds):
    if not holds:
        WRONG.append(said)


class Visitor(threading.Thread):
    """An administrator who connects and leaves, with these pauses in seconds, until it is stopped."""

    def __init__(self, folder, pause):
        super().__init__()
        self.folder, self.pause, self.ended, self.visits = folder, pause, threading.Event(), 0

    def run(self):
        while not self.ended.wait(self.pause()):
            with Link(self.folder, "admin"):
                self.visits += 1

    def __enter__(self):
        self.start()
        return self

    def __exit__(self, *_):
        self.ended.set()
        self.join()


def client_of(number):
    return b"client%d" % number


def user_of(place):
    """Who is asked about: u is allowed all, and v nothing."""
    return (b"v", b"u", b"u")[place % 3]


def question_of(number, place):
    return client_of(number), user_of(place), b"p%d" % place


class Asker(threading.Thread):
    """Asks so many checks over one link, so many at a time, and keeps what was allowed."""

    def __init__(self, folder, number, count, places):
        super().__init__()
        self.folder, self.number, self.count, self.places = folder, number, count, places
        self.answers = []

    def run(self):
        with self.places, Link(self.folder, "client") as link:
            for first in range(0, self.count, BATCH):
                batch = range(first, min(first + BATCH, self.count))
                link.send(b"".join(check(question_of(self.number, place), place % 65536) for place in batch))
                self.read(link, batch)

    def read(self, link, batch):
        """The replies to these checks, in their order."""
        left, held = iter(batch), link.held
        place = next(left)
        while place is not None:
            link.more()
            at = 0
            while place is not None and len(held) - at >= 4:
                end = at + 4 + int.from_bytes(held[at : at + 4], "big")
                if len(held) < end:
                    break
                expect(f"a reply to check {place} of link {self.number}", held[at + 4 : at + 7] == (place % 65536).to_bytes(2, "big") + bytes([JUDGED]))
                self.answers.append(int.from_bytes(held[at + KIND_AT : at + KIND_AT + 2], "big") == ALLOW)
                at, place = end, next(left, None)
            del held[:at]


def asked(service, checks):
    """Asks so many checks in all, over eight links: what each link was answered, and how often an administrator came."""
    places, chance = threading.Semaphore(AT_ONCE), random.Random(1)
    askers = [Asker(service.folder, number, checks // LINKS, places) for number in range(LINKS)]
    with Visitor(service.folder, lambda: chance.uniform(0, LONGEST_PAUSE)) as visitor:
        for asker in askers:
            asker.start()
        for asker in askers:
            asker.join()
    return {client_of(asker.number).decode(): asker.answers for asker in askers}, visitor.visits


def time_of(text):
    """The time that a line names, or None."""
    try:
        return datetime.datetime.fromisoformat(text.replace("Z", "+00:00"))
    except ValueError:
        return None


def look_at_worker(worker, rows, answers, commit):
    """What is wrong with the lines of one worker. The links that it served."""
    expect(f"numbers of worker {worker}", [int(row[2]) for row in rows] == list(range(len(rows))))
    last, before = {}, START
    for row in rows:
        _, _, _, result, at_commit, client, user, privilege, at, *cause = row
        place = int(privilege[1:])
        expect(f"the order of {row}", last.get(client, -1) < place)
        last[client] = place
        expect(f"the names of {row}", user == user_of(place).decode() and privilege == f"p{place}")
        expect(f"the policy of {row}", cause == ["policy", ".", client, user, "*"])
        time = time_of(at)
        expect(f"the time of {row}", time is not None and before <= time <= datetime.datetime.now(datetime.timezone.utc))
        before = time or before
        expect(f"the answer of {row}", result == ("allow" if answers[client][place] else "deny") and int(at_commit) == commit)
    return set(last)


def look(lines, answers, commit):
    """What is wrong with all that a service wrote. How many lines, and how many checks were missed."""
    rows_of, missed = collections.defaultdict(list), {}
    for line in lines:
        words = line.split(" ")
        if words[0] == "missed":
            expect(f"the order of {line}", len(missed) == int(words[1]))
            missed[int(words[1])] = int(words[2])
        else:
            expect(f"{line} behind the counts", words[0] == "monitor" and len(words) == 14 and not missed)
            rows_of[int(words[1])].append(words)
    expect(f"counts of {sorted(missed)}", sorted(missed) == list(range(WORKERS)))
    expect(f"lines of {sorted(rows_of)}", sorted(rows_of) == list(range(WORKERS)))
    served = {worker: look_at_worker(worker, rows, answers, commit) for worker, rows in rows_of.items()}
    links = [link for its in served.values() for link in its]
    expect(f"links with lines: {sorted(links)}", sorted(links) == sorted(answers))
    for worker, its in served.items():
        found = len(rows_of[worker]), missed.get(worker, 0)
        expect(f"worker {worker}: {found} of links {sorted(its)}", sum(found) == sum(len(answers[link]) for link in its))
    return sum(map(len, rows_of.values())), sum(missed.values())


def watched(scratch, options):
    folder = scratch / "watched"
    folder.mkdir()
    service = Service(folder, options.program, WORKERS, "watch").start()
    for number in range(LINKS):
        service.command(setting(b"", (client_of(number), b"u", b"*"), ALLOW))
        commit = service.command(setting(b"", (client_of(number), b"v", b"*"), DENY))
    answers, visits = asked(service, options.checks)
    status = service.stop()
    expect(f"status {status}", status == 0)
    for link, its in answers.items():
        wanted = [user_of(place) == b"u" for place in range(options.checks // LINKS)]
        expect(f"answers of {link}: {len(its)}", its == wanted)
    lines, missed = look((folder / "output").read_text().splitlines(), answers, commit)
    print(f"{sum(map(len, answers.values())):,} checks over {LINKS} links, {visits:,} connections of an administrator: {lines:,} lines, {missed:,} missed", flush=True)
    noted = (folder / "errors").read_text().count(MISSED_NOTE)
    expect(f"{noted} notes of {missed} missed checks", bool(noted) == bool(missed))


class Nobody:
    """In place of an administrator."""

    def __enter__(self):
        return self

    def __exit__(self, *_):
        pass


def timed(scratch, options):
    loader, services = Loader(scratch), {}
    device = device_of(loader.script.read_bytes())
    try:
        for word in "serve", "watch":
            folder = scratch / word
            folder.mkdir()
            store_of(device, folder / "store")
            services[word] = Service(folder, options.program, WORKERS, word).start()
        for way, every in ("an administrator every 10 ms", EVERY_SECONDS), ("no administrator", None):
            compare(way, [one_round(loader, services, number, every, options.seconds) for number in range(options.rounds)])
    finally:
        for service in services.values():
            service.kill()


def one_round(loader, services, number, every, seconds):
    """The checks a second of both, in turn."""
    found = {}
    for word in sorted(services, reverse=number % 2):
        service = services[word]
        with Visitor(service.folder, lambda: every) if every else Nobody():
            found[word] = loader.ask(service.folder / "client.socket", WORKERS, 1, seconds)[0]
    return found


def compare(way, rounds):
    quotients = [found["watch"] / found["serve"] for found in rounds]
    quotient = statistics.median(quotients)
    serve, watch = (statistics.median(found[word] for found in rounds) for word in ("serve", "watch"))
    print(f"over four links, {way}: {serve:,.0f} checks a second under serve, {watch:,.0f} under watch: {quotient:.3f}", flush=True)
    print(f"  each round: {' '.join(f'{one:.3f}' for one in quotients)}", flush=True)
    expect(f"{way}: {quotient:.3f} of the checks a second, {AS_FAST} is wanted", quotient >= AS_FAST)


def main():
    words = argparse.ArgumentParser(description=__doc__, formatter_class=argparse.RawDescriptionHelpFormatter)
    words.add_argument("--program", type=pathlib.Path)
    words.add_argument("--checks", type=int, default=1_000_000)
    words.add_argument("--seconds", type=float, default=2)
    words.add_argument("--rounds", type=int, default=9)
    options = words.parse_args()
    if not options.program:
        program.build()
    with room() as name:
        scratch = pathlib.Path(name)
        watched(scratch, options)
        if options.rounds:
            timed(scratch, options)
    for wrong in WRONG[:20]:
        print(f"not as wanted: {wrong}")
    sys.exit(1 if WRONG else 0)


if __name__ == "__main__":
    main()
