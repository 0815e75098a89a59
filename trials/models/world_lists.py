#!/usr/bin/env python3
"""Random lists of events for the world of `desk_world`, with what a model of the table of events says they lead to.

Writes lines `events => outcome` in the text form of `crates/cases_world/src/event_texts.rt`; that program compares them:

    trials/try world_lists 10000 1 > /tmp/lists.txt
    cd crates/cases_world && rt try < /tmp/lists.txt | diff /tmp/lists.txt -
    trials/try world_lists --all 3 > /tmp/lists.txt        every list of up to three events of a small set

`--seconds N` gives the program more time. The model shares no code with the crate: states are dictionaries from a privilege
to a kind, and events are methods."""
import itertools
import random
import sys

DENY, ALLOW, MOST_WAITING, MOST_ENTRIES = 0, 65535, 1024, 4294967295


def is_agent(kind):
    return 2 <= kind <= 65533


class Off(Exception):
    """The event is not enabled. It is raised before anything is changed."""


def need(test):
    if not test:
        raise Off


class Link:
    def __init__(self, client, run):
        self.client, self.run = client, run
        self.entered = None
        self.seen = 0
        self.up = True
        self.question = None
        self.reading = None
        self.reply = None


class Client:
    def __init__(self):
        self.told, self.link, self.log, self.asking = 0, None, [], None


class World:
    def __init__(self):
        self.history = [{}]
        self.acknowledged = self.published = self.note = self.run = 0
        self.candidate = None
        self.links, self.clients, self.asks, self.given = [], {}, [], []
        self.agents, self.entries = set(), []

    # ---- parts

    def last(self):
        return len(self.history) - 1

    def client(self, number):
        return self.clients.setdefault(number, Client())

    def link(self, number):
        need(number < len(self.links))
        return self.links[number]

    def own_link(self, client):
        need(client.link is not None)
        return self.links[client.link]

    def open_ask(self, client):
        need(client.asking is not None)
        return self.asks[client.asking]

    def entry(self, run, number):
        found = [entry for entry in self.entries if entry["run"] == run]
        need(number < len(found))
        return found[number]

    def next_state(self, command):
        need(self.acknowledged == self.last() and self.candidate is None)
        need(command[0] == "set")
        return {**self.history[-1], command[1]: int(command[2])}

    # ---- clients

    def dial(self, number):
        client = self.client(number)
        need(client.link is None)
        client.link, client.log = len(self.links), []
        self.links.append(Link(number, self.run))

    def ask(self, number, privilege, simple=False):
        client = self.client(number)
        client.asking = len(self.asks)
        self.asks.append((privilege, simple, max(self.acknowledged, client.told)))

    def simple(self, number, privilege):
        self.ask(number, privilege, True)

    def hit(self, number, place):
        client = self.client(number)
        ask = self.open_ask(client)
        link = self.own_link(client)
        need(link.up and place < len(client.log))
        privilege, reply = client.log[place]
        need(privilege == ask[0] and reply[1] >= client.told)
        self.given.append((client.asking, link.run, reply))
        client.asking = None

    def send(self, number):
        client = self.client(number)
        self.open_ask(client)
        link = self.own_link(client)
        need(link.up and link.question is None and link.reply is None)
        link.question = client.asking

    def deliver(self, number):
        client = self.client(number)
        ask = self.open_ask(client)
        link = self.own_link(client)
        need(link.reply is not None and link.reply[0] == client.asking)
        reply = link.reply[1]
        self.given.append((client.asking, link.run, reply))
        link.reply = None
        if reply[0] == "judged":
            client.log.append((ask[0], reply))
        client.asking = None

    def notice(self, number):
        client = self.client(number)
        need(not self.own_link(client).up)
        client.link, client.log = None, []

    def tell(self, number, commit):
        need(commit <= self.acknowledged)
        client = self.client(number)
        client.told = max(client.told, commit)

    # ---- links

    def enter(self, number):
        link = self.link(number)
        need(link.run == self.run and link.entered is None)
        link.entered = link.seen = self.note

    def read(self, number, commit):
        link = self.link(number)
        need(link.entered is not None and link.question is not None and link.reading is None)
        need(link.seen <= commit <= self.published)
        link.seen = commit
        privilege, simple, _ = self.asks[link.question]
        kind = self.history[commit].get(privilege, DENY)
        if not is_agent(kind):
            link.reading = ("judged", commit, kind)
        elif simple:
            link.reading = ("simple", commit, kind)
        else:
            link.reading = ("due", commit, kind)

    def write(self, number):
        link = self.link(number)
        need(link.up and link.reading is not None and link.reading[0] != "due")
        reply = link.reading
        if reply[0] == "waiting":
            _, commit, kind, put = reply
            state = self.entry(link.run, put)["state"]
            need(state != "open")
            reply = ("gone", commit, put) if state == "gone" else ("from", commit, kind, put, state)
        link.reply = (link.question, reply)
        link.question = link.reading = None

    def lose(self, number):
        link = self.link(number)
        need(link.up)
        link.up = False

    # ---- commits

    def stored(self, *command):
        self.history.append(self.next_state(command))

    def undecided(self, *command):
        self.candidate = self.next_state(command)

    def decide(self, kept):
        need(self.candidate is not None)
        if kept == "keep":
            self.history.append(self.candidate)
        self.candidate = None

    def publish(self):
        need(self.candidate is None and self.published < self.last())
        self.published = self.last()

    def hang(self):
        self.note = self.published
        for link in self.links:
            if link.entered is not None and link.entered < self.published:
                link.up = False

    def acknowledge(self):
        need(self.acknowledged < self.note)
        self.acknowledged = self.note

    def stop(self, kept, *command):
        state = self.next_state(command) if command else self.candidate
        if kept == "keep" and state is not None:
            self.history.append(state)
        self.candidate = None
        self.acknowledged = self.published = self.note = self.last()
        for link in self.links:
            link.up = False
        for entry in self.entries:
            if entry["state"] == "open":
                entry["state"] = "gone"
        self.agents = set()
        self.run += 1

    # ---- agents

    def join(self, kind):
        need(is_agent(kind) and kind not in self.agents)
        self.agents.add(kind)

    def put(self, number, most=None):
        link = self.link(number)
        need(link.run == self.run and link.reading is not None and link.reading[0] == "due")
        waiting = sum(other.run == self.run and other.reading is not None and other.reading[0] == "waiting"
                      for other in self.links)
        count = sum(entry["run"] == self.run for entry in self.entries)
        need(most is None and count < MOST_ENTRIES or most == MOST_WAITING and waiting >= MOST_WAITING
             or most == MOST_ENTRIES and count == MOST_ENTRIES)
        _, commit, kind = link.reading
        if kind not in self.agents:
            link.reading = ("none", commit, kind)
        elif most is not None:
            link.reading = ("full", commit, kind, most)
        else:
            self.entries.append({"run": self.run, "kind": kind, "state": "open"})
            link.reading = ("waiting", commit, kind, count)

    def reply(self, number, answer):
        entry = self.entry(self.run, number)
        need(entry["state"] == "open")
        entry["state"] = "true" if answer == "allow" else "false"

    def withdraw(self, number):
        link = self.link(number)
        need(link.reading is not None and link.reading[0] == "waiting" and link.run == self.run and not link.up)
        entry = self.entry(self.run, link.reading[3])
        need(entry["state"] == "open")
        entry["state"] = "gone"

    def leave(self, kind):
        need(kind in self.agents)
        self.agents.remove(kind)
        for entry in self.entries:
            if entry["kind"] == kind and entry["state"] == "open":
                entry["state"] = "gone"


def step(world, event):
    word, *rest = event.split()
    getattr(world, word)(*[int(x) if x.isdigit() else x for x in rest])


def outcome(events):
    world = World()
    for at, event in enumerate(events):
        try:
            step(world, event)
        except Off:
            return f"not enabled {at}"
    return " ".join(f"{ask} {run} {' '.join(map(str, reply))};" for ask, run, reply in world.given)


def candidates(draw, world):
    """Events in a random order, of which the first that is enabled is taken."""
    client, link = draw.randrange(2), max(0, len(world.links) - 1 - draw.randrange(3))
    commit = max(0, world.last() + 1 - draw.randrange(4))
    privilege, kind = draw.choice("pq"), draw.choice([0, 65535, 10, 10, 11])
    command = draw.choice([f"set {privilege} {kind}"] * 5 + ["drop-root"])
    keep = draw.choice(["keep", "drop"])
    ask = draw.choice([f"ask {client} {privilege}", f"ask {client} {privilege}", f"simple {client} {privilege}"])
    if draw.randrange(25) == 0:
        return [draw.choice([f"lose {link}", f"stop {keep}", f"stop {keep} {command}", f"undecided {command}",
                             f"put {link} 1024", ask])]
    if draw.randrange(6) == 0:
        seldom = ["hang", f"stored {command}", f"join {kind}", f"leave {kind}", f"tell {client} {commit}"]
        return seldom[draw.randrange(5):]
    often = [
        f"dial {client}", f"enter {link}", f"hit {client} {draw.randrange(3)}", f"send {client}",
        f"read {link} {commit}", f"write {link}", f"deliver {client}", f"notice {client}", f"decide {keep}", "publish",
        "acknowledge", f"put {link}", f"reply {draw.randrange(3)} {draw.choice(['allow', 'deny'])}",
        f"withdraw {link}",
    ]
    if client not in world.clients or world.clients[client].asking is None:
        often.append(ask)
    draw.shuffle(often)
    return often


def random_list(draw):
    """Events that are enabled, so that lists get somewhere; and now and then one more that may not be."""
    world, events = World(), []
    for _ in range(draw.randrange(80)):
        for event in candidates(draw, world):
            try:
                step(world, event)
            except Off:
                continue
            events.append(event)
            break
    if draw.randrange(3) == 0:
        events.append(candidates(draw, world)[0])
    return events


# the events of which --all makes every list
SMALL = ["dial 1", "enter 0", "ask 1 p", "send 1", "read 0 0", "write 0", "deliver 1", "hit 1 0", "notice 1", "lose 0",
         "stored set p 10", "publish", "hang", "acknowledge", "stop drop", "join 10", "put 0", "reply 0 allow",
         "withdraw 0", "leave 10"]


# the outcome as the program tells it: of more than twenty replies their number and the last one
def told(text):
    replies = [reply.strip() for reply in text.split(";") if reply.strip()]
    if len(replies) > 20:
        return f"{len(replies)} replies, the last {replies[-1]};"
    return text.strip() or "no reply"


def main():
    if sys.argv[1] == "--all":
        counts = range(int(sys.argv[2]) + 1)
        lists = (list(events) for count in counts for events in itertools.product(SMALL, repeat=count))
    else:
        draw = random.Random(int(sys.argv[2]))
        lists = (random_list(draw) for _ in range(int(sys.argv[1])))
    for events in lists:
        print("; ".join(events), "=>", told(outcome(events)))


main()
