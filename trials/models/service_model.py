#!/usr/bin/env python3
"""What a service and those that talk with it say to each other, from the definitions: connections are taken in the order in
which they came by as many workers as a door has, a check is answered at the last published state or by an agent, a commit
hangs up who entered before it, and a stop all. It shares nothing with the product. `service_model.py` reads the cases of
`cases_service` and writes each with the answer that is due, `service_model.py threads` those of `cases_threads`."""

import sys

import admin_model
from agent_model import End, shown
from admin_door_model import Disk, Ended, Link, Service, file_of, frame, n1, n2, n4, n8, numbers, result_fields, serve, step_of, text, whole_frame
from frame_model import bytes_in
from server_model import Fault, read
from set_model import Damaged

AGENT_WORKERS = 9


def is_agent(kind):
    return 2 <= kind <= 65533


class Connection:
    """One connection with what was sent on it and not read yet. `open` says whether its client may still send, `served`
    whether the service has neither ended it nor hung it up."""

    def __init__(self, door):
        self.door, self.heard, self.sent = door, b"", b""
        self.open, self.served, self.worked = True, True, False
        self.entered = self.kind = self.asked = self.given = self.ended = None


class Running:
    """One run of the service over a folder."""

    def __init__(self, workers, disk):
        self.service = Service(disk)
        self.free = {"client": workers, "agent": AGENT_WORKERS, "admin": 1}
        self.waiting, self.working = [], []
        # the runs of agents that answer by themselves
        self.beside = []
        # of each kind the questions that were put: the number, the connection, the question and the metadata
        self.agents, self.put, self.next_number = {}, {}, 0
        self.replies = 0
        self.stopped = False

    def dial(self, door):
        connection = Connection(door)
        if self.stopped:
            connection.served = False
        else:
            self.waiting.append(connection)
        self.go_on()
        return connection

    # ---- the workers

    def go_on(self):
        """Goes on until nobody has anything to do. Who entered before the last commit is hung up."""
        while any([self.take_next(), *map(self.work, list(self.working)), *(agent.go_on() for agent in self.beside)]):
            for connection in self.working:
                if connection.door == "client" and connection.entered < self.service.note:
                    connection.served = False

    def take_next(self):
        for connection in self.waiting:
            if self.free[connection.door]:
                self.waiting.remove(connection)
                self.free[connection.door] -= 1
                self.working.append(connection)
                connection.worked = True
                connection.entered = self.service.note
                return True
        return False

    def end(self, connection, ending):
        connection.served, connection.ended = False, ending
        if connection.door == "client" and self.stopped:
            connection.ended = "stopped"
        if connection.door == "client" and connection.entered < self.service.note:
            connection.ended = f"hung:{connection.entered}:{self.service.note}"
        self.working.remove(connection)
        self.free[connection.door] += 1
        if connection.kind is not None:
            del self.agents[connection.kind]
            for number, asker, _, _ in self.put.pop(connection.kind, []):
                self.reply(asker, 0x85, n8(asker.asked[1]) + n4(number))
        return True

    def message(self, connection):
        """The next message that came, or None where there is none yet. Ends the connection where its bytes are at their end."""
        heard = connection.heard
        size = int.from_bytes(heard[:4], "big")
        if len(heard) >= 4 and not 3 <= size <= 1_048_576:
            return self.end(connection, f"bad:{'TooShort' if size < 3 else 'TooLong'}({size})") and None
        if len(heard) < 4 or len(heard) < size + 4:
            return None if connection.open else self.end(connection, at_the_end(heard)) and None
        connection.heard = heard[size + 4 :]
        try:
            return heard[: size + 4], read(connection.door, heard[4 : size + 4])
        except Fault as fault:
            return self.end(connection, f"bad:{fault}") and None

    def work(self, connection):
        """Whether something was done for the connection."""
        if connection not in self.working:
            return False
        return getattr(self, f"work_for_{connection.door}")(connection)

    # ---- clients

    def work_for_client(self, connection):
        if connection.asked:
            return False
        if self.stopped or connection.entered < self.service.note:
            return self.end(connection, "")
        found = self.message(connection)
        if not found:
            return connection not in self.working
        _, (sequence, (_, simple, question)) = found
        desk = self.service.published
        result, cause, key = desk.evaluate(b"", True, question, {})
        if not is_agent(result[0]):
            told = n8(desk.commit) + result_fields(result) + text(cause)
            told += n1(0) if key is None else n1(1) + b"".join(map(text, key))
            self.send(connection, frame(sequence, 0x81, told))
        elif simple:
            self.send(connection, frame(sequence, 0x83, n8(desk.commit) + n2(result[0])))
        elif result[0] not in self.agents:
            self.send(connection, frame(sequence, 0x84, n8(desk.commit) + n2(result[0])))
        else:
            connection.asked = sequence, desk.commit
            self.put.setdefault(result[0], []).append((self.next_number, connection, question, result))
            self.next_number += 1
        return True

    def send(self, connection, reply):
        connection.sent += reply
        self.replies += 1

    def reply(self, asker, operation, fields):
        """What an agent led to. Over a connection that was hung up meanwhile it is sent all the same, and goes nowhere."""
        sequence, _ = asker.asked
        asker.asked = None
        if not self.stopped and asker.entered < self.service.note:
            self.replies += 1
        elif not self.stopped:
            self.send(asker, frame(sequence, operation, fields))

    # ---- agents

    def work_for_agent(self, connection):
        if connection.kind is None:
            found = self.message(connection)
            if not found:
                return connection not in self.working
            _, (sequence, message) = found
            if message[0] != "register":
                return self.end(connection, "bad:BadOperation(33)")
            if self.stopped:
                return self.end(connection, "stopped")
            if message[1] in self.agents:
                connection.sent += frame(sequence, 0xA1, n2(message[1]))
                return self.end(connection, "closed")
            connection.kind, self.agents[message[1]] = message[1], connection
            connection.sent += frame(sequence, 0xA0, n2(message[1]))
            return True
        if connection.given is None:
            return self.give(connection)
        return self.take_answer(connection)

    def give(self, connection):
        """An agent to whom nothing was given is not listened to, but that it left is noticed."""
        if self.stopped:
            return self.end(connection, "stopped")
        waiting = self.put.get(connection.kind, [])
        if not waiting:
            return False if connection.open else self.end(connection, "closed")
        number, _, question, result = waiting[0]
        connection.given = number
        fields = n4(number) + b"".join(map(text, question)) + result_fields(result)
        connection.sent += frame(number % 65536, 0xA2, fields)
        return True

    def take_answer(self, connection):
        found = self.message(connection)
        if not found:
            return connection not in self.working
        _, (sequence, message) = found
        if message[0] != "answer":
            return self.end(connection, "bad:BadOperation(32)")
        _, number, allowed = message
        waiting = self.put.get(connection.kind, [])
        if number == connection.given and waiting and waiting[0][0] == number:
            _, asker, _, result = waiting.pop(0)
            self.reply(asker, 0x82, n8(asker.asked[1]) + n2(result[0]) + n4(number) + n1(allowed))
        else:
            connection.sent += frame(sequence, 0xA3, n4(number))
        if number == connection.given:
            connection.given = None
        return True

    # ---- administrators

    def work_for_admin(self, connection):
        try:
            whole = whole_frame(connection.heard)
        except Ended as ended:
            return self.end(connection, str(ended).replace(" ", ":"))
        if whole is None:
            return False if connection.open else self.end(connection, at_the_end(connection.heard))
        connection.heard = connection.heard[len(whole) :]
        step = step_of(whole[6], whole[7:])
        for operation, fields in self.service.answer(step):
            connection.sent += frame(int.from_bytes(whole[4:6], "big"), operation, fields)
        if step == ("stop",):
            self.stop()
        return True

    def stop(self):
        """Clients are hung up, the administrator has its answer, and an agent is told of a question that waits no more; one
        of whom the registration is awaited is waited for."""
        self.stopped = True
        for connection in list(self.working):
            if connection.given is not None:
                connection.sent += frame(connection.given % 65536, 0xA4, n4(connection.given))
                connection.given = None
            if connection.door != "agent" or connection.kind is not None and connection.given is None:
                self.end(connection, "stopped")
        for connection in self.waiting:
            connection.served = False
        self.waiting = []


class AgentRun:
    """The run of an agent that answers each question alike, until its link ends: how it ends, and what it writes."""

    def __init__(self, running, kind, allowed):
        self.link, self.allowed, self.written, self.frames = running.dial("agent"), allowed, "", 0
        self.link.heard += frame(0, 0x20, n2(kind))
        running.beside.append(self)
        running.go_on()

    def go_on(self):
        """Whether there was a frame to follow."""
        if not self.link.sent:
            return False
        reply = bytes.fromhex(frame_of(self.link))
        self.frames += 1
        fields = reply[7:]
        if reply[6] == 0xA1:
            self.written += f"taken {int.from_bytes(fields, 'big')}\n"
        if reply[6] == 0xA2:
            number, rest, names = int.from_bytes(fields[:4], "big"), fields[4:], []
            for _ in range(3):
                name, rest = text_in(rest)
                names.append(name)
            metadata, _ = text_in(rest[2:])
            self.written += f"question {number} {' '.join(names)} agent:{int.from_bytes(rest[:2], 'big')}:{metadata}\n"
            self.link.heard += frame(int.from_bytes(reply[4:6], "big"), 0x21, n4(number) + n1(self.allowed))
        return True

    def told(self):
        return f"agent 0 {shown(self.written.encode())}"


class People:
    """Those who talk with a run of the service: links by name, a client that keeps its answers, administrators, and an agent
    that runs beside them."""

    def __init__(self, running):
        self.running, self.links, self.told = running, {}, []
        self.link, self.kept, self.least, self.sequence = None, {}, 0, 0
        self.agent = None

    def talk(self, steps):
        first, _, rest = steps.partition("|")
        words, _, last = rest.partition("|")
        self.do_steps(first)
        if words.strip():
            kind, answer = words.split()
            self.agent = AgentRun(self.running, int(kind), answer == "allow")
        self.do_steps(last)
        for link in [*self.links.values(), self.link]:
            if link:
                link.open = False
        self.running.go_on()
        if not self.running.stopped:
            self.running.service.stop()
            self.running.stop()
        return [*self.told, self.agent.told()] if self.agent else self.told

    def do_steps(self, steps):
        for step in steps.split(";"):
            self.step(*step.strip().partition(" ")[::2])

    def step(self, word, rest):
        match word:
            case "":
                pass
            case "client" | "admin" | "agent":
                self.links[rest] = self.running.dial(word)
            case "check" | "simple":
                self.told.append(self.check(word == "simple", tuple(letter.encode() for letter in rest)))
            case "tell":
                self.least = max(self.least, int(rest))
            case "do":
                self.told.append(self.command(rest))
            case "answered":
                if self.running.replies < int(rest):
                    raise SystemExit(f"never answered: {rest}")
            case "heard":
                # a frame is received in two pieces
                if 2 * self.agent.frames < int(rest):
                    raise SystemExit(f"never heard: {rest}")
            case _:
                self.use(word[:-1], word[-1], rest)

    def use(self, name, what, rest):
        link = self.links[name]
        if what == ">":
            link.heard += bytes_in(rest)
        elif what == "-":
            link.open = False
            del self.links[name]
        else:
            self.told.append(frame_of(link))
        self.running.go_on()

    # ---- a client that keeps its answers

    def check(self, simple, question):
        if self.link and not self.link.served:
            self.link, self.kept = None, {}
        kept = self.kept.get(question)
        if kept and kept[0] >= self.least:
            return kept[1]
        self.link = self.link or self.running.dial("client")
        self.link.heard += frame(self.sequence, 2 if simple else 1, b"".join(map(text, question)))
        self.sequence += 1
        self.running.go_on()
        reply = frame_of(self.link)
        if reply == "end":
            return "Unavailable"
        return self.answer(question, bytes.fromhex(reply))

    def answer(self, question, reply):
        commit = int.from_bytes(reply[7:15], "big")
        if commit < self.least:
            self.link.open, self.link, self.kept = False, None, {}
            self.running.go_on()
            return f"Older {{ told: {self.least}, got: {commit} }}"
        kind, number = int.from_bytes(reply[15:17], "big"), int.from_bytes(reply[17:21], "big")
        of_kind = f"commit: {commit}, kind: Kind({kind})"
        match reply[6]:
            case 0x81:
                told = f"Judged {commit} {kind}"
                self.kept[question] = commit, told
                return told
            case 0x82:
                return f"FromAgent {{ {of_kind}, number: {number}, allowed: {'true' if reply[21] else 'false'} }}"
            case 0x83:
                return f"NotResolved {{ {of_kind} }}"
            case 0x84:
                return f"NoAgent {{ {of_kind} }}"
            case 0x85:
                return f"AgentGone {{ commit: {commit}, number: {int.from_bytes(reply[15:19], 'big')} }}"

    # ---- a script of one line, sent by the command `admin`

    def command(self, line):
        operation, fields = admin_model.message(line)
        link = self.running.dial("admin")
        link.heard += frame(0, operation, fields)
        self.running.go_on()
        status, lines = 0, []
        try:
            lines = admin_model.answer(operation, admin_model.Link(link.sent), 0)
        except End as end:
            status = end.args[0]
        link.open = False
        self.running.go_on()
        return f"{status} {shown(''.join(f'{each}{chr(10)}' for each in lines).encode())}"


def at_the_end(heard):
    return f"cut:{len(heard)}" if heard else "closed"


def frame_of(link):
    """The next frame that was sent over the link, in digits, or `end`. It is an error to wait for one that never comes."""
    if link.sent:
        size = int.from_bytes(link.sent[:4], "big") + 4
        reply, link.sent = link.sent[:size], link.sent[size:]
        return reply.hex()
    if link.served:
        raise SystemExit("nothing comes over a link that is read")
    return "end"


def text_in(fields):
    """The text at the front of these fields, and the fields behind it."""
    size = int.from_bytes(fields[:2], "big")
    return fields[2 : 2 + size].decode(), fields[2 + size :]


# ---- cases as lines


def served(workers, fails, runs):
    disk, told = Disk(fails=fails), []
    for steps in runs.split("/"):
        before = disk.faults
        running = Running(workers, disk)
        told += People(running).talk(steps)
        told.append(f"status {6 if disk.faults > before else 0} replies {running.replies}")
    return " ".join(told)


def served_in_memory(fails, net_fails, connections):
    """Over a net whose doors are used up behind these links, which makes the net's count rise."""
    disk, told = Disk(fails=fails), []
    try:
        service = Service(disk)
    except (Damaged, Exception):
        return "status 6 replies 0"
    if not net_fails:
        for words in connections.split("|"):
            if words.strip() == "-":
                continue
            link = Link(bytes_in(words))
            # behind a stop nobody is served any more: what a link sends then is not read
            if not service.stops:
                serve(service, link)
                told.append(link.sent.hex() or "-")
    return " ".join([*told, f"status {6 if disk.faults else 7} replies 0"])


def on_threads(line):
    """Two clients, an agent and an administrator, each served once."""
    files, steps = line.split("|")
    words = [] if files.strip() == "-" else files.split()
    running = Running(2, Disk(map(file_of, words)))
    people = People(running)
    links = {name: running.dial(door) for name, door in (("x", "client"), ("y", "client"), ("a", "agent"), ("m", "admin"))}
    people.links = dict(links)
    for step in steps.split(";"):
        people.step(*step.strip().partition(" ")[::2])
    for link in links.values():
        link.open = False
    running.go_on()
    return " ".join([*people.told, *(f"{name} {link.ended}" for name, link in links.items())])


def with_answer(line):
    if line == "" or line.startswith("#"):
        return line
    word, rest = line.split(" ", 1)
    if word == "memory":
        _, fails, net_fails, connections = rest.split(" ", 3)
        return f"{line} => {served_in_memory(numbers(fails), numbers(net_fails), connections)}"
    workers, _, fails, runs = rest.split(" ", 3)
    return f"{line} => {served(int(workers), numbers(fails), runs)}"


if __name__ == "__main__":
    for line in sys.stdin:
        line = line.rstrip("\n")
        if sys.argv[1:] == ["threads"] and line and not line.startswith("#"):
            print(f"{line} => {on_threads(line)}")
        else:
            print(with_answer(line))
