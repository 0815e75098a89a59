#!/usr/bin/env python3
"""The cases of trials/cases/link_cases with the answers that are wanted, by a model of its own of links, diallers, doors and nets in
memory. `link_model.py stdin` writes the cases, and `link_model.py stdout` the cases with their answers."""
import itertools
import sys


class Link:
    """Bytes to come, a number of calls after which it reads as closed, and the calls that are to fail."""

    def __init__(self, to_come="ab", closed_after=9, fails=()):
        self.to_come, self.closed_after, self.fails = to_come, closed_after, fails
        self.received = self.sent = ""
        self.made = 0
        self.hung = False
        self.hand_out()

    def hand_out(self):
        self.faults = self.ends = 0
        self.ended = self.down = False

    def call(self, call):
        closed = self.hung or self.made >= self.closed_after
        self.made += 1
        if self.made in self.fails:
            self.faults += 1
            if call == "l":
                self.down = True
                return "-"
            return "!"
        if call == "s":
            self.sent += "x"
            return "+"
        if call == "r":
            count = 0 if closed else min(2, len(self.to_come))
            self.received += self.to_come[:count]
            self.to_come = self.to_come[count:]
            self.ended |= count == 0
            return str(count)
        if call == "z":
            return "0"
        if call == "l":
            self.down |= closed
            return "-" if closed else "+"
        self.ends += 1
        return "+"

    def trouble(self):
        return self.ends == 0 and (self.faults > 0 or self.ended or self.down)


class Back:
    """What was given back. What was never handed out has no room, and is let go."""

    def __init__(self):
        self.items, self.out = [], 0

    def keep(self, item):
        if self.out:
            self.out -= 1
            self.items.append(item)


def backs(back):
    return f" back {len(back.items)}" + "".join(f" {len(link.received)}/{len(link.sent)}" for link in back.items)


class Stock:
    """A dialler or a door: links in order, and the calls that are to fail."""

    def __init__(self, count, fails, kind=""):
        self.links = [Link() for _ in range(count)]
        self.fails, self.kind = fails, kind
        self.made = self.faults = 0
        self.back = Back()

    def take(self):
        self.made += 1
        if self.made in self.fails or not self.links:
            self.faults += 1
            return None
        self.back.out += 1
        link = self.links.pop(0)
        link.hand_out()
        return link

    def call(self, call, held, counts_trouble):
        if call in "da":
            link = self.take()
            if link:
                held.append(link)
            return "+" if link else "!"
        if call == "g":
            if not held:
                return "?"
            link = held.pop()
            self.faults += counts_trouble and link.trouble()
            self.back.keep(link)
            return ""
        if call == "f":
            self.back.keep(Link())
            return ""
        return held[-1].call(call) if held else "?"


def numbers(word):
    return [int(part) for part in word.split(",") if part != "-"]


def link_case(to_come, closed_after, fails, calls):
    link = Link("" if to_come == "-" else to_come, int(closed_after), numbers(fails))
    out = ""
    has_end = False
    for call in calls:
        if call == "h":
            link.hung |= has_end
            out += "h "
            continue
        answer = link.call(call)
        has_end |= call == "e" and answer == "+"
        out += f"{call}{answer} "
    marks = (" ended" if link.ended else "") + (" down" if link.down else "")
    return f"{out}| faults {link.faults} ends {link.ends}{marks} | {link.received} | {link.sent}"


def stock_case(verb, count, fails, calls):
    stock, held = Stock(int(count), numbers(fails)), []
    out = "".join(f"{call}{stock.call(call, held, verb == 'dial')} " for call in calls)
    dials = f" dials {stock.made}" if verb == "dial" else ""
    return f"{out}| faults {stock.faults}{dials}{backs(stock.back)}"


def net_case(client, admin, agent, fails, calls):
    kinds = ["client", "admin", "agent"]
    links = {kind: [Link() for _ in range(int(count))] for kind, count in zip(kinds, [client, admin, agent])}
    fails = numbers(fails)
    held, doors, closed, back = [], [], [], Back()
    made = faults = dials = 0
    out = ""
    for call in calls:
        answer = ""
        if call in "cmt":
            kind = kinds["cmt".index(call)]
            made, dials = made + 1, dials + 1
            if made in fails or not links[kind]:
                faults, answer = faults + 1, "!"
            else:
                back.out += 1
                held.append(links[kind].pop(0))
                answer = "+"
        elif call in "CMT":
            kind = kinds["CMT".index(call)]
            made += 1
            if made in fails:
                faults, answer = faults + 1, "!"
            else:
                door = Stock(0, [], kind)
                door.links, links[kind] = links[kind], []
                doors.append(door)
                answer = "+"
        elif call == "G":
            if held:
                link = held.pop()
                faults += link.trouble()
                back.keep(link)
            else:
                answer = "?"
        elif call == "x":
            if doors:
                door = doors.pop()
                faults += door.faults > 0
                closed.append(door)
            else:
                answer = "?"
        elif call == "k":
            pass
        elif doors:
            answer = doors[-1].call(call, held, False)
        else:
            answer = held[-1].call(call) if held else "?"
        out += f"{call}{answer} "
    shut = "".join(f" {door.kind}{backs(door.back)}" for door in closed)
    return f"{out}| faults {faults} dials {dials}{backs(back)}{shut}"


def cases():
    yield "# every order of calls of a link up to four"
    for length in range(1, 5):
        for calls in itertools.product("srzle", repeat=length):
            yield f"link abcd 9 - {''.join(calls)}"
    yield "# each call failing in turn"
    for call in "srzle":
        for fails in ["1", "2", "3", "1,2", "1,2,3"]:
            yield f"link abcd 9 {fails} {call * 3}"
    for fails in ["1", "2", "3", "4", "5", "2,4"]:
        yield f"link abcd 9 {fails} srzle"
        yield f"link abcd 9 {fails} lersr"
    yield "# a link that closes after so many calls"
    for closed_after in range(6):
        for calls in ["rrrr", "llll", "srlesrl", "zzzr", "eser", "srsrsr"]:
            yield f"link abcdef {closed_after} - {calls}"
    yield f"link abcd {2**64 - 1} - rrr"
    yield "link abcd 1 2 rll"
    yield "link abcd 1 2 rrr"
    yield "# nothing to come"
    for calls in ["r", "rl", "rs", "zr", "lr"]:
        yield f"link - 9 - {calls}"
    yield "# hung up"
    for calls in ["hrl", "ehrl", "erhrl", "ehs", "ehz", "eehl", "ehle", "rehrl", "elhl", "esrhsrl"]:
        yield f"link abcd 9 - {calls}"
    yield "link abcd 9 1 ehrl"
    yield "link abcd 9 3 ehrl"
    yield "# a dialler"
    for calls in ["d", "dd", "dg", "dsg", "drg", "drrg", "dlg", "derrg", "ddgg", "ddd", "dddgg", "drrgdg", "f", "df", "dfg", "fdg", "dsrgdsrrg"]:
        yield f"dial 2 - {calls}"
    for fails in ["1", "2", "3", "1,2,3", "1,2"]:
        yield f"dial 3 {fails} dddd"
        yield f"dial 3 {fails} dgdgdrrg"
    yield "dial 0 - dd"
    yield "dial 1 - ddlllllllllg"
    yield "# a door"
    for calls in ["a", "aa", "ag", "arrg", "aerrg", "aagg", "aaa", "aaag", "f", "afg", "asrgasrrg"]:
        yield f"door 2 - {calls}"
    for fails in ["1", "2", "3", "1,2,3"]:
        yield f"door 3 {fails} aaaa"
        yield f"door 3 {fails} agagarrg"
    yield "door 0 - aa"
    yield "# a net"
    for calls in [
        "c", "cmt", "cc", "cG", "crrG", "cerrG", "cCa", "Ccx", "Cax", "Caax", "Caaax", "CCax", "CMTxxx", "Cagx", "CagMagTagxxx", "CarrgxcG",
        "kkk", "Ckax", "x", "G", "cCaagGx", "MagMax", "TaggTx", "CaefgGx",
    ]:
        yield f"net 2 1 1 - {calls}"
    for fails in ["1", "2", "3", "4", "1,2"]:
        yield f"net 2 2 2 {fails} cCmM"
        yield f"net 2 2 2 {fails} CaggxcTax"
    yield "net 0 0 0 - cmtCax"
    yield "# no case"
    yield "link abcd x - s"
    yield "link abcd"


def answer(line):
    words = line.split(" ")
    if words[0] == "link" and len(words) == 5 and words[2].isdigit():
        return link_case(*words[1:])
    if words[0] in ("dial", "door") and len(words) == 4:
        return stock_case(*words)
    if words[0] == "net" and len(words) == 6:
        return net_case(*words[1:])
    return "no such case"


for line in cases():
    print(line if sys.argv[1] == "stdin" or line.startswith("#") else f"{line}: {answer(line)}")
