#!/usr/bin/env python3
"""held_up.py [--long] [--program PATH] [NAME..]: peers that hold the service up, over real sockets, and how long an honest one waits.
Each case has a service of its own with 4 workers of clients, in which peers hold all workers of a door in one way; meanwhile an honest
client, agent or administrator comes and is to be answered within two seconds (and a quarter, for what the machine takes), or within a
tenth of one where no worker is held. A limit that lets an honest peer go too early fails, too. NAME is a part of a case's name. Two
minutes; with --long also the sixty seconds of an administrator who says nothing and of an agent that never answers, a minute of a
thousand peers, a thousand agents, and a million checks while descriptors run out. It shows what each
case took, and ends with status 1 where one is not as wanted. Linux alone.

With --stops N it stops so many services instead, each in one of the states of the doors, eight at a time."""

import argparse
import os
import subprocess
import sys
import threading
import time

import held_up_agents
import held_up_machine
import held_up_stops
from held_up_peers import (
    AGENT_WORKERS,
    ASKED,
    FREE,
    HELD,
    LIMIT,
    WORKERS,
    Busy,
    Dripping,
    Kept,
    answered,
    asked_once,
    fill,
    honest,
    is_ended,
    obeyed,
    timed,
    wanted,
    wrong,
)
from service import (
    ALLOW,
    JUDGED,
    LISTING,
    QUESTION,
    REGISTER,
    REGISTERED,
    HungUp,
    Link,
    Service,
    check,
    frame,
    room,
    setting,
    texts,
)

# Clients


def clients_with_a_cache_that_nobody_waits_for(service):
    links = asked_once(service, WORKERS - 1)
    for _ in range(4):
        time.sleep(1)
        wanted("a client is answered", timed("honest client", FREE, lambda: answered(service.folder)))
    wanted("idle links stay", all(link.ask(check(ASKED))[1] == JUDGED for link in links))
    last = asked_once(service, 1)[0]
    time.sleep(3.5)
    wanted("the last worker is kept where nobody waits", all(link.is_up() for link in [*links, last]))


def clients_with_a_cache(service):
    kept = asked_once(service, WORKERS)
    honest(service, "client")
    wanted("one was let go", sum(not link.is_up() for link in kept) >= 1)


def clients_with_a_cache_that_stood_in_line(service):
    kept = asked_once(service, WORKERS)
    more = [Link(service.folder, "client") for _ in range(40)]
    for link in more:
        link.send(check(ASKED))
    honest(service, "client")
    wanted("each of the line was answered", sum(link.read()[1] == JUDGED for link in more) == 40)
    del kept


def clients_that_say_nothing(service):
    kept = [Link(service.folder, "client") for _ in range(WORKERS + 40)]
    time.sleep(0.2)
    honest(service, "client")
    del kept


def clients_within_a_frame(service):
    kept = [Link(service.folder, "client") for _ in range(WORKERS + 40)]
    for link in kept:
        link.send(check(ASKED)[:9])
    honest(service, "client")
    del kept


def clients_that_asked_and_are_within_a_frame(service):
    kept = asked_once(service, WORKERS)
    for link in kept:
        link.send(check(ASKED)[:9])
    honest(service, "client")
    del kept


def clients_that_drip(service):
    kept = asked_once(service, WORKERS)
    drip = Dripping(kept, check((b"c" * 250, b"u", b"p")))
    time.sleep(0.3)
    honest(service, "client")
    drip.end()


def client_that_drips_alone(service):
    link = asked_once(service, 1)[0]
    start = time.monotonic()
    drip = Dripping([link], check((b"c" * 250, b"u", b"p")))
    wanted("it is let go", is_ended(link, LIMIT + 1))
    took = time.monotonic() - start
    print(f"  let go after {took:.3f} s")
    wanted("by the limit of a frame", 4.5 <= took <= LIMIT, f"{took:.3f} s")
    drip.end()


def clients_that_do_not_read(service):
    kept = [Link(service.folder, "client") for _ in range(WORKERS)]
    threads = [threading.Thread(target=fill, args=(link, check(ASKED))) for link in kept]
    for thread in threads:
        thread.start()
    time.sleep(1)
    honest(service, "client")
    for thread in threads:
        thread.join()


def clients_that_ask_without_a_pause(service):
    busy = Busy(service, WORKERS)
    time.sleep(0.5)
    honest(service, "client")
    busy.end()


def a_line_of_clients_that_ask_without_a_pause(service):
    busy = Busy(service, WORKERS + 40)
    time.sleep(0.5)
    honest(service, "client")
    busy.end()


def clients_that_come_and_go(service):
    """A client that is slow to ask is not cut off where nobody waits, nor one that asks again behind a pause."""
    with Link(service.folder, "client") as link:
        time.sleep(3.5)
        wanted("a slow client is answered", link.ask(check(ASKED))[1] == JUDGED)
        time.sleep(3.5)
        wanted("and again", link.ask(check(ASKED))[1] == JUDGED)
        data = check(ASKED)
        link.send(data[:5])
        time.sleep(2.5)
        link.send(data[5:])
        wanted("and in two pieces", link.read()[1] == JUDGED)


def a_hundred_clients_that_keep_their_links(service):
    acknowledged, until = [0], time.monotonic() + 12
    clients = [Kept(service, acknowledged, until) for _ in range(100)]
    while time.monotonic() < until:
        acknowledged[0] = service.command(setting(b"", (b"d", b"*", b"p"), ALLOW))
        time.sleep(1.5)
    for client in clients:
        client.thread.join()
    longest = max(client.longest for client in clients)
    print(f"  {sum(client.answers for client in clients)} answers, the longest wait {longest:.3f} s")
    wanted("none waits over four seconds", longest <= 4, f"{longest:.3f} s")
    wanted("none is stale", not sum(client.stale for client in clients))
    wanted("none is lost", not sum(client.lost for client in clients), sum(client.lost for client in clients))


def a_thousand_clients_that_stay(service):
    kept = []
    for _ in range(1000):
        link = Link(service.folder, "client")
        link.send(check(ASKED))
        kept.append(link)
    wanted("a client is answered", timed("honest client", 10, lambda: answered(service.folder)))
    del kept


# Administrators


def administrator_that_says_nothing(service):
    kept = [Link(service.folder, "admin")]
    time.sleep(0.2)
    honest(service, "admin")
    del kept


def administrator_that_asked_and_stays(service):
    kept = Link(service.folder, "admin")
    kept.ask(setting(b"", (b"e", b"*", b"p"), ALLOW))
    time.sleep(3)
    wanted("it stays where nobody waits", kept.is_up())
    honest(service, "admin")
    wanted("it was let go then", not kept.is_up())


def administrator_within_a_frame(service):
    kept = Link(service.folder, "admin")
    kept.send(setting(b"", (b"e", b"*", b"p"), ALLOW)[:9])
    time.sleep(0.2)
    honest(service, "admin")
    del kept


def administrator_that_drips(service):
    kept = Link(service.folder, "admin")
    drip = Dripping([kept], setting(b"", (b"e" * 250, b"*", b"p"), ALLOW))
    time.sleep(0.3)
    honest(service, "admin")
    drip.end()


def administrator_that_does_not_read(service):
    kept = Link(service.folder, "admin")
    thread = threading.Thread(target=fill, args=(kept, frame(1, LISTING, texts((b"", b"#", b"#", b"#")))))
    thread.start()
    time.sleep(1)
    honest(service, "admin")
    thread.join()


def administrator_with_a_long_script(service):
    """The shipped client: its script goes on behind the other's command, and each line of it is obeyed."""
    lines = 20_000
    script = "".join(f"set . c{at % 7} * p {'allow' if at % 2 else 'deny'}\n" for at in range(lines))
    kept = {**os.environ, "PRIVILEGE_DIR": str(service.folder)}
    program = subprocess.Popen([service.path, "admin"], env=kept, stdin=subprocess.PIPE, stdout=subprocess.PIPE, text=True)
    writer = threading.Thread(target=lambda: (program.stdin.write(script), program.stdin.close()))
    writer.start()
    said = []
    reader = threading.Thread(target=lambda: said.append(program.stdout.read()))
    reader.start()
    time.sleep(0.3)
    commands = 0
    while program.poll() is None and commands < 3:
        wanted("administrator is answered", timed("honest administrator", HELD, lambda: obeyed(service.folder)))
        commands += 1
    status = program.wait()
    writer.join()
    reader.join()
    wanted("the script was under way", commands > 1, commands)
    wanted("it ends with 0", status == 0, status)
    wanted("each line was obeyed", said[0].count("ok ") == lines, said[0].count("ok "))


def administrator_for_a_minute(service):
    kept = Link(service.folder, "admin")
    start = time.monotonic()
    wanted("it is let go", is_ended(kept, 70))
    took = time.monotonic() - start
    wanted("after a minute", 59 <= took <= 62, f"{took:.1f} s")
    honest(service, "admin", FREE)


# Agents


def agents_that_say_nothing(service):
    kept = [Link(service.folder, "agent") for _ in range(AGENT_WORKERS)]
    time.sleep(0.2)
    honest(service, "agent")
    del kept


def agents_within_a_frame(service):
    kept = [Link(service.folder, "agent") for _ in range(AGENT_WORKERS)]
    for link in kept:
        link.send(frame(1, REGISTER, b"\0\x0a")[:7])
    time.sleep(0.2)
    honest(service, "agent")
    del kept


def agent_whose_dialog_stays_open(service):
    """An agent may let a person think: nothing of the sockets ends it."""
    service.command(setting(b"", ASKED, 10))
    with Link(service.folder, "agent") as agent, Link(service.folder, "client") as client:
        agent.ask(frame(1, REGISTER, b"\0\x0a"))
        client.send(check(ASKED))
        _, operation, _ = agent.read()
        wanted("it is asked", operation == QUESTION)
        time.sleep(7)
        wanted("it stays", agent.is_up() and client.is_up())
        start = time.monotonic()
        return start


CASES = [
    clients_with_a_cache_that_nobody_waits_for,
    clients_with_a_cache,
    clients_with_a_cache_that_stood_in_line,
    clients_that_say_nothing,
    clients_within_a_frame,
    clients_that_asked_and_are_within_a_frame,
    clients_that_drip,
    client_that_drips_alone,
    clients_that_do_not_read,
    clients_that_ask_without_a_pause,
    a_line_of_clients_that_ask_without_a_pause,
    clients_that_come_and_go,
    a_hundred_clients_that_keep_their_links,
    administrator_that_says_nothing,
    administrator_that_asked_and_stays,
    administrator_within_a_frame,
    administrator_that_drips,
    administrator_that_does_not_read,
    administrator_with_a_long_script,
    agents_that_say_nothing,
    agents_within_a_frame,
    agent_whose_dialog_stays_open,
    *held_up_agents.CASES,
    *held_up_machine.CASES,
    *held_up_stops.CASES,
]
LONG = [a_thousand_clients_that_stay, administrator_for_a_minute, *held_up_agents.LONG, *held_up_machine.LONG]


def tried(case, path):
    print(f"{case.__name__}:", flush=True)
    with room() as folder:
        service = Service(folder, path, WORKERS).start()
        try:
            case(service)
        except (HungUp, TimeoutError, OSError) as error:
            wanted(case.__name__, False, repr(error))
        finally:
            if service.process.poll() is None:
                service.kill()


def main():
    words = argparse.ArgumentParser()
    words.add_argument("--long", action="store_true")
    words.add_argument("--stops", type=int)
    words.add_argument("--program")
    words.add_argument("names", nargs="*")
    given = words.parse_args()
    if given.stops:
        sys.exit(1 if held_up_stops.many(given.stops, given.program) else 0)
    failed = 0
    cases = [*CASES, *LONG] if given.long else CASES
    cases = [case for case in cases if not given.names or any(name in case.__name__ for name in given.names)]
    for case in cases:
        before = len(wrong)
        tried(case, given.program)
        failed += len(wrong) > before
    print(f"{len(cases) - failed} passed, {failed} failed")
    sys.exit(1 if failed else 0)


if __name__ == "__main__":
    main()
