"""Stops of a service in each state of each door, for held_up.py: it is gone within two seconds, with status 0, and so are its sockets."""

import concurrent.futures
import subprocess
import time

from held_up_peers import AGENT_WORKERS, ASKED, HELD, WORKERS, asked_once, fill, timed, wanted
from service import REGISTER, STOP, Link, Service, check, frame, room, setting


def ended(service):
    with Link(service.folder, "admin") as link:
        link.ask(frame(1, STOP))
    try:
        return service.process.wait(20)
    except subprocess.TimeoutExpired:
        return None


def stops(name, hold):
    def case(service):
        kept = hold(service)
        time.sleep(0.2)
        wanted("it ends with 0", timed("stop", HELD, lambda: ended(service)) == 0)
        wanted("no socket is left", not service.left(), service.left())
        del kept

    case.__name__ = f"stop_with_{name}"
    return case


def lines(door, count, data=b""):
    def hold(service):
        links = [Link(service.folder, door) for _ in range(count)]
        for link in links:
            if data:
                link.send(data)
        return links

    return hold


def unread(service):
    kept = [Link(service.folder, "client") for _ in range(WORKERS)]
    for link in kept:
        fill(link, check(ASKED), 1)
    return kept


def agent_that_is_asked(service):
    service.command(setting(b"", ASKED, 10))
    agent, client = Link(service.folder, "agent"), Link(service.folder, "client")
    agent.ask(frame(1, REGISTER, b"\0\x0a"))
    client.send(check(ASKED))
    agent.read()
    return agent, client


def agents_that_registered(service):
    kept = [Link(service.folder, "agent") for _ in range(AGENT_WORKERS)]
    for at, agent in enumerate(kept):
        agent.ask(frame(1, REGISTER, bytes([1, at])))
    return kept


STATES = [
    ("nothing", lambda service: None),
    ("clients_that_stay", lambda service: asked_once(service, WORKERS)),
    ("clients_that_say_nothing", lines("client", WORKERS)),
    ("clients_within_a_frame", lines("client", WORKERS, check(ASKED)[:9])),
    ("clients_that_do_not_read", unread),
    ("a_line_of_clients", lines("client", 100)),
    ("an_agent_that_says_nothing", lines("agent", 1)),
    ("agents_within_a_frame", lines("agent", AGENT_WORKERS, frame(1, REGISTER, b"\0\x0a")[:7])),
    ("a_line_of_agents", lines("agent", 30)),
    ("agents_that_registered", agents_that_registered),
    ("an_agent_that_is_asked", agent_that_is_asked),
    ("an_administrator_that_says_nothing", lines("admin", 1)),
]

CASES = [stops(name, hold) for name, hold in STATES]


def tried_once(number, path):
    """What is wrong with a stop in one of the states, and how long it took."""
    name, hold = STATES[number % len(STATES)]
    with room() as folder:
        service = Service(folder, path, WORKERS).start()
        try:
            kept = hold(service)
            time.sleep(0.1)
            start = time.monotonic()
            status = ended(service)
            took = time.monotonic() - start
            del kept
            if status != 0 or took > HELD or service.left():
                return f"{name}: status {status} after {took:.3f} s, left {service.left()}", took
            return None, took
        except Exception as error:
            return f"{name}: {error!r}", 0.0
        finally:
            if service.process.poll() is None:
                service.kill()


def many(count, path, at_once=8):
    """So many stops, in turn in each of the states, eight at a time. How many were not as wanted."""
    with concurrent.futures.ThreadPoolExecutor(at_once) as pool:
        found = list(pool.map(lambda number: tried_once(number, path), range(count)))
    for fault in [fault for fault, _ in found if fault][:20]:
        print(f"  {fault}")
    longest = max(took for _, took in found)
    failed = sum(fault is not None for fault, _ in found)
    print(f"{count} stops, the longest {longest:.3f} s: {count - failed} passed, {failed} failed")
    return failed
