"""What a machine does to a service, and others who were there before it, for held_up.py: descriptors and threads run out, an `accept` fails
for good, standard output is not read, and something else stands in a socket's place."""

import os
import pathlib
import resource
import signal
import socket
import subprocess
import threading
import time

from held_up_peers import AGENT_WORKERS, ASKED, FREE, HELD, WORKERS, answered, asked_once, obeyed, timed, wanted
from held_up_stops import ended
from service import JUDGED, REGISTER, REGISTERED, TAKEN, HungUp, Link, Service, check, frame

HERE = pathlib.Path(__file__).resolve().parent
# How soon a line is on standard error, or a service that cannot go on ends.
SOON = 2


def want_of_descriptors(service):
    limits = resource.prlimit(service.process.pid, resource.RLIMIT_NOFILE)
    for _ in range(1):
        used = len(os.listdir(f"/proc/{service.process.pid}/fd"))
        resource.prlimit(service.process.pid, resource.RLIMIT_NOFILE, (used, limits[1]))
        waiting = [Link(service.folder, door) for door in ("client",) * 2 * WORKERS + ("agent",) * AGENT_WORKERS + ("admin",)]
        time.sleep(0.5)
        resource.prlimit(service.process.pid, resource.RLIMIT_NOFILE, limits)
        for link in waiting:
            link.close()
        time.sleep(0.3)
        # Each worker works: each is held once.
        kept = [Link(service.folder, "client", 5) for _ in range(WORKERS)]
        wanted("each worker answers", all(link.ask(check(ASKED))[1] == JUDGED for link in kept))
        for link in kept:
            link.close()
        agents = [Link(service.folder, "agent", 5) for _ in range(AGENT_WORKERS)]
        kinds = [agent.ask(frame(1, REGISTER, bytes([1, at])))[1] for at, agent in enumerate(agents)]
        # One more than may have a kind: it is told so.
        wanted("each worker of agents answers", kinds == [REGISTERED] * (AGENT_WORKERS - 1) + [TAKEN], kinds)
        wanted("an administrator is answered", obeyed(service.folder))
        break
    honest_client = timed("honest client", FREE, lambda: answered(service.folder))
    wanted("a client is answered", honest_client)


def idle_cost(service):
    """64 workers of clients, all held by idle links or none, and 9 of agents, that wait."""
    service.stop()
    service = Service(service.folder, service.path, 64).start()
    try:
        for name, count in ("no link", 0), ("63 idle links", 63), ("64 idle links", 64):
            kept = asked_once(service, count)
            time.sleep(2.5)
            start, used = time.monotonic(), spent(service)
            time.sleep(5)
            part = (spent(service) - used) / (time.monotonic() - start)
            print(f"  {name}: {part * 100:.3f} of 100 of a processor")
            wanted(f"{name}: a thousandth", part <= 0.001, f"{part:.5f}")
            for link in kept:
                link.close()
            time.sleep(0.3)
    finally:
        service.stop()


def spent(service):
    """The processor time of all its threads, in seconds."""
    tasks = pathlib.Path(f"/proc/{service.process.pid}/task").iterdir()
    return sum(int((task / "schedstat").read_text().split()[0]) for task in tasks) / 1e9


# Sockets of others


def link_in_place_of_the_private_folder(service):
    service.stop()
    elsewhere = service.folder / "elsewhere"
    elsewhere.mkdir()
    (elsewhere / "s").write_text("kept")
    (service.folder / ".sockets").symlink_to(elsewhere)
    status = refused(service)
    wanted("it is refused", status == 7, status)
    wanted("nothing was removed", (elsewhere / "s").read_text() == "kept" and (service.folder / ".sockets").is_symlink())


def refused(service):
    kept = {**os.environ, "PRIVILEGE_DIR": str(service.folder)}
    words = [service.path, "serve", str(WORKERS)]
    try:
        return subprocess.run(words, env=kept, stdin=subprocess.DEVNULL, capture_output=True, timeout=20).returncode
    except subprocess.TimeoutExpired:
        return None


def socket_of_another_program_at_the_start(service):
    service.stop()
    path = service.folder / "client.socket"
    with socket.socket(socket.AF_UNIX) as other:
        other.bind(str(path))
        other.listen()
        status = refused(service)
        wanted("it is refused", status == 7, status)
        with socket.socket(socket.AF_UNIX) as peer:
            peer.connect(str(path))
    wanted("it stays", path.is_socket())


def socket_of_another_program_at_the_stop(service):
    path = service.folder / "client.socket"
    path.unlink()
    with socket.socket(socket.AF_UNIX) as other:
        other.bind(str(path))
        other.listen()
        wanted("it ends", timed("stop", HELD, lambda: ended(service)) == 0)
        with socket.socket(socket.AF_UNIX) as peer:
            peer.connect(str(path))
    wanted("it stays", path.is_socket())


# Threads, descriptors, an accept that fails


def said(service):
    return (service.folder / "errors").read_text()


def is_said(service, line):
    """Whether standard error has the line soon."""
    until = time.monotonic() + SOON
    while time.monotonic() < until:
        if line in said(service):
            return True
        time.sleep(0.01)
    return False


def threads_that_cannot_be_made(service):
    """With so little address space that some workers have no thread: it ends with 1 and says so, and serves nobody."""
    service.stop()
    found = []
    for size in 16, 32, 64, 128, 256, 384, 512, 640, 768, 1024, 2048:
        words = ["prlimit", f"--as={size << 20}", service.path, "serve", "64"]
        kept = {**os.environ, "PRIVILEGE_DIR": str(service.folder)}
        run = subprocess.Popen(words, env=kept, stdin=subprocess.DEVNULL, stdout=subprocess.DEVNULL, stderr=subprocess.PIPE, text=True)
        try:
            _, errors = run.communicate(timeout=10)
            found.append((size, run.returncode, "not every worker has a thread" in errors))
            wanted(f"{size} MiB: it is not ready", "ready" not in errors, errors)
            wanted(f"{size} MiB: it ends with 1", run.returncode == 1, run.returncode)
        except subprocess.TimeoutExpired:
            # With so much space it serves.
            with Link(service.folder, "client") as link:
                wanted("it serves where it does not end", link.ask(check(ASKED))[1] == JUDGED)
            run.send_signal(signal.SIGKILL)
            _, errors = run.communicate()
            wanted("and says so", "ready" in errors, errors)
            break
        wanted("no socket is left", not service.left(), service.left())
    print(f"  {found}")
    wanted("some runs lacked threads", any(short for _, _, short in found), found)


def listeners(service):
    """The inodes of its listening sockets, in the order in which they were made: administrators', clients', agents'."""
    rows = [row.split() for row in pathlib.Path("/proc/net/unix").read_text().splitlines()[1:]]
    listening = {row[6] for row in rows if int(row[3], 16) & 0x10000}
    found = []
    for descriptor in sorted(os.listdir(f"/proc/{service.process.pid}/fd"), key=int):
        target = os.readlink(f"/proc/{service.process.pid}/fd/{descriptor}")
        inode = target[8:-1] if target.startswith("socket:[") else None
        if inode in listening and inode not in found:
            found.append(inode)
    return found


def with_failing_accepts(service, doors):
    """The status of a service, and how soon it ends, once the accepts of these doors fail for good."""
    service.stop()
    shim = service.folder / "failing_accepts.so"
    subprocess.run(["gcc", "-shared", "-fPIC", "-o", shim, HERE / "failing_accepts.c", "-ldl"], check=True)
    control = service.folder / "failing"
    control.write_text("")
    service = Service(service.folder, service.path, WORKERS, LD_PRELOAD=str(shim), FAILING_ACCEPTS=str(control)).start()
    try:
        inodes = dict(zip(("admin", "client", "agent"), listeners(service), strict=True))
        control.write_text("\n".join(inodes[door] for door in doors))
        start = time.monotonic()
        # Each worker accepts once more.
        for door in doors:
            for _ in range(2 * WORKERS):
                try:
                    Link(service.folder, door, 0.2).close()
                except HungUp:
                    pass
        try:
            status = service.process.wait(10)
        except subprocess.TimeoutExpired:
            status = None
        return service, status, time.monotonic() - start
    finally:
        if service.process.poll() is None:
            service.kill()


def no_worker_of_clients(service):
    service, status, took = with_failing_accepts(service, ("client",))
    print(f"  ended with {status} after {took:.3f} s")
    wanted("it ends with 7", status == 7, status)
    wanted("soon", took <= HELD, f"{took:.3f} s")
    wanted("it says why", "no worker of clients is left" in said(service), said(service))
    wanted("no socket is left", not service.left(), service.left())


def no_worker_of_administrators(service):
    service, status, took = with_failing_accepts(service, ("admin",))
    print(f"  ended with {status} after {took:.3f} s")
    wanted("it ends with 7", status == 7, status)
    wanted("soon", took <= HELD, f"{took:.3f} s")
    wanted("it says why", "the worker of administrators ended" in said(service), said(service))
    wanted("no socket is left", not service.left(), service.left())


def no_worker_of_agents(service):
    service, status, _ = with_failing_accepts(service, ("agent",))
    wanted("it goes on", status is None, status)
    wanted("it says why", "a worker of agents ended" in said(service), said(service))


def descriptors_that_run_out_each_second(service, seconds=12, checks=40_000):
    """Checks over links that come and go, while there are no descriptors for half of each second."""
    limits = resource.prlimit(service.process.pid, resource.RLIMIT_NOFILE)
    over, counts = [False], [0, 0]

    def ask():
        data = check(ASKED) * 50
        while not over[0]:
            try:
                with Link(service.folder, "client", 5) as link:
                    for _ in range(20):
                        link.send(data)
                        for _ in range(50):
                            counts[0] += link.read()[1] == JUDGED
            except (HungUp, TimeoutError):
                counts[1] += 1

    threads = [threading.Thread(target=ask) for _ in range(8)]
    for thread in threads:
        thread.start()
    until = time.monotonic() + seconds
    while time.monotonic() < until or counts[0] < checks:
        used = len(os.listdir(f"/proc/{service.process.pid}/fd"))
        resource.prlimit(service.process.pid, resource.RLIMIT_NOFILE, (used, limits[1]))
        time.sleep(0.5)
        resource.prlimit(service.process.pid, resource.RLIMIT_NOFILE, limits)
        time.sleep(0.5)
    over[0] = True
    for thread in threads:
        thread.join()
    print(f"  {counts[0]:,} checks, {counts[1]:,} links ended")
    time.sleep(0.3)
    kept = [Link(service.folder, "client", 5) for _ in range(WORKERS)]
    wanted("each worker answers", all(link.ask(check(ASKED))[1] == JUDGED for link in kept))
    for link in kept:
        link.close()
    wanted("an administrator is answered", obeyed(service.folder))
    wanted("it ends with 0", ended(service) == 0)


def a_million_checks_while_descriptors_run_out(service):
    descriptors_that_run_out_each_second(service, 60, 1_000_000)


# `watch`


def watched(service):
    service.stop()
    (service.folder / "output").write_text("")
    return Service(service.folder, service.path, WORKERS, "watch").start()


def lines_come_without_an_administrator(service):
    service = watched(service)
    with Link(service.folder, "client") as link:
        for count in 1, 2, 3:
            link.ask(check(ASKED, count))
            time.sleep(0.3)
            lines = (service.folder / "output").read_text().splitlines()
            wanted(f"{count} checks have {count} lines", len(lines) == count, lines)
    wanted("it ends with 0", ended(service) == 0)


def a_hundred_thousand_checks_have_their_lines(service):
    service = watched(service)
    with Link(service.folder, "client") as link:
        for _ in range(1_000):
            link.send(check(ASKED) * 100)
            for _ in range(100):
                link.read()
    time.sleep(0.3)
    lines = (service.folder / "output").read_text().count("monitor ")
    print(f"  {lines:,} lines")
    wanted("each has its line", lines == 100_000, lines)
    wanted("it ends with 0", ended(service) == 0)


def standard_output_that_nobody_reads(service):
    """Checks are answered, commands obeyed, and the missed ones told of at once."""
    service.stop()
    kept = {**os.environ, "PRIVILEGE_DIR": str(service.folder)}
    with open(service.folder / "errors", "wb") as errors:
        run = subprocess.Popen([service.path, "watch", "4"], env=kept, stdin=subprocess.DEVNULL, stdout=subprocess.PIPE, stderr=errors)
    service.process = run
    wanted("it is ready", is_said(service, "ready"))
    with Link(service.folder, "client") as link:
        for _ in range(200):
            link.send(check(ASKED) * 100)
            for _ in range(100):
                wanted("a check is answered", link.read()[1] == JUDGED)
    wanted("a person is told", is_said(service, "checks are missed"), said(service))
    wanted("an administrator is answered", timed("honest administrator", FREE, lambda: obeyed(service.folder)))
    wanted("a client is answered", timed("honest client", FREE, lambda: answered(service.folder)))
    reader = threading.Thread(target=run.stdout.read)
    reader.start()
    wanted("it ends with 0 once it is read", ended(service) == 0)
    reader.join()


CASES = [
    want_of_descriptors,
    descriptors_that_run_out_each_second,
    threads_that_cannot_be_made,
    no_worker_of_clients,
    no_worker_of_administrators,
    no_worker_of_agents,
    link_in_place_of_the_private_folder,
    socket_of_another_program_at_the_start,
    socket_of_another_program_at_the_stop,
    lines_come_without_an_administrator,
    a_hundred_thousand_checks_have_their_lines,
    standard_output_that_nobody_reads,
    idle_cost,
]
LONG = [a_million_checks_while_descriptors_run_out]
