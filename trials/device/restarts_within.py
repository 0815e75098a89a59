#!/usr/bin/env python3
"""Runs on a machine on which systemd runs and the package is installed: restarts the service in each way, and asks
behind each.

    restarts_within.py [ROUNDS [PACKAGES]]

It begins the units, sets up a device of so many packages, and then stops, kills and starts the service, so many
rounds for each way. Behind each it measures how long it takes until a user of each group can do what he may. A user
of one group, and one of none, tries each door all along: none may ever open another door than his. It ends with 0
where all did so within two seconds."""
import os
import signal
import socket
import subprocess
import sys
import time

ROUNDS = int(sys.argv[1]) if len(sys.argv) > 1 else 20
PACKAGES = int(sys.argv[2]) if len(sys.argv) > 2 else 200
# Under emulation everything takes longer: the limit is a setting, so that the outcome says which one was kept.
LIMIT = float(os.environ.get("LIMIT", "2"))
DIRECTORY = "/run/privilege"
DOORS = ["client", "admin", "agent"]
STRANGER = 7009
problems = []


def problem(text):
    problems.append(text)
    print(f"PROBLEM: {text}", flush=True)


def call(*words, text=None, user=None):
    """The status and the output of a command, for a user of that group alone, or for root."""
    if user is not None:
        words = ["setpriv", f"--reuid={STRANGER}", f"--regid={user}", "--clear-groups", *words]
    env = {**os.environ, "PRIVILEGE_DIR": DIRECTORY}
    run = subprocess.run(words, input=text or "", capture_output=True, text=True, env=env, timeout=600)
    return run.returncode, run.stdout.strip()


def groups():
    """The number of the group of each door, and of one that has none."""
    found = {}
    for door in DOORS:
        status, line = call("getent", "group", f"privilege-{door}")
        found[door] = int(line.split(":")[2])
    return {**found, "none": STRANGER}


def opened(group):
    """The doors that a user of that group can open now; None for a door that nobody can, since no service is behind it."""
    reading, writing = os.pipe()
    child = os.fork()
    if child == 0:
        os.setgroups([])
        os.setgid(group)
        os.setuid(STRANGER)
        said = ""
        for door in DOORS:
            try:
                with socket.socket(socket.AF_UNIX) as link:
                    link.settimeout(2)
                    link.connect(f"{DIRECTORY}/{door}.socket")
                said += "y"
            except PermissionError:
                said += "n"
            except OSError:
                said += "-"
        os.write(writing, said.encode())
        os._exit(0)
    os.close(writing)
    said = os.read(reading, 10).decode()
    os.close(reading)
    os.waitpid(child, 0)
    return said


def look(of):
    """Whether each user can open his door; it is a problem where one can open another."""
    good = True
    for name, group in of.items():
        said = opened(group)
        for door, it in zip(DOORS, said):
            if it == "y" and door != name:
                problem(f"a user of {name} opened the door of {door}")
        if name != "none" and said[DOORS.index(name)] != "y":
            good = False
    return good


def ask(of, number):
    """Each user does what he may: the client asks, the administrator asks, the agent registers."""
    client = call("privilege", "simple", "User::Pkg::pkg1", "s", "5001", "p1", user=of["client"])
    if client != (0, f"allow {number} MANIFESTS User::Pkg::pkg1 * p1"):
        return f"client {client}"
    admin = call("privilege", "admin", text="check User::Pkg::pkg1 5001 none-such\n", user=of["admin"])
    if admin != (0, f"deny {number} MANIFESTS default"):
        return f"administrator {admin}"
    for door in ["admin", "agent", "none"]:
        got = call("privilege", "simple", "User::Pkg::pkg1", "s", "5001", "p1", user=of[door])
        if got[0] != 7 or got[1]:
            return f"a user of {door} asked as a client: {got}"
    for door in ["client", "agent", "none"]:
        got = call("privilege", "admin", text="check User::Pkg::pkg1 5001 p1\n", user=of[door])
        if got[0] != 7 or got[1]:
            return f"a user of {door} asked as an administrator: {got}"
    reading, writing = os.pipe()
    child = os.fork()
    if child == 0:
        os.setgroups([])
        os.setgid(of["agent"])
        os.setuid(STRANGER)
        said = b""
        with socket.socket(socket.AF_UNIX) as link:
            link.settimeout(2)
            link.connect(f"{DIRECTORY}/agent.socket")
            link.sendall(bytes.fromhex("0000000500012000" + "0a"))
            while len(said) < 9:
                got = link.recv(9 - len(said))
                if not got:
                    break
                said += got
        os.write(writing, said)
        os._exit(0)
    os.close(writing)
    said = os.read(reading, 100)
    os.close(reading)
    os.waitpid(child, 0)
    if said != bytes.fromhex("000000050001a0000a"):
        return f"agent {said.hex()}"
    return None


def main_process():
    return int(call("systemctl", "show", "-p", "MainPID", "--value", "privilege")[1] or 0)


def until_served(of, number, begun, way):
    """How long it took until all could do what they may."""
    while not look(of):
        if time.monotonic() - begun > 10 * LIMIT:
            problem(f"{way}: nobody can connect: {call('systemctl', 'status', '--no-pager', 'privilege')[1]}")
            return 10 * LIMIT
        time.sleep(0.02)
    took = time.monotonic() - begun
    wrong = ask(of, number)
    if wrong:
        problem(f"{way}: {wrong}")
    if took > LIMIT:
        problem(f"{way}: it took {took:.2f} s")
    return took


def silent_peers():
    links = []
    for door in DOORS:
        link = socket.socket(socket.AF_UNIX)
        link.connect(f"{DIRECTORY}/{door}.socket")
        links.append(link)
    return links


def by_signal(number):
    def way(of, commit):
        process = main_process()
        begun = time.monotonic()
        os.kill(process, number)
        while os.path.exists(f"/proc/{process}"):
            look(of)
        took = until_served(of, commit, begun, signal.Signals(number).name)
        if main_process() in (0, process):
            problem("the unit has no new process")
        return took, None

    return way


def by_stop(peers):
    def way(of, commit):
        links = silent_peers() if peers else []
        begun = time.monotonic()
        if call("systemctl", "stop", "privilege")[0]:
            problem("systemctl stop failed")
        stopped = time.monotonic() - begun
        if look(of) or main_process():
            problem("the service is there behind systemctl stop")
        time.sleep(0.5)
        if main_process():
            problem("systemctl stop did not keep it down")
        for link in links:
            link.close()
        begun = time.monotonic()
        if call("systemctl", "start", "privilege")[0]:
            problem("systemctl start failed")
        started = time.monotonic() - begun
        if not look(of):
            problem("a unit that has started is not served")
        return max(started, until_served(of, commit, begun, "stop and start")), stopped

    return way


def by_administrator(of, commit):
    process = main_process()
    begun = time.monotonic()
    if call("privilege", "admin", text="stop\n", user=of["admin"]) != (0, f"ok {commit}"):
        problem("stop by an administrator failed")
    while os.path.exists(f"/proc/{process}"):
        look(of)
    return until_served(of, commit, begun, "stop by an administrator"), None


def main():
    for words in [
        ["systemd-sysusers"],
        ["systemd-tmpfiles", "--create", "privilege.conf"],
        ["systemctl", "daemon-reload"],
        ["systemctl", "enable", "--now", "privilege-smack", "privilege"],
    ]:
        status, said = call(*words)
        if status:
            problem(f"{words} ended with {status}: {said}")
            print(call("journalctl", "--no-pager", "-o", "cat", "-u", "privilege-smack", "-u", "privilege")[1], flush=True)
    of = groups()
    script = "layout\nuser 5001 admin\n"
    script += "".join(f"install pkg{at} - app{at} * p{at % 7} q{at % 5}\n" for at in range(PACKAGES))
    status, said = call("privilege", "admin", text=script, user=of["admin"])
    commit = PACKAGES + 2
    if status or said.splitlines()[-1] != f"ok {commit}":
        problem(f"the device could not be set up: {status} {said[-200:]}")
    print(f"a store of {PACKAGES} packages, {ROUNDS} rounds of each; the limit is {LIMIT} s", flush=True)
    ways = [
        ("kill -KILL", by_signal(signal.SIGKILL)),
        ("kill -TERM", by_signal(signal.SIGTERM)),
        ("kill -INT", by_signal(signal.SIGINT)),
        ("kill -HUP", by_signal(signal.SIGHUP)),
        ("systemctl stop, start", by_stop(False)),
        ("the same with a silent peer at each door", by_stop(True)),
        ("stop by an administrator", by_administrator),
    ]
    for name, way in ways:
        before = len(problems)
        took, stops = [], []
        for _ in range(ROUNDS):
            served, stopped = way(of, commit)
            took.append(served)
            stops += [stopped] if stopped is not None else []
        line = f"{name}: {ROUNDS} times, served behind {min(took):.2f} to {max(took):.2f} s"
        if stops:
            line += f", stopped behind {min(stops):.2f} to {max(stops):.2f} s"
        print(f"{line}; {len(problems) - before} problems", flush=True)
    print(f"{len(problems)} problems", flush=True)
    return 1 if problems else 0


sys.exit(main())
