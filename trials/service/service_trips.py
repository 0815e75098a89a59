#!/usr/bin/env python3
"""service_trips.py [--peer PATH] [--program PATH] [--trips PATH]: times what a launcher waits for, at one service, in turn:
- a check by `cynara_client`, whose answer is not kept, beside the round trip of a bare client (`service_load.c`, or `PEER load`
  where its program is named): the middle of many, of which at most 1.15 of the other's is wanted;
- the command `check`, beside a bare client that is started for one question.
A minute, beside the build of `client_trips.rt.txt`, which `--trips` names where it is built. Prints the middle of the rounds, and
ends with status 1 where one is not as wanted. Needs `rt` and `gcc`."""

import argparse
import os
import pathlib
import statistics
import subprocess
import sys
import time

import program
from local_speed import store_of
from service import Service, room
from service_load import WORKERS, Loader, device_of
from trial_crate import built

USES = ["anyhow", "cynara_keys", "cynara_client", "host_ports", "socket_net"]
ROUNDS, COUNT, STARTS, SECONDS = 9, 10_000, 100, 1
MOST = 1.15


def bare_trip(loader, path, peer):
    """The microseconds of the middle round trip of a bare client."""
    if not peer:
        return loader.ask(path, 1, 1, SECONDS)[1]
    words = [peer, "load", path, "1", str(2 * COUNT), "1", loader.script]
    said = subprocess.run(words, check=True, stdout=subprocess.PIPE).stdout.decode().split()
    return float(said[said.index("p50_us") + 1])


def client_trip(trips, folder):
    said = subprocess.run([trips, folder, str(COUNT)], check=True, stdout=subprocess.PIPE).stdout
    return statistics.median(map(int, said.split())) / 1000


def command_time(words, folder, wanted):
    """The middle of the milliseconds of a run for one question."""
    kept, times = {**os.environ, "PRIVILEGE_DIR": str(folder)}, []
    for _ in range(STARTS):
        start = time.monotonic()
        done = subprocess.run(words, env=kept, stdin=subprocess.DEVNULL, stdout=subprocess.PIPE)
        times.append(time.monotonic() - start)
        if done.returncode or wanted not in done.stdout:
            sys.exit(f"{words} ends with {done.returncode}: {done.stdout}")
    return statistics.median(times) * 1000


def compare(service, loader, trips, options):
    path, folder = service.folder / "client.socket", service.folder
    bare, own = [], []
    for _ in range(ROUNDS):
        bare.append(bare_trip(loader, path, options.peer))
        own.append(client_trip(trips, folder))
    quotient = statistics.median(one / other for one, other in zip(own, bare))
    print(f"a check by the client: {statistics.median(own):.2f} us, a bare round trip: {statistics.median(bare):.2f} us, {quotient:.2f}")
    command = [service.path, "check", loader.first[0], b"session", loader.first[1], loader.first[2]]
    one = [loader.tool, "load", path, "1", "0", "1", loader.frames]
    started = command_time(command, folder, b"allow"), command_time(one, folder, b"")
    print(f"the command `check`: {started[0]:.2f} ms, a bare client that is started: {started[1]:.2f} ms, {started[0] / started[1]:.2f}")
    return quotient <= MOST


def main():
    words = argparse.ArgumentParser(description=__doc__, formatter_class=argparse.RawDescriptionHelpFormatter)
    for word in "--peer", "--program", "--trips":
        words.add_argument(word, type=pathlib.Path)
    options = words.parse_args()
    if not options.program:
        program.build()
    with room() as name:
        scratch = pathlib.Path(name)
        trips = options.trips or built(scratch, "client_trips", USES)
        loader = Loader(scratch)
        folder = scratch / "service"
        store_of(device_of(loader.script.read_bytes()), folder / "store")
        service = Service(folder, options.program, WORKERS).start()
        try:
            is_fast = compare(service, loader, trips, options)
        finally:
            service.kill()
    sys.exit(0 if is_fast else 1)


if __name__ == "__main__":
    main()
