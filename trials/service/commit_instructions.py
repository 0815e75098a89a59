#!/usr/bin/env python3
"""commit_instructions.py [--program PATH] [--policies N] [--many N]: how many instructions of the program a commit of one policy takes,
beside a bucket of so many policies (65,000) that does not change: the difference of two runs under callgrind, of one commit and of so many
(11). Then the memory of such a service, before and behind as many commits, in KiB as the machine says it. Three minutes. Needs `valgrind`."""

import argparse
import pathlib
import sys
import tempfile

import program
from local_speed import store_of
from service import ALLOW, Service, room, setting
from service_instructions import counted, under_callgrind
from service_load import WORKERS, device_of


def lines_of(policies):
    """A script with a bucket of so many policies, which the root bucket points to."""
    yield "bucket big none"
    for place in range(policies):
        yield f"set big c{place:05} * p{place % 200:03} allow"
    yield "set . * * * bucket:big"


def store_in(folder, policies):
    text = "".join(line + "\n" for line in lines_of(policies)).encode()
    store_of(device_of(text), folder / "store")


def commit_all(service, count):
    for place in range(count):
        service.command(setting(b"", (b"app%d" % place, b"*", b"p000"), ALLOW))


def instructions(path, policies, count):
    with tempfile.TemporaryDirectory() as folder:
        scratch = pathlib.Path(folder)
        wrapped = scratch / "wrapped"
        wrapped.write_text(f'#!/bin/sh\nexec {" ".join(under_callgrind(scratch))} {path} "$@"\n')
        wrapped.chmod(0o755)
        store_in(scratch, policies)
        service = Service(scratch, wrapped, WORKERS).start()
        commit_all(service, count)
        if service.stop() != 0:
            sys.exit("the service does not end well")
        return counted(scratch / "log")


def memory(path, policies, count):
    with room() as folder:
        scratch = pathlib.Path(folder)
        store_in(scratch, policies)
        service = Service(scratch, path, WORKERS).start()
        before = service.said("VmRSS")
        commit_all(service, count)
        behind = service.said("VmRSS")
        if service.stop() != 0:
            sys.exit("the service does not end well")
        return before, behind


def main():
    words = argparse.ArgumentParser(description=__doc__, formatter_class=argparse.RawDescriptionHelpFormatter)
    words.add_argument("--program", default=program.PROGRAM)
    words.add_argument("--policies", type=int, default=65000)
    words.add_argument("--many", type=int, default=11)
    options = words.parse_args()
    one = instructions(options.program, options.policies, 1)
    many = instructions(options.program, options.policies, options.many)
    print(f"a commit: {(many - one) / (options.many - 1) / 1e6:.1f} million instructions", flush=True)
    before, behind = memory(options.program, options.policies, options.many)
    print(f"memory: {before} KiB, behind {options.many} commits {behind}")


if __name__ == "__main__":
    main()
