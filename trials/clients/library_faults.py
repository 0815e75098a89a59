#!/usr/bin/env python3
"""library_faults.py [--core FILE]: what libprivilege does where the machine or the service gives it nothing.
- Memory: a driver asks an echo, and each request for memory fails in turn, alone and with all later ones. Wanted are right answers, or
  PRIVILEGE_MEMORY, or no handle, and nothing else.
- Time: a service that is silent, one that gives a byte now and then, one whose line is full. Each call has to end at its limit.
- Rights: a socket that this user may not open (where root tries it).
Ends with status 1 where one is not as wanted. Needs gcc, and libclient_c.a, which `rt lib` makes in crates/client_c. Linux alone."""

import argparse
import contextlib
import ctypes
import os
import pathlib
import socket
import subprocess
import sys
import tempfile
import threading
import time

import program
from library_build import TOP, built_library
from library_cost import echo_at

HERE = pathlib.Path(__file__).resolve().parent
LIMIT, SLACK = 0.3, 1.5
CALLS = b"".join(b"%s c%d s u p\n" % (word, at % 3) for at, word in enumerate((b"check", b"ask", b"simple") * 4))
CALLS += b"leave\ncheck c0 s u p\n"
RIGHT, NO_MEMORY = "0 65535 7 0 0 . MANIFESTS User::Pkg::org.tizen.example1 * http://tizen.org/privilege/camera", "2 0 0 0 0 . ."


def no_memory(scratch, options):
    """How many requests for memory were refused, and what was wrong then."""
    library = built_library(scratch, options.core)
    words = ["gcc", "-std=c11", "-O2", "-I", library / "include", HERE / "library_driver.c"]
    subprocess.run([*words, library / "lib" / "libprivilege.a", "-o", scratch / "driver"], check=True)
    shim = scratch / "fail_alloc.so"
    subprocess.run(["gcc", "-O2", "-shared", "-fPIC", "-o", shim, TOP / "trials" / "lib" / "fail_alloc.c", "-ldl"], check=True)
    path, counted, wrong = scratch / "echo.socket", scratch / "count", []
    echo = echo_at(scratch, path)
    try:
        def run(**kept):
            kept = {**os.environ, "LD_PRELOAD": str(shim), "FAIL_ALLOC_COUNT": str(counted), **kept}
            done = subprocess.run([scratch / "driver", path, "5000", "2"], input=CALLS, stdout=subprocess.PIPE, env=kept)
            return done.returncode, [line for line in done.stdout.decode().splitlines() if line != "0"]

        if run() != (0, [RIGHT] * 13):
            wrong.append(f"with ample memory: {run()}")
        most = int(counted.read_text())
        for at in range(1, most + 1):
            for more in {}, {"FAIL_ALLOC_ON": "1"}:
                status, lines = run(FAIL_ALLOC=str(at), **more)
                if status not in (0, 1) or not set(lines) <= {RIGHT, NO_MEMORY} or (status == 0 and len(lines) != 13):
                    wrong.append(f"request {at} {more}: status {status}, {lines}")
    finally:
        echo.kill()
    return most, wrong


@contextlib.contextmanager
def door(path, serve):
    """A door whose connections are served so, each by a thread, or not accepted at all (None)."""
    with socket.socket(socket.AF_UNIX) as own:
        own.bind(str(path))
        own.listen(0)

        def accept_all():
            with contextlib.suppress(OSError):
                while True:
                    threading.Thread(target=serve, args=own.accept(), daemon=True).start()

        if serve:
            threading.Thread(target=accept_all, daemon=True).start()
        yield
        own.shutdown(socket.SHUT_RDWR)


def silent(link, _):
    time.sleep(10)
    link.close()


def drips(link, _):
    """A byte now and then of a reply that is longer than the patience of anyone."""
    with contextlib.suppress(OSError):
        for byte in b"\0\0\1\0" + b"\0" * 252:
            link.sendall(bytes([byte]))
            time.sleep(0.05)


def in_time(what, call, wanted, privilege):
    """What is wrong with how the call ends."""
    start = time.monotonic()
    try:
        call()
        found = privilege.Error.OK
    except privilege.PrivilegeError as error:
        found = error.error
    took = time.monotonic() - start
    late = wanted == privilege.Error.TIMEOUT and not LIMIT * 0.9 <= took <= LIMIT + SLACK
    return [f"{what}: {found!r} after {took:.2f} s"] if found != wanted or late else []


def limits(scratch, privilege):
    wrong, timeout = [], privilege.Error.TIMEOUT
    names = "c", "s", "u", "p"
    for at, serve in enumerate((silent, drips, None)):
        path = scratch / f"{at}.socket"
        with door(path, serve):
            line = []
            if not serve:
                # The line holds one or two; then connecting waits.
                for _ in range(8):
                    link = socket.socket(socket.AF_UNIX)
                    link.setblocking(False)
                    with contextlib.suppress(BlockingIOError):
                        link.connect(str(path))
                    line.append(link)
            said = serve.__name__ if serve else "a full line"
            client, admin = privilege.Client(path, LIMIT), privilege.Admin(path, LIMIT)
            wrong += in_time(f"check, {said}", lambda: client.check(*names), timeout, privilege)
            wrong += in_time(f"check again, {said}", lambda: client.simple_check(*names), timeout, privilege)
            wrong += in_time(f"list, {said}", lambda: admin.list(""), timeout, privilege)
            wrong += in_time(f"register, {said}", lambda: privilege.Agent(10, path, LIMIT), timeout, privilege)
            for link in line:
                link.close()
    return wrong


def rights(scratch, privilege):
    """Another user finds the sockets shut."""
    if os.geteuid():
        return []
    path = scratch / "shut.socket"
    scratch.chmod(0o755)
    with door(path, silent):
        path.chmod(0o600)
        os.seteuid(65534)
        try:
            calls = {"check": lambda: privilege.Client(path).check("c", "s", "u", "p"), "erase": lambda: privilege.Admin(path).erase("")}
            return [it for what, call in calls.items() for it in in_time(what, call, privilege.Error.FORBIDDEN, privilege)]
        finally:
            os.seteuid(0)


def main():
    words = argparse.ArgumentParser(description=__doc__, formatter_class=argparse.RawDescriptionHelpFormatter)
    words.add_argument("--core", type=pathlib.Path)
    options = words.parse_args()
    with tempfile.TemporaryDirectory(dir=program.ROOM) as name:
        scratch = pathlib.Path(name)
        library = built_library(scratch, options.core)
        # The module finds by its name what is loaded already.
        ctypes.CDLL(str(library / "lib" / "libprivilege.so.0"))
        sys.path.insert(0, str(TOP / "clients" / "python"))
        import privilege

        count, wrong = no_memory(scratch, options)
        wrong += limits(scratch, privilege) + rights(scratch, privilege)
    print(*wrong, f"{count} requests for memory refused, each alone and with all later ones; {len(wrong)} otherwise", sep="\n")
    sys.exit(bool(wrong))


if __name__ == "__main__":
    main()
