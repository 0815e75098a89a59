"""privctl while the device changes. meanwhile COUNT

A writer sets and unsets one policy without a pause, so that a question is allowed at odd commits and denied at even ones. So many
explanations are asked for meanwhile: each that ends with 0 says what is right at its commit, and each other one that the device changed.
PROGRAM and PRIVCTL name other programs."""

import os
import pathlib
import subprocess
import sys
import tempfile
import threading
import time

import program

PROGRAM = pathlib.Path(os.environ.get("PROGRAM", program.PROGRAM)).resolve()
PRIVCTL = pathlib.Path(os.environ.get("PRIVCTL", program.TOP / "crates/privctl/out/privctl")).resolve()
QUESTION = ["c", "5001", "p"]


def write(room, ended, pause):
    """Sets the policy at each odd commit, and takes it out at each even one."""
    around = {**os.environ, "PRIVILEGE_DIR": str(room)}
    commits = 0
    while not ended.is_set():
        lines = b"".join(b"set . c 5001 p allow\n" if (commits + at) % 2 == 0 else b"unset . c 5001 p\n" for at in range(4))
        done = subprocess.run([PROGRAM, "admin"], input=lines, capture_output=True, env=around, check=False)
        commits += done.stdout.count(b"ok ")
        time.sleep(pause)
    print(f"{commits} commits")


def main():
    count, told_of = int(sys.argv[1]), [0, 0]
    with tempfile.TemporaryDirectory(dir=program.ROOM) as folder:
        room = pathlib.Path(folder)
        around = {**os.environ, "PRIVILEGE_DIR": str(room)}
        service = subprocess.Popen([PROGRAM, "serve", "4"], env=around, stderr=subprocess.DEVNULL)
        while not (room / "admin.socket").exists():
            time.sleep(0.01)
        ended = threading.Event()
        writer = threading.Thread(target=write, args=(room, ended, 0.0))
        writer.start()
        for _ in range(count):
            done = subprocess.run([PRIVCTL, "explain", "--timeout", "60", *QUESTION], capture_output=True, env=around, check=False)
            lines = done.stdout.splitlines()
            result, _, _, commit = lines[0].split(b",")[0].split(b" ")
            if result != (b"allow" if int(commit) % 2 else b"deny"):
                sys.exit(f"wrong: {lines!r}")
            if (done.returncode == 0) != lines[-1].startswith(b"The service was asked too") or done.returncode not in (0, 3):
                sys.exit(f"wrong: {done.returncode} {lines!r}")
            told_of[done.returncode != 0] += 1
        ended.set()
        writer.join()
        subprocess.run([PROGRAM, "admin"], input=b"stop\n", capture_output=True, env=around, check=False)
        service.wait(timeout=30)
    print(f"{told_of[0]} explanations, {told_of[1]} times the device changed eight times")


main()
