"""The ten tasks of an administrator of GUIDE.md, each timed. ten_tasks [ROUNDS]

On a service with 200 packages and 10 users; each round runs all commands of a task, and the median is told in milliseconds.
PROGRAM and PRIVCTL name other programs."""

import os
import pathlib
import statistics
import subprocess
import sys
import tempfile
import time

import program

PROGRAM = pathlib.Path(os.environ.get("PROGRAM", program.PROGRAM)).resolve()
PRIVCTL = pathlib.Path(os.environ.get("PRIVCTL", program.TOP / "crates/privctl/out/privctl")).resolve()
CAMERA, CLIENT = "http://tizen.org/privilege/camera", "User::Pkg::org.p7"
TASKS = {
    "may this application use the camera now": f"$privctl may {CLIENT} 5001 {CAMERA}",
    "who may use the camera": f"$privctl who {CAMERA}",
    "why was this denied": f"$privctl explain {CLIENT} 5003 {CAMERA}",
    "take it from guests": f"echo 'set USER_TYPE_GUEST * * {CAMERA} deny' | $privilege admin",
    "let a user be asked": f"$privctl level set 5001 {CLIENT} {CAMERA} ask",
    "what will this script change": "$privctl plan script",
    "move the device to another machine": "$privctl export >device.script && rm -rf other && mkdir other && PRIVILEGE_DIR=other $privilege local <device.script",
    "what is on the device": "$privctl users && $privctl apps",
    "is the service well": "$privctl status",
    "who was denied today": "$privctl log --result deny --since 2026-12-01 watched",
}


def device():
    yield "layout"
    for at in range(10):
        yield f"user {5000 + at} {('system', 'admin', 'normal', 'guest')[at % 4]}"
    for at in range(200):
        yield f"install org.p{at} - org.p{at} * http://tizen.org/privilege/internet {CAMERA} http://tizen.org/privilege/p{at}"


def main():
    rounds = int(sys.argv[1]) if len(sys.argv) > 1 else 21
    with tempfile.TemporaryDirectory(dir=program.ROOM) as folder:
        room = pathlib.Path(folder)
        around = {**os.environ, "PRIVILEGE_DIR": folder, "privctl": str(PRIVCTL), "privilege": str(PROGRAM)}
        service = subprocess.Popen([PROGRAM, "serve", "4"], env=around, stderr=subprocess.DEVNULL)
        while not (room / "admin.socket").exists():
            time.sleep(0.01)
        given = "".join(line + "\n" for line in device()).encode()
        subprocess.run([PROGRAM, "admin"], input=given, capture_output=True, env=around, check=True)
        (room / "script").write_text(f"unset USER_TYPE_GUEST * * {CAMERA}\n")
        (room / "watched").write_text("".join(
            f"monitor 0 {at} {('allow', 'deny')[at % 2]} 9 {CLIENT} 5001 {CAMERA} 2026-12-01T08:00:00.{at % 1000:03}Z policy MANIFESTS default\n" for at in range(10_000)))
        for task, commands in TASKS.items():
            times = []
            for _ in range(rounds):
                start = time.perf_counter()
                done = subprocess.run(["sh", "-c", commands], cwd=room, env=around, stdout=subprocess.DEVNULL, check=False)
                times.append(time.perf_counter() - start)
                if done.returncode:
                    sys.exit(f"{task}: status {done.returncode}")
            print(f"{task}: {statistics.median(times) * 1000:.0f} ms")
        subprocess.run([PROGRAM, "admin"], input=b"stop\n", capture_output=True, env=around, check=False)
        service.wait(timeout=30)


main()
