#!/usr/bin/env python3
"""Boots an emulated machine with Smack, and tries the program in it.

    machine.py FOLDER rules [QUESTIONS [SEED]]   the kernel's decisions beside the program's: 400 questions at each of 13 steps
    machine.py FOLDER cuts [CUTS [SEED]]         power cuts while a service commits: 50
    machine.py FOLDER systemd [ROUNDS [PACKAGES]] the units as they stand, under systemd and Smack: 3 rounds of
                                                  restarts_within.py over 200 packages; LIMIT is in seconds

FOLDER/kernel is what trials/device/build made. It needs qemu-system-x86_64, busybox-static, cpio, flock and, for the
cuts, mkfs.ext4; for systemd the machine boots this machine's own files, to be read alone, so it has to have systemd,
and root runs it. PROGRAM is the built program, with the C library that it needs taken from this machine. ACCEL=kvm
has the processor do what else is emulated (tcg). It ends with 0 where nothing was wrong."""
import gzip
import os
import random
import re
import shutil
import socket
import subprocess
import sys
import tempfile
import time

HERE = os.path.dirname(os.path.realpath(__file__))
TOP = os.path.dirname(os.path.dirname(HERE))
PROGRAM = os.environ.get("PROGRAM", f"{TOP}/crates/privilege_cli/out/privilege_cli")
ACCEL = os.environ.get("ACCEL", "tcg")
problems = []


def problem(text):
    problems.append(text)
    print(f"PROBLEM: {text}", flush=True)


def put(source, place):
    os.makedirs(os.path.dirname(place), exist_ok=True)
    shutil.copy2(source, place)


def initial_files(room, kernel_words, extra):
    """The files that the machine begins with, packed: busybox, the installed program with its library, and the
    trial's own."""
    root = f"{room}/root"
    shutil.rmtree(root, ignore_errors=True)
    for name in ["proc", "sys", "dev", "run", "tmp", "sbin", "usr/bin", "usr/sbin", "etc", "var/lib"]:
        os.makedirs(f"{root}/{name}")
    put(shutil.which("busybox"), f"{root}/bin/busybox")
    env = {**os.environ, "DESTDIR": root, "PROGRAM": PROGRAM}
    subprocess.run([f"{TOP}/packaging/install"], check=True, env=env)
    shutil.rmtree(f"{root}/usr/share")
    put(shutil.which("flock"), f"{root}/usr/bin/flock")
    for binary in [PROGRAM, shutil.which("flock")]:
        said = subprocess.run(["ldd", binary], capture_output=True, text=True, check=True).stdout
        for place in re.findall(r"(/\S+)", said):
            put(place, root + place)
    shutil.copytree(f"{HERE}/within", f"{root}/within")
    put(f"{HERE}/restarts_within.py", f"{root}/within/restarts_within.py")
    for name, text in extra.items():
        with open(f"{root}/within/{name}", "w", encoding="ascii") as it:
            it.write(text)
    shutil.move(f"{root}/within/init", f"{root}/init")
    os.chmod(f"{root}/init", 0o755)
    names = subprocess.run(["find", ".", "-print0"], cwd=root, capture_output=True, check=True).stdout
    packed = subprocess.run(["cpio", "--quiet", "-0", "-o", "-H", "newc"], cwd=root, input=names, capture_output=True, check=True)
    with open(f"{room}/initial", "wb") as it:
        it.write(gzip.compress(packed.stdout, 1))
    return kernel_words


class Machine:
    """A running machine: its console goes to a file, and its second line is a socket."""

    def __init__(self, folder, room, words, more=(), memory=512, processors=1):
        self.console = f"{room}/console"
        line = f"{room}/line"
        if os.path.exists(line):
            os.remove(line)
        self.run = subprocess.Popen(
            ["qemu-system-x86_64", "-accel", ACCEL, "-cpu", "max", "-smp", str(processors), "-m", str(memory), "-nodefaults", "-display", "none",
             "-no-reboot", "-kernel", f"{folder}/kernel", "-initrd", f"{room}/initial",
             "-append", f"console=ttyS0 quiet panic=-1 {words}",
             "-serial", f"file:{self.console}", "-serial", f"unix:{line},server=on,wait=off", *more]
        )
        self.link, self.rest = socket.socket(socket.AF_UNIX), b""
        until = time.monotonic() + 20
        while self.link.connect_ex(line):
            if time.monotonic() > until:
                raise TimeoutError("the emulator offers no line")
            time.sleep(0.02)

    def line(self, seconds):
        """The next line that the machine writes to its second line, or None where none comes in that time."""
        until = time.monotonic() + seconds
        while b"\n" not in self.rest:
            left = until - time.monotonic()
            if left <= 0:
                return None
            self.link.settimeout(left)
            try:
                got = self.link.recv(65536)
            except TimeoutError:
                return None
            if not got:
                return None
            self.rest += got
        line, _, self.rest = self.rest.partition(b"\n")
        return line.decode("ascii", "replace").rstrip("\r")

    def say(self, text):
        try:
            self.link.sendall(text.encode("ascii"))
        except OSError:
            problem(f"the machine has ended: {self.said()[-500:]}")

    def cut(self):
        """The power goes: what the machine had in its memory is gone."""
        self.run.kill()
        self.run.wait()
        self.link.close()

    def said(self):
        with open(self.console, errors="replace") as it:
            return it.read()


def device_script(packages):
    lines = ["layout", "user 5001 admin", "user 5002 guest"]
    for at in range(packages):
        author = f"author{at % 4}" if at % 3 else "-"
        if at % 5 == 0:
            lines += [f"hybrid pkg{at} {author} app{at} * p{at}", f"hybrid pkg{at} {author} second{at} 5001 p{at}"]
        else:
            lines.append(f"install pkg{at} {author} app{at} * p{at}")
    return lines


def rules(folder, room, count, seed):
    random.seed(seed)
    packages = 24
    device = device_script(packages)
    labels = ["_", "^", "*", "System", "User", "User::Home", "System::Run", "Nobody"]
    for at in range(packages + 1):
        labels += [f"User::Pkg::pkg{at}", f"User::Pkg::pkg{at}::RO", f"User::Pkg::pkg{at}::App::app{at}"]
    labels += [f"User::Author::author{at}" for at in range(4)]
    # Half of the questions are about pairs that have rules.
    near = []
    for at in range(packages):
        process = f"User::Pkg::pkg{at}::App::app{at}" if at % 5 == 0 else f"User::Pkg::pkg{at}"
        near += [("System", process), ("User", process), (process, "System"), (process, "User"), (process, "User::Home")]
        near += [("System", f"User::Pkg::pkg{at}"), (process, f"User::Pkg::pkg{at}"), (process, f"User::Pkg::pkg{at}::RO")]
        near.append((process, f"User::Author::author{at % 4}"))
    questions = []
    for at in range(count):
        subject, object_ = random.choice(near) if at % 2 else (random.choice(labels), random.choice(labels))
        modes = "".join(random.sample("rwxatl", random.choice([1, 1, 1, 2, 2, 3, 6])))
        questions.append(f"{subject} {object_} {modes}")
    extra = {
        "device": "\n".join(device) + "\n",
        "questions": "\n".join(questions) + "\n",
        "labels": "\n".join(it for it in labels if it not in "_^*") + "\n",
        "steps": "remove app7 *\ninstall pkg7 author3 app7 * p7\n",
        "package_steps": "pkg8 remove app8 *\npkg8 install pkg8 author0 app8 * p8\npkg5 remove second5 5001\npkg5 convert pkg5 plain\n"
        "pkg5 convert pkg5 hybrid\npkg8 remove app8 *\npkg8 install pkg8 author0 app8 * p8\npkg7 remove app7 *\n"
        "pkg7 install pkg7 author3 app7 * p7\n",
        "template": "template\n~PROCESS~ User::Home rwxl\n~PROCESS~ User::Home - w\nUser ~AUTHOR~ r\n~PROCESS~ ~AUTHOR~ w -\nSystem ~PATH_RO~ a\nend\n",
    }
    words = initial_files(room, "trial=rules", extra)
    begun = time.monotonic()
    machine = Machine(folder, room, words)
    machine.run.wait(timeout=1800)
    said = machine.said()
    print(said.replace("\r", ""), end="")
    print(f"in {time.monotonic() - begun:.0f} s, the boot with it")
    done = re.search(r"DONE: (\d+) questions, (\d+) problems", said)
    if not done or done[2] != "0" or "PROBLEM" in said:
        problem("the machine's own")


def command_of(number):
    """The command that is commit `number`."""
    if number == 1:
        return "layout"
    if number <= 40:
        return f"install pkg{number} - app{number} * p"
    return f"set . c{number % 23} * p{number % 3} " + ("allow" if number % 4 < 2 else "deny")


def rows_at(number):
    root = {}
    if number:
        root["*", "*", "*"] = "bucket:MAIN"
    for at in range(41, number + 1):
        words = command_of(at).split()
        root[words[2], words[3], words[4]] = words[5]
    rows = [f"row {' '.join(key)} {root[key]}" for key in sorted(root)]
    grants = sorted(f"User::Pkg::pkg{at}" for at in range(2, min(number, 40) + 1))
    return [*rows, f"rows {len(rows)}", *[f"row {it} * p allow" for it in grants], *([f"rows {len(grants)}"] if number else [])]


def found_state(machine):
    """The number of the last commit, and what the service lists."""
    machine.say("check nobody 1 nothing\n")
    number = int((machine.line(60) or "none -1").split()[1])
    machine.say("list . # # #\n" + ("list MANIFESTS # # #\n" if number else ""))
    lines, ends = [], 0
    while ends < (2 if number else 1):
        line = machine.line(60)
        if line is None:
            return number, lines
        lines.append(line)
        ends += line.startswith("rows")
    return number, lines


def cuts(folder, room, count, seed):
    random.seed(seed)
    disk = f"{room}/disk"
    with open(disk, "wb") as it:
        it.truncate(64 << 20)
    subprocess.run(["mkfs.ext4", "-q", disk], check=True)
    words = initial_files(room, "trial=cuts", {})
    drive = ["-drive", f"file={disk},if=virtio,format=raw,cache=writeback"]
    acknowledged, asked, under_way, commits, boots, begun = 0, 0, 0, 0, 0, time.monotonic()
    for cut in range(count + 1):
        # Under emulation on a busy machine a boot can fail before it comes to the disk: then it is cut, and boots again.
        for _ in range(4):
            machine = Machine(folder, room, words, drive)
            line = machine.line(120)
            while line is not None and line != "ready":
                line = machine.line(120)
            if line is not None or "store" in machine.said():
                break
            machine.cut()
            boots += 1
        if line is None:
            problem(f"behind cut {cut} the service does not begin: {machine.said()[-500:]}")
            machine.cut()
            return
        number, rows = found_state(machine)
        if not acknowledged <= number <= asked:
            problem(f"behind cut {cut}: commit {number}, and {acknowledged} was acknowledged and {asked} asked for")
        if rows != rows_at(number):
            problem(f"behind cut {cut}: the state is not that of commit {number}")
        under_way += number > acknowledged
        if cut % 10 == 0 and cut:
            print(f"{cut} cuts in {time.monotonic() - begun:.0f} s, under {commits} commits", flush=True)
        acknowledged = asked = number
        if cut == count:
            machine.cut()
            break
        # The next command is sent when the last one was acknowledged; the power goes at a random moment, mostly within a commit.
        until = time.monotonic() + random.uniform(0.05, 4)
        while True:
            asked += 1
            machine.say(command_of(asked) + "\n")
            line = machine.line(until - time.monotonic())
            if line is None:
                break
            if line != f"ok {asked}":
                problem(f"command {asked} was answered {line}")
            acknowledged = asked
            commits += 1
        machine.cut()
        if "PROBLEM" in machine.said():
            problem(machine.said()[-300:])
    took = time.monotonic() - begun
    print(f"{count} cuts in {took:.0f} s, under {commits} commits, and {boots} boots that failed; behind {under_way} cuts the commit"
          " under way was there", flush=True)


def systemd(folder, room, rounds, packages):
    """The machine's files are those of this one, to be read, with what is installed and written in memory over them."""
    words = initial_files(room, f"trial=systemd rounds={rounds} packages={packages} limit={os.environ.get('LIMIT', '2')}", {})
    share = ["-fsdev", "local,id=files,path=/,security_model=none,readonly=on,multidevs=remap",
             "-device", "virtio-9p-pci,fsdev=files,mount_tag=files"]
    begun = time.monotonic()
    machine = Machine(folder, room, words, share, memory=2048, processors=2)
    while True:
        line = machine.line(1200)
        if line is None:
            break
        print(line, flush=True)
        if re.fullmatch(r"\d+ problems", line):
            break
    if line != "0 problems":
        problem(f"the machine's own: {machine.said()[-2000:]}")
    machine.cut()
    print(f"in {time.monotonic() - begun:.0f} s, the boot with it", flush=True)


def main():
    folder, what = sys.argv[1], sys.argv[2]
    numbers = [int(it) for it in sys.argv[3:]]
    with tempfile.TemporaryDirectory() as room:
        if what == "rules":
            rules(folder, room, *(numbers + [400, 1][len(numbers):]))
        elif what == "cuts":
            cuts(folder, room, *(numbers + [50, 1][len(numbers):]))
        elif what == "systemd":
            systemd(folder, room, *(numbers + [3, 200][len(numbers):]))
        else:
            sys.exit(__doc__)
    print(f"{len(problems)} problems")
    return 1 if problems else 0


sys.exit(main())
