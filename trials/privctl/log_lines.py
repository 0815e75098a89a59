"""privctl log against a reading of its lines of our own, and of a real `watch`. log_lines COUNT [SEED]

So many logs of random lines: checks of the long and the short form, `missed` lines and others. What passes a random filter is passed on as it
came; as JSON each line says what the line says. A file that grows is followed. Then `privilege watch` serves as many random checks, of which
some are an agent's: followed meanwhile, and read with filters afterwards, its log tells each that was decided, as `privctl may` was answered.
PROGRAM and PRIVCTL name other programs."""

import json
import os
import pathlib
import random
import subprocess
import sys
import tempfile
import time

import program

PRIVCTL = pathlib.Path(os.environ.get("PRIVCTL", program.TOP / "crates/privctl/out/privctl")).resolve()
PROGRAM = pathlib.Path(os.environ.get("PROGRAM", program.PROGRAM)).resolve()
CLIENTS, USERS, PRIVILEGES = ["c", "User::Pkg::a", '"\\'], ["5001", "u"], ["p", "http://tizen.org/privilege/camera"]
TIMES = ["2026-12-01T07:46:10.123Z", "2026-12-01T07:46:10Z", "2026-12-01T07:46:11.000Z", "2027-01-01T00:00:00.000Z", "-"]
POLICIES = b"""set . c * * allow
set . c u p deny
set . User::Pkg::a * p agent:10:metadata
set . User::Pkg::a u * allow
set . * 5001 http://tizen.org/privilege/camera agent:11:
"""
SINCE = ["2026-12-01T07:46:10.5Z", "2026-12-01T07:46:10", "2027", "2026-12-01T07:46:11Z", "2026-12-01T07:46:10.123Z"]


def check_of(draw):
    fields = {
        "worker": draw.randrange(4), "number": draw.randrange(2**64), "result": draw.choice(["allow", "deny"]), "commit": draw.randrange(9),
        "client": draw.choice(CLIENTS), "user": draw.choice(USERS), "privilege": draw.choice(PRIVILEGES),
    }
    line = "monitor " + " ".join(str(it) for it in fields.values())
    if draw.random() < 0.3:
        return line, fields
    key = draw.choice([None, {"client": "*", "user": draw.choice(USERS), "privilege": "p"}])
    more = {"time": draw.choice(TIMES), "by": draw.choice(["policy", "agent:10"]), "bucket": draw.choice([".", "MAIN"])}
    line += " " + " ".join(more.values()) + " " + (" ".join(key.values()) if key else "default")
    return line, {**fields, **more, "time": None if more["time"] == "-" else more["time"], "policy": key}


def line_of(draw):
    chance = draw.random()
    if chance < 0.8:
        return check_of(draw)
    if chance < 0.9:
        worker, count = draw.randrange(4), draw.randrange(1000)
        return f"missed {worker} {count}", {"worker": worker, "missed": count}
    line = draw.choice(["", "net", "monitor", "monitor 1 2 allow 3 c u", "monitor 01 2 allow 3 c u p", "missed 1", "monitor 1 2 allow 3 c u p -", "x" * 60000])
    return line, {"line": line}


def is_wanted(said, filters):
    if "client" not in said:
        return True
    for name, wanted in filters.items():
        if name == "since":
            if not said.get("time") or said["time"].rstrip("Z") < wanted.rstrip("Z"):
                return False
        elif said[name] != wanted:
            return False
    return True


def main():
    count, draw = int(sys.argv[1]), random.Random(int(sys.argv[2]) if len(sys.argv) > 2 else 1)
    lines_tried = 0
    for _ in range(count):
        lines = [line_of(draw) for _ in range(draw.choice([0, 1, 30, 300]))]
        text = "".join(line + "\n" for line, _ in lines)
        if draw.random() < 0.3:
            text = text.removesuffix("\n")
        choices = {"client": CLIENTS, "user": USERS, "privilege": PRIVILEGES, "result": ["allow", "deny"], "since": SINCE}
        filters = {name: draw.choice(values) for name, values in choices.items() if draw.random() < 0.25}
        words = [word for name, value in filters.items() for word in (f"--{name}", value)]
        wanted = [(line, said) for line, said in lines if is_wanted(said, filters)]
        if text == "":
            wanted = [it for it in wanted if it[0]]
        with tempfile.NamedTemporaryFile() as file:
            file.write(text.encode())
            file.flush()
            given = [file.name] if draw.random() < 0.5 else []
            plain = subprocess.run([PRIVCTL, "log", *words, *given], input=text.encode(), capture_output=True, check=False, timeout=60)
            as_json = subprocess.run([PRIVCTL, "log", "--json", *words, *given], input=text.encode(), capture_output=True, check=False, timeout=60)
        if plain.returncode or plain.stdout.decode().split("\n") != [*(line for line, _ in wanted), ""]:
            sys.exit(f"wrong: {words} {text!r} {plain.stdout!r}"[:3000])
        found = [json.loads(line) for line in as_json.stdout.splitlines()]
        if as_json.returncode or found != [said for _, said in wanted]:
            sys.exit(f"wrong: {words} {text!r} {found!r} {[said for _, said in wanted]}"[:3000])
        lines_tried += len(lines)
    follow()
    decided = watched(count, draw)
    print(f"{count} logs, {lines_tried} lines, a file that grew, and {decided} checks of a watch")


def follow():
    """A file that grows is followed, line by line."""
    with tempfile.NamedTemporaryFile() as file:
        reader = subprocess.Popen([PRIVCTL, "log", "-f", "--client", "c", file.name], stdout=subprocess.PIPE)
        for number in range(5):
            line = b"monitor 0 %d allow 1 c u p\n" % number
            file.write(line[:12])
            file.flush()
            time.sleep(0.05)
            file.write(line[12:] + b"monitor 0 9 allow 1 d u p\n")
            file.flush()
            if reader.stdout.readline() != line:
                sys.exit("wrong: a file that is followed")
        reader.kill()


def watched(count, draw):
    """The log of a service, followed while it grows, and read at the end."""
    with tempfile.TemporaryDirectory() as folder:
        room = pathlib.Path(folder)
        around = {**os.environ, "PRIVILEGE_DIR": folder}
        log = room / "log"
        with log.open("wb") as out:
            service = subprocess.Popen([PROGRAM, "watch", "2"], cwd=room, env=around, stdout=out, stderr=subprocess.DEVNULL, stdin=subprocess.DEVNULL)
        while not (room / "admin.socket").exists():
            time.sleep(0.01)
        run = lambda words, given=b"": subprocess.run(words, cwd=room, env=around, input=given, capture_output=True, check=False, timeout=60)
        if run([PROGRAM, "admin"], POLICIES).stdout != b"".join(b"ok %d\n" % commit for commit in range(1, 6)):
            sys.exit("wrong: the policies are refused")
        agent = subprocess.Popen([PROGRAM, "agent", "10", "allow"], cwd=room, env=around, stdout=subprocess.DEVNULL, stderr=subprocess.DEVNULL)
        time.sleep(0.2)
        reader = subprocess.Popen([PRIVCTL, "log", "-f", "--json", log], stdout=subprocess.PIPE)
        told = []
        for _ in range(count):
            question = [draw.choice(CLIENTS[:2]), draw.choice(USERS), draw.choice(PRIVILEGES)]
            answer = json.loads(run([PRIVCTL, "may", "--json", *question]).stdout)
            if answer["status"] > 1:
                continue
            line = json.loads(reader.stdout.readline())
            told.append(line)
            # the root bucket is "" in the object of `may`, and "." in that of a line
            answer["bucket"] = answer.get("bucket") or "."
            by = f"agent:{answer['agent']}" if "agent" in answer else "policy"
            names = ["client", "user", "privilege", "commit"] + (["bucket", "policy"] if by == "policy" else [])
            if (line["by"], line["result"], [line[it] for it in names]) != (by, answer["answer"], [answer[it] for it in names]):
                sys.exit(f"wrong: of a watch {line} {answer}")
        reader.kill()
        agent.kill()
        agent.wait()
        run([PROGRAM, "admin"], b"stop\n")
        service.wait(timeout=60)
        lines = [line.split(" ") for line in log.read_text().splitlines()]
        if [line for line in lines if line[0] == "missed"] != [["missed", str(worker), "0"] for worker in range(2)] or len(lines) != len(told) + 2:
            sys.exit(f"wrong: the lines of a watch {lines}")
        since = told[len(told) // 2]["time"] if told else "2026"
        for words, wanted in (
            ([], lambda line: True),
            (["--result", "deny"], lambda line: line[3] == "deny"),
            (["--client", "c", "--user", "u"], lambda line: line[5:7] == ["c", "u"]),
            (["--since", since], lambda line: line[8] >= since),
        ):
            found = run([PRIVCTL, "log", *words, log]).stdout.decode()
            if found != "".join(" ".join(line) + "\n" for line in lines if line[0] == "missed" or wanted(line)):
                sys.exit(f"wrong: {words} of a watch {found!r}")
        return len(told)


main()
