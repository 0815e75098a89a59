"""privctl on a running service, on random devices, against `check`, `admin` and a copy of the store. random_service COUNT QUESTIONS [SEED]

Of each device, and of so many random questions to it: the policy that `explain` says decides is the one that the service names to an
administrator, and `explain` ends with the service's word; the status of `may` is that of what `check` is answered, by the policies or by
an agent, and its line and its JSON say the same. What `export`, `who`, `users`, `packages`, `apps`, `buckets`, `level get` and `plan` say
through the door is what they say of a copy. `status` ends with 0. `level set` does what the line `level` does. PROGRAM and PRIVCTL name
other programs."""

import json
import os
import pathlib
import random
import subprocess
import sys
import tempfile
import time

import program
from random_scripts import BUCKETS, CLIENTS, LEVELS, PRIVILEGES, UIDS, USERS, Scripts

PROGRAM = pathlib.Path(os.environ.get("PROGRAM", program.PROGRAM)).resolve()
PRIVCTL = pathlib.Path(os.environ.get("PRIVCTL", program.TOP / "crates/privctl/out/privctl")).resolve()
CHANGES = ["set", "set", "set", "unset", "batch", "bucket", "drop", "erase", "user", "install", "hybrid", "remove"]
LISTINGS = (["users"], ["packages"], ["apps"], ["buckets"], ["export"])
AGENTS = ((b"7", b"allow"), (b"10", b"deny"))
ASKED_TOO = b"The service was asked too, and answers so at this commit."


def wrong(what, *shown):
    print(f"wrong: {what}")
    for it in shown:
        print(f"  {it!r}"[:3000])
    sys.exit(1)


class Service:
    """A service over a folder of its own, and agents of it."""

    def __init__(self, room, agents):
        self.room, self.around = room, {**os.environ, "PRIVILEGE_DIR": str(room)}
        self.running = [self.start("serve", "4")]
        self.until(lambda: (room / "admin.socket").exists())
        for kind, answer in agents:
            self.running.append(self.start("agent", kind, answer))
        time.sleep(0.1 if agents else 0)

    def start(self, *words):
        return subprocess.Popen([PROGRAM, *words], cwd=self.room, env=self.around, stdin=subprocess.DEVNULL, stdout=subprocess.DEVNULL, stderr=subprocess.DEVNULL)

    @staticmethod
    def until(holds):
        for _ in range(1000):
            if holds():
                return
            time.sleep(0.01)
        wrong("the service does not start")

    def run(self, *words, given=b"", by=PROGRAM):
        done = subprocess.run([by, *words], input=given, capture_output=True, cwd=self.room, env=self.around, check=False, timeout=120)
        return done.stdout, done.returncode

    def admin(self, lines):
        return self.run("admin", given=b"".join(line + b"\n" for line in lines))[0].splitlines()

    def privctl(self, *words):
        return self.run(*words, by=PRIVCTL)

    def stop(self):
        self.admin([b"stop"])
        for it in self.running:
            it.wait(timeout=30)


def status_of(answer):
    """The status that `may` has to have behind the answer that `check` wrote."""
    return {b"allow": 0, b"deny": 1}.get(answer.split(b" ")[0], 2)


def explain(service, question, answer):
    told, status = service.privctl("explain", *question)
    told = told.splitlines()
    words = answer.split(b" ")
    row = b"" if words[3:] == [b"default"] else b" ".join(words[3:])
    by = b"by a policy of %s: %s" % (words[2], row) if row else b"by the fallback of %s" % words[2]
    if status or told[0] != b"%s at commit %s, %s" % (words[0], words[1], by) or told[-1] != ASKED_TOO:
        wrong("an explanation", question, answer, told, status)
    marked = [line.strip() for line in told if line.endswith(b"   <== decides")]
    shown = b"%s %s   <== decides" % (row, words[0]) if row else b"%s (else %s)   <== decides" % (words[2], words[0])
    if marked != [shown]:
        wrong("what an explanation marks", question, answer, told)


def may(service, question, draw):
    """A question to `check` and to `may`, in one of its styles."""
    client, user, privilege = question
    answer, status = service.run("check", client, "session", user, privilege)
    if status:
        wrong("a check", question, answer, status)
    wanted = status_of(answer)
    style = draw.choice([[], ["-q"], ["--json"], ["--timeout", "60"]])
    told, status = service.privctl("may", *style, *question)
    if status != wanted:
        wrong("the status of may", question, answer, told, status)
    first = answer.split(b" ")[0]
    if style == ["-q"] and told:
        wrong("a quiet may", told)
    elif style == ["--json"]:
        found = json.loads(told)
        if found["status"] != status or found["answer"] != ("allow", "deny", "undecided")[status]:
            wrong("the JSON of may", answer, found)
        if [found[key].encode() for key in ("client", "user", "privilege")] != list(question):
            wrong("the question in the JSON of may", question, found)
    elif style != ["-q"] and told.split(b" ")[0] != (first if status < 2 else b"nobody"):
        wrong("the line of may", answer, told)
    return status


def copies(service, draw):
    """What the orders say through the door, and of a copy."""
    subprocess.run(["cp", "-r", service.room / "store", service.room / "copy"], check=True)
    (service.room / "script").write_bytes(b"".join(line + b"\n" for line in Scripts(draw).lines({"set": 3, "unset": 1, "user": 1}, 3)))
    words = [*LISTINGS, ["who", draw.choice(PRIVILEGES)], ["who", "--user", draw.choice(USERS), draw.choice(PRIVILEGES)]]
    words += [["level", "get", draw.choice(UIDS)], ["plan", "script"]]
    for order in words:
        live = service.privctl(*order)
        cut = 2 if order[0] == "level" else 1
        of_copy = service.privctl(*order[:cut], "--store", "copy", *order[cut:])
        if live != of_copy or live[1] not in ((0, 1) if order[0] == "plan" else (0,)):
            wrong("an order through the door", order, live, of_copy)
    subprocess.run(["rm", "-r", service.room / "copy"], check=True)
    told, status = service.privctl("status")
    if status or told.splitlines()[-1] != b"answers checks and listings":
        wrong("the status", told, status)


def level(service, draw):
    """A level that is set through the door, and by `local`."""
    subprocess.run(["cp", "-r", service.room / "store", service.room / "beside"], check=True)
    with tempfile.TemporaryDirectory(dir=program.ROOM) as folder:
        subprocess.run(["mv", service.room / "beside", pathlib.Path(folder) / "store"], check=True)
        caller, target, own = draw.choice(UIDS), draw.choice(UIDS), draw.random() < 0.5
        what = (draw.choice(CLIENTS[:5]), draw.choice(PRIVILEGES), draw.choice(LEVELS))
        line = b"level %s %s %s\n" % (caller, b"own" if own else b"admin " + target, b" ".join(what))
        done = subprocess.run([PROGRAM, "local"], input=line, capture_output=True, cwd=folder, check=False)
        words = [caller] if own else ["--by", caller, target]
        told, status = service.privctl("level", "set", *words, *what)
        if done.returncode or (status == 0) != done.stdout.startswith(b"ok") or (status == 0 and told != done.stdout) or status not in (0, 1):
            wrong("a level", line, done.stdout, told, status)
        for it in sorted((pathlib.Path(folder) / "store").glob("_*")):
            if "~" not in it.name and it.read_bytes() != (service.room / "store" / it.name).read_bytes():
                wrong("the policies behind a level", line, it.name)


def main():
    count, questions, seed = int(sys.argv[1]), int(sys.argv[2]), int(sys.argv[3]) if len(sys.argv) > 3 else 1
    draw, way, seen = random.Random(seed), program.Progress(count), [0, 0, 0]
    for _ in range(count):
        scripts = Scripts(draw)
        scripts.buckets = [*BUCKETS, b"ADMIN", b"USER_TYPE_GUEST", b"USER_TYPE_NORMAL"] if draw.random() < 0.8 else BUCKETS
        kinds = {kind: 3 if kind in ("set", "install", "user") else 1 for kind in CHANGES}
        device = [b"layout"] if draw.random() < 0.5 else [b"bucket . allow"]
        device += [b"user 5001 admin", b"bucket A allow", b"bucket B none"] + list(scripts.lines(kinds, draw.randint(5, 60)))
        if draw.random() < 0.7:
            # Without these, a policy for everyone denies most questions of most devices.
            device = [line for line in device if not line.endswith(b" deny") or draw.random() < 0.2]
        device += [b"set . %s * %s agent:%s:m" % (draw.choice(CLIENTS), draw.choice(PRIVILEGES), kind) for kind in (b"7", b"10", b"2")]
        with tempfile.TemporaryDirectory(dir=program.ROOM) as folder:
            service = Service(pathlib.Path(folder), AGENTS[:draw.choice([0, 1, 2])])
            service.admin(device)
            asked = [(draw.choice(CLIENTS), draw.choice(USERS), draw.choice(PRIVILEGES)) for _ in range(questions)]
            answers = service.admin([b"check " + b" ".join(question) for question in asked])
            for question, answer in zip(asked, answers, strict=True):
                explain(service, question, answer)
                seen[may(service, question, draw)] += 1
            copies(service, draw)
            level(service, draw)
            service.stop()
        way.step()
    print(f"{count} devices, {count * questions} questions: {seen[0]} allowed, {seen[1]} denied, {seen[2]} by nobody")


main()
