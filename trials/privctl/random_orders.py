"""privctl on random devices: its exports, plans, explanations and lists, against what `local` answers. random_orders COUNT [SEED]

Of each device: the export, run on a fresh folder, gives the same files; the plan of a random script names exactly the checks of installs'
privileges that `local` answers otherwise behind it, and its refused lines; the policy that an explanation marks is the one that `local`
names; and `who` lists whom `local` does not deny. PROGRAM and PRIVCTL name other programs."""

import os
import pathlib
import random
import re
import subprocess
import sys
import tempfile

import program
from random_scripts import BUCKETS, CLIENTS, PRIVILEGES, USERS, Scripts

PROGRAM = pathlib.Path(os.environ.get("PROGRAM", program.PROGRAM)).resolve()
PRIVCTL = pathlib.Path(os.environ.get("PRIVCTL", program.TOP / "crates/privctl/out/privctl")).resolve()
CHANGES = ["set", "set", "unset", "batch", "bucket", "drop", "erase", "user", "nouser", "install", "hybrid", "convert", "remove", "layout"]


def local(folder, lines):
    """The answers of `local` to the lines, and its status."""
    done = subprocess.run([PROGRAM, "local"], input=b"".join(line + b"\n" for line in lines), capture_output=True, cwd=folder, check=False)
    return done.stdout.splitlines(), done.returncode


def privctl(folder, *words):
    done = subprocess.run([PRIVCTL, *words], capture_output=True, cwd=folder, check=False, timeout=60)
    return done.stdout.splitlines(), done.returncode


def wrong(what, *shown):
    print(f"wrong: {what}")
    for it in shown:
        print(f"  {it!r}"[:3000])
    sys.exit(1)


def files(folder):
    """The files that say what the device is."""
    lists = ("apps", "buckets", "template", "users")
    return {it.name: it.read_bytes() for it in folder.iterdir() if it.name in lists or re.match(r"(_|r\.)[^~]*$", it.name)}


def lines_of(scripts, count):
    kinds = {kind: 3 if kind in ("set", "install", "user") else 1 for kind in CHANGES}
    return list(scripts.lines(kinds, count))


def export(room, device):
    script, status = privctl(room, "export", "--store", "store")
    if status:
        wrong("export", status, device)
    fresh = room / "fresh"
    fresh.mkdir()
    answers, status = local(fresh, script)
    if status or any(answer.startswith(b"refused") for answer in answers):
        wrong("the script of an export", answers, script)
    wanted, found = files(room / "store"), files(fresh / "store") if (fresh / "store/stamp").exists() else None
    if found is None and len(script) > 1 or found is not None and wanted != found:
        wrong("the device of an export", device, script, {name for name in wanted if wanted[name] != (found or {}).get(name)})


def asked(room):
    """The users of the store, and what installs ask for: label and privilege."""
    users = [line.split(b";")[0] for line in (room / "store/users").read_bytes().splitlines()]
    grants = [line.split(b";") for line in (room / "store/_MANIFESTS").read_bytes().splitlines()] if (room / "store/_MANIFESTS").exists() else []
    return set(users), {(grant[0], grant[2]) for grant in grants}


def results(room, checks):
    """What `local` answers to checks: the result alone."""
    answers, status = local(room, [b"check %s %s %s" % check for check in checks])
    if status:
        wrong("checks", status, checks[:3])
    return {check: answer.split(b" ")[0] for check, answer in zip(checks, answers)}


def plan(room, device, script):
    (room / "script").write_bytes(b"".join(line + b"\n" for line in script))
    told, status = privctl(room, "plan", "--store", "store", "script")
    users, grants = asked(room)
    before_room = room / "before"
    subprocess.run(["cp", "-r", room / "store", before_room], check=True)
    answers, local_status = local(room, script)
    if local_status == 3:
        if status != 4:
            wrong("the plan of a wrong script", status, script)
        return
    later_users, later_grants = asked(room)
    checks = sorted((client, user, privilege) for client, privilege in grants | later_grants for user in users | later_users)
    after = results(room, checks)
    subprocess.run(["rm", "-r", room / "store"], check=True)
    before_room.rename(room / "store")
    before = results(room, checks)
    wanted = {b"%s: %s -> %s" % (b" ".join(check), before[check], after[check]) for check in checks if before[check] != after[check]}
    refused = [answer for answer in answers if answer.startswith(b"refused")]
    found = {line for line in told[:-1] if not line.startswith(b"line ")}
    if found != wanted:
        wrong("the checks of a plan", device, script, sorted(wanted ^ found))
    if [line.split(b": ", 1)[1] for line in told[:-1] if line.startswith(b"line ")] != refused or status != (1 if refused else 0):
        wrong("the refused lines of a plan", told, refused, status)


def explain(room, device, question):
    answer = local(room, [b"check " + b" ".join(question)])[0][0].split(b" ")
    told, status = privctl(room, "explain", "--store", "store", *question)
    row = b"" if answer[3:] == [b"default"] else b" ".join(answer[3:])
    by = b"by a policy of %s: %s" % (answer[2], row) if row else b"by the fallback of %s" % answer[2]
    if status or told[0] != b"%s at commit %s, %s" % (answer[0], answer[1], by):
        wrong("an explanation", device, question, answer, told)
    marked = [line.strip() for line in told if line.endswith(b"   <== decides")]
    shown = b"%s %s   <== decides" % (row, answer[0]) if row else b"%s (else %s)   <== decides" % (answer[2], answer[0])
    if marked != [shown]:
        wrong("what an explanation marks", device, question, answer, told)


def who(room, device, privilege):
    told, status = privctl(room, "who", "--store", "store", privilege)
    users, _ = asked(room)
    named = {line.split(b" ")[1] for line in told}
    clients = sorted({*named, *CLIENTS})
    checks = [(client, user, privilege) for user in users for client in clients]
    found = results(room, checks)
    labels = {grant.split(b";")[0] for file in (room / "store").glob("_*") for grant in file.read_bytes().splitlines()} - {b"*"}
    installs = {line.split(b";")[0].lstrip(b"+") for line in (room / "store/apps").read_bytes().splitlines()}
    wanted = {b"%s %s %s" % (user, client, found[client, user, privilege]) for client, user, _ in checks if found[client, user, privilege] != b"deny"}
    known = labels | {b"User::Pkg::" + name for name in installs}
    if status or not set(told) <= wanted or {line for line in wanted if line.split(b" ")[1] in labels} - set(told):
        wrong("who may", device, privilege, sorted(set(told) ^ wanted), known)


def main():
    count, seed = int(sys.argv[1]), int(sys.argv[2]) if len(sys.argv) > 2 else 1
    draw, way = random.Random(seed), program.Progress(count)
    for _ in range(count):
        scripts = Scripts(draw)
        scripts.buckets = [*BUCKETS, b"ADMIN", b"USER_TYPE_GUEST", b"USER_TYPE_NORMAL"] if draw.random() < 0.8 else BUCKETS
        device = [b"layout"] * (draw.random() < 0.9) + lines_of(scripts, draw.randint(3, 60))
        with tempfile.TemporaryDirectory(dir=program.ROOM) as folder:
            room = pathlib.Path(folder)
            _, status = local(room, device)
            if status or not (room / "store/stamp").exists():
                way.step()
                continue
            export(room, device)
            for _ in range(10):
                explain(room, device, (draw.choice(CLIENTS), draw.choice(USERS), draw.choice(PRIVILEGES)))
            who(room, device, draw.choice(PRIVILEGES))
            plan(room, device, lines_of(scripts, draw.randint(1, 8)))
        way.step()
    print(f"{count} devices")


main()
