"""privctl import-cynara against a model of Cynara's evaluation. import_cynara COUNT [SEED]

So many random data bases, as Cynara's sources write them: a file `buckets` and a file `_BUCKET` for each bucket, with nested buckets, agents,
wildcards, policies `none`, metadata, names that a device reserves, and names and texts that it cannot keep. The script is run on a fresh
folder, and each question of a small set is asked of it. The model evaluates the data base as Cynara does, and the same without what the
script says was left out: the product agrees with the latter always, and with the former too, unless something was left out.
PROGRAM and PRIVCTL name other programs.

Cynara's evaluation, of its `Storage::minimalPolicy`: the least type of the matching policies of a bucket, where one that points to a bucket
has the type of that one's answer unless this is NONE, and the bucket's default where none matches."""

import os
import pathlib
import random
import re
import subprocess
import sys
import tempfile

import program

PROGRAM = pathlib.Path(os.environ.get("PROGRAM", program.PROGRAM)).resolve()
PRIVCTL = pathlib.Path(os.environ.get("PRIVCTL", program.TOP / "crates/privctl/out/privctl")).resolve()
DENY, NONE, BUCKET, ALLOW = 0, 1, 0xFFFE, 0xFFFF
NAMES = ["MAIN", "MANIFESTS", "ADMIN", "USER_TYPE_NORMAL", "PRIVACY_MANAGER", "a-b", "x" * 64, "y" * 70, "w" * 66, "cynara_MAIN", "cynara_1", "cynara_2", "cynara_3", "Z"]
CLIENTS = ["User::Pkg::app", "User", "c"]
USERS = ["5001", "0"]
PRIVILEGES = ["http://tizen.org/privilege/camera", "p"]
ODD = ["", "a b", "n" * 256, "caf\u00e9"]
AGENTS = [10, 11, 2, 0xFFFD]


def wrong(what, *shown):
    print(f"wrong: {what}")
    for it in shown:
        print(f"  {it!r}"[:3000])
    sys.exit(1)


class Base:
    """A data base: for each bucket its default, and its policies by their keys, in order of their lines."""

    def __init__(self):
        self.defaults, self.lines = {}, {}

    def policies(self, bucket):
        """The last line of a key counts, as in Cynara's map."""
        return {line[:3]: line[3] for line in self.lines[bucket]}

    def answer(self, bucket, question):
        """The type and the metadata of the answer of a bucket."""
        found = []
        for key, (kind, metadata) in self.policies(bucket).items():
            if not all(field in ("*", word) for field, word in zip(key, question)):
                continue
            if kind == BUCKET:
                below = self.answer(metadata, question) if metadata in self.defaults else None
                if below and below[0] != NONE:
                    found.append(below)
            else:
                found.append((kind, metadata))
        return min(found) if found else self.defaults[bucket]

    def write(self, folder):
        def ruling(result):
            return f"0x{result[0]:X};{result[1]}"

        (folder / "buckets").write_text("".join(f"{name};{ruling(result)}\n" for name, result in self.defaults.items()))
        for name, lines in self.lines.items():
            (folder / f"_{name}").write_text("".join(f"{';'.join(line[:3])};{ruling(line[3])}\n" for line in lines))


def random_base(draw):
    base = Base()
    names = ["", *draw.sample(NAMES, draw.randint(0, 6))]
    odd = draw.random() < 0.4
    for at, name in enumerate(names):
        kinds = [(DENY, ""), (DENY, ""), (ALLOW, ""), (NONE, ""), (draw.choice(AGENTS), "m")]
        if odd:
            kinds.append((BUCKET, draw.choice(names)))
        base.defaults[name] = draw.choice(kinds if at else kinds[:3] + kinds[3:] * odd)
        base.lines[name] = [random_line(draw, names[at + 1:], odd) for _ in range(draw.randint(0, 8))]
    return base


def random_line(draw, below, odd):
    key = tuple(draw.choice([*words, *words, "*"]) for words in (CLIENTS, USERS, PRIVILEGES))
    if odd and draw.random() < 0.1:
        at = draw.randrange(3)
        key = (*key[:at], draw.choice(ODD), *key[at + 1:])
    kinds = [(DENY, ""), (ALLOW, ""), (ALLOW, ""), (draw.choice(AGENTS), draw.choice(["", "m", "ask:me"]))]
    if below:
        kinds += [(BUCKET, draw.choice(below))] * 3
    if odd:
        kinds += [(NONE, ""), (BUCKET, "nowhere"), (ALLOW, "extra"), (10, "two words")]
    return (*key, draw.choice(kinds))


def without(base, script):
    """The data base without what the script says was left out, and whether anything was that may change an answer."""
    left, changed, files = Base(), False, {}
    for line in script.splitlines():
        if said := re.match(r'# left out: line (\d+) of _("(.*?)")?: ', line):
            files.setdefault(said[3] or "", set()).add(int(said[1]))
            changed = True
    defaults = re.findall(r"(?m)(^# left out: the fallback of the next bucket.*\n)?^bucket (\S+) ", script)
    for (name, result), (said, _) in zip(base.defaults.items(), defaults, strict=True):
        left.defaults[name] = (DENY, "") if said else result
        changed = changed or bool(said)
        gone = files.get(name, set())
        left.lines[name] = [line for at, line in enumerate(base.lines[name], 1) if at not in gone]
        for at, line in enumerate(left.lines[name]):
            if line[3][0] in (DENY, ALLOW) and line[3][1]:
                if "# left out: the metadata" not in script:
                    wrong("metadata that is lost in silence", line, script)
                left.lines[name][at] = (*line[:3], (line[3][0], ""))
    return left, changed


def shown(result):
    kind, metadata = result
    return {DENY: "deny", ALLOW: "allow", NONE: "none"}.get(kind, f"agent:{kind}:{metadata}")


def main():
    count, draw, way = int(sys.argv[1]), random.Random(int(sys.argv[2]) if len(sys.argv) > 2 else 1), None
    way, asked, partly, renamed = program.Progress(count), 0, 0, 0
    questions = [(client, user, privilege) for client in [*CLIENTS, "other"] for user in USERS for privilege in PRIVILEGES]
    for _ in range(count):
        base = random_base(draw)
        with tempfile.TemporaryDirectory(dir=program.ROOM) as place:
            folder = pathlib.Path(place)
            base.write(folder)
            done = subprocess.run([PRIVCTL, "import-cynara", folder], capture_output=True, check=False, timeout=60)
            script = done.stdout.decode()
            if done.returncode:
                wrong("an import", done.returncode, done.stderr, base.defaults, base.lines)
            left, changed = without(base, script)
            given = done.stdout + b"".join(b"check %s %s %s\n" % tuple(word.encode() for word in question) for question in questions)
            ran = subprocess.run([PROGRAM, "local"], input=given, capture_output=True, cwd=folder, check=False)
            answers = [line.split(b" ")[0].decode() for line in ran.stdout.splitlines()]
            if ran.returncode or "refused" in answers:
                wrong("the script of an import", ran.stdout, ran.stderr, script)
            for question, answer in zip(questions, answers[-len(questions):], strict=True):
                if shown(left.answer("", question)) != answer:
                    wrong("a check", question, answer, left.answer("", question), left.defaults, left.lines, script)
                theirs = base.answer("", question)
                if not changed and (theirs[0] != left.answer("", question)[0] or shown((theirs[0], left.answer("", question)[1])) != answer):
                    wrong("a check that differs from Cynara's in silence", question, answer, theirs, script)
            asked, partly, renamed = asked + len(questions), partly + changed, renamed + ("# renamed" in script)
        way.step()
    print(f"{count} data bases, {asked} checks; {partly} with something left out, {renamed} with a bucket renamed")


main()
