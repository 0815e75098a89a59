#!/usr/bin/env python3
"""library_hour.py [--seconds N] [--program PATH] [--seed N] [--core FILE] [--plain | --valgrind]: the trial of `service_hour.py`, with
clients and an agent in C over libprivilege, under AddressSanitizer and UndefinedBehaviorSanitizer (or under valgrind, or neither), and with
the module of Python as the administrator. Wanted are, beside what that trial wants,
- no answer of a commit below the last one that was acknowledged before its question, kept or not, nor of one that was not begun;
- no error of the library but that the service is gone while it is killed;
- no leak and no error by the sanitizers, or by valgrind, in those that were not killed.
Ends with status 1 where one is not as wanted. Needs gcc, and libclient_c.a, which `rt lib` makes in crates/client_c. Linux alone."""

import argparse
import ctypes
import pathlib
import subprocess
import sys

import program
import service_hour
from library_build import TOP, built_library
from script_model import step_of
from service import room
from service_history import QUESTIONS, line
from service_people import ACKNOWLEDGED, BEGUN

HERE = pathlib.Path(__file__).resolve().parent
SANITIZED = ("-O1", "-g", "-fsanitize=address,undefined", "-fno-sanitize-recover=all")
# One that is cut off, as its judge was killed, still holds what it had.
VALGRIND = ("valgrind", "-q", "--error-exitcode=9", "--leak-check=full", "--show-leak-kinds=definite,indirect,possible")


def people_of(scratch, options):
    """The words that start a person."""
    flags = ("-O2", "-g") if options.plain or options.valgrind else SANITIZED
    library = built_library(scratch, options.core, flags)
    words = ["gcc", "-std=c11", *flags, "-Wall", "-Wextra", "-Werror", "-Wl,--wrap=send", "-I", library / "include"]
    subprocess.run([*words, HERE / "library_people.c", library / "lib" / "libprivilege.a", "-o", scratch / "people"], check=True)
    return [*(VALGRIND if options.valgrind else ()), scratch / "people"]


def module_of(scratch, options):
    """The module of Python, over a library that is not sanitized."""
    library = built_library(scratch / "plain", options.core)
    # The module finds by its name what is loaded already.
    ctypes.CDLL(str(library / "lib" / "libprivilege.so.0"))
    sys.path.insert(0, str(TOP / "clients" / "python"))
    import privilege

    return privilege


class Hour(service_hour.Hour):
    def __init__(self, folder, options, people, privilege):
        super().__init__(folder, options)
        (folder / "questions").write_bytes(b"".join(b" ".join(question) + b"\n" for question in QUESTIONS))
        self.starts, self.privilege, self.admin = people, privilege, None

    def hire(self, place):
        role = "agent" if place == service_hour.AGENT else "client"
        words = [sys.executable, HERE / "library_people.py", role, self.folder, str(place), str(self.draw.randrange(2**32))]
        self.people[place] = subprocess.Popen([*words, *self.starts])

    def command_of(self, commit):
        """The commit that the library gives for the command of this commit, and how many policies it erased."""
        if self.draw.random() < 0.1:
            self.leave()
        self.admin = self.admin or self.privilege.Admin(self.folder / "admin.socket", 60)
        match step_of(line(commit)):
            case ("bucket", bucket, (kind, metadata)):
                return self.admin.set_bucket(bucket.decode(), kind, metadata.decode()), 0
            case ("erase", bucket, filters):
                return self.admin.erase(bucket.decode(), *(word.decode() for word in filters))
            case ("change", [(bucket, key, result)]):
                kind, metadata = result or (None, b"")
                words = [word.decode() for word in (bucket, *key)]
                return self.admin.set(self.privilege.Policy(*words, kind, metadata.decode())), 0

    def commit(self):
        commit = self.words[ACKNOWLEDGED] + 1
        self.words[BEGUN] = commit
        self.history.reach(commit)
        try:
            found = self.command_of(commit)
        except self.privilege.PrivilegeError as error:
            if error.error not in (self.privilege.Error.UNAVAILABLE, self.privilege.Error.UNKNOWN):
                self.words.fault(f"commit {commit}: {error}")
            return False
        if found != (commit, self.history.erased[commit]):
            self.words.fault(f"commit {commit} was answered {found}")
        self.words[ACKNOWLEDGED] = commit
        self.counts["commits"] += 1
        return True

    def leave(self):
        """Lets other administrators in, since the service serves one at a time."""
        if self.admin:
            self.admin.close()
        self.admin = None

    def found(self):
        self.leave()
        return super().found()

    def finish(self):
        self.leave()
        super().finish()

    def rows(self, bucket):
        self.leave()
        with self.privilege.Admin(self.folder / "admin.socket", 60) as admin:
            found = admin.list(bucket.decode())
        keys = [(row.key.client, row.key.user, row.key.privilege) for row in found]
        return [(*map(str.encode, key), row.result, row.metadata.encode()) for key, row in zip(keys, found)]


def main():
    words = argparse.ArgumentParser(description=__doc__, formatter_class=argparse.RawDescriptionHelpFormatter)
    words.add_argument("--seconds", type=float, default=600)
    words.add_argument("--program", type=pathlib.Path)
    words.add_argument("--core", type=pathlib.Path)
    words.add_argument("--seed", type=int, default=1)
    words.add_argument("--plain", action="store_true")
    words.add_argument("--valgrind", action="store_true")
    options = words.parse_args()
    if not options.program:
        program.build()
    with room() as folder, room() as scratch:
        scratch = pathlib.Path(scratch)
        (scratch / "plain").mkdir()
        if options.valgrind:
            # It takes some seconds to start one, and more where the machine is busy.
            service_hour.KILL_CLIENT = service_hour.KILL_AGENT = 60
        hour = Hour(pathlib.Path(folder), options, people_of(scratch, options), module_of(scratch, options))
        try:
            hour.run(options.seconds)
        finally:
            for process in (hour.service.process, *hour.people.values()):
                if process and process.poll() is None:
                    process.kill()
        hour.report()
        faults = pathlib.Path(folder) / "faults"
        if faults.exists():
            print(faults.read_text(), end="")
            sys.exit(1)


if __name__ == "__main__":
    main()
