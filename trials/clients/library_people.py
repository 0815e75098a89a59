"""One client or agent of `library_hour.py`: library_people.py ROLE FOLDER PLACE SEED WORD.. starts the words with the others behind, as
`library_people.c` takes them, and compares each answer that a client tells with what the model has at the commit that it names."""

import subprocess
import sys

from service_history import KIND, QUESTIONS, History
from service_people import Words

OK, NOT_RESOLVED, NO_AGENT, AGENT_GONE, AGENT_FULL = 0, 9, 10, 11, 12


def granted(question, asked):
    return (len(b"".join(question)) + asked) % 2


def wanted(line, history):
    """Whether a line of a client is what the model has."""
    asked, simple, error, result, commit, agent, number = map(int, line[:7])
    kind, metadata, bucket, key = history.at(commit)[asked]
    if kind != KIND:
        return error == OK and line[3:] == [
            str(kind).encode(), line[4], b"0", b"0", bucket or b".", metadata or b".", *(key or ())
        ]
    if simple:
        return (error, result, agent) == (NOT_RESOLVED, 0, KIND)
    if error == OK:
        return (result == 0xFFFF) == granted(QUESTIONS[asked], number) and result in (0, 0xFFFF) and agent == KIND
    return result == 0 and ((error in (NO_AGENT, AGENT_FULL) and agent == KIND) or error == AGENT_GONE)


def main():
    role, folder, place, seed, *words = sys.argv[1:]
    shared, history = Words(folder), History()
    person = subprocess.Popen([*words, role, folder, place, seed], stdout=subprocess.PIPE)
    for line in person.stdout:
        if not wanted(line.split(), history):
            commit, asked = int(line.split()[4]), int(line.split()[0])
            shared.fault(f"{line}, and {history.at(commit)[asked]} is wanted")
    if person.wait():
        shared.fault(f"{role} {place} ends with {person.returncode}")
    sys.exit(person.returncode)


if __name__ == "__main__":
    main()
