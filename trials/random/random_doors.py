#!/usr/bin/env python3
"""Random conversations at the three doors of a service, against `server_model.py` and `admin_door_model.py`: how each
connection ends, the bytes that are sent, and what stands behind it have to be as the models say.

    trials/try random_doors 200 1           so many for each door, from the seed 1, by `cases_doors` of `trials/cases`, built by `rt try`
    trials/try random_doors --self-test     the models alone: the conversations that stand among the cases come of them"""

import pathlib
import random
import subprocess
import sys
import tempfile

import admin_door_model
import server_model

CASES = pathlib.Path(__file__).resolve().parents[1] / "cases"
# `rt try` ends a program that writes a mebibyte.
MOST_BYTES = 800_000


def of_administrators(count, seed):
    draw = random.Random(seed)
    for _ in range(count):
        yield admin_door_model.with_answer(admin_door_model.random_case(draw))


def of_clients_and_agents(count, seed):
    yield from server_model.cases(2 * count, seed)


def batches(cases):
    """The cases, in batches whose answers the program can write."""
    batch, size = [], 0
    for case in cases:
        if batch and size + len(case) >= MOST_BYTES:
            yield batch
            batch, size = [], 0
        batch.append(case)
        size += len(case) + 1
    yield batch


def answers(batch):
    """What the program writes to these cases."""
    with tempfile.NamedTemporaryFile("w") as given:
        given.writelines(case.split(" => ")[0] + "\n" for case in batch)
        given.flush()
        done = subprocess.run([CASES / "run", "--on", given.name, "cases_doors"], stdout=subprocess.PIPE, text=True, check=True)
    return done.stdout.splitlines()


def tried(cases):
    """How many of the cases the program answers otherwise."""
    wanted = list(cases)
    told = [line for batch in batches(wanted) for line in answers(batch)]
    wrong = [(line, want) for line, want in zip(told, wanted) if line != want]
    for line, want in wrong[:5]:
        print(f"told:   {line}\nwanted: {want}\n")
    print(f"{len(wanted)} conversations, {len(wrong)} otherwise")
    return len(wrong) + abs(len(told) - len(wanted))


def self_test():
    wrong = []
    for line in (CASES / "cases_doors" / "stdout").read_text().splitlines():
        case = line.split(" => ")[0]
        model = server_model if case.split(" ")[0] in ("client", "agent") else admin_door_model
        if case and not case.startswith("#") and model.with_answer(case) != line:
            wrong.append(line)
    sys.exit("\n".join(["these are answered otherwise by the models:", *wrong]) if wrong else 0)


def main():
    if sys.argv[1:] == ["--self-test"]:
        self_test()
    count = int(sys.argv[1]) if sys.argv[1:] else 200
    seed = int(sys.argv[2]) if sys.argv[2:] else random.randrange(2**32)
    print(f"seed {seed}")
    wrong = tried(of_clients_and_agents(count, seed)) + tried(of_administrators(count, seed))
    sys.exit(bool(wrong))


if __name__ == "__main__":
    main()
