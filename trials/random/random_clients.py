#!/usr/bin/env python3
"""Random schedules of links that fail, close and answer, against `client_model.py`: what the program of cases of clients tells
of each (the answers, the dials, the failures, and the bytes on each link that was given back) has to be what the model says.
`random_clients.py [COUNT [SEED]]`; with `--self-test` the model alone is tried: the schedules that stand among the cases come of
it. The program has to be built, by `rt run` in its folder."""

import pathlib
import random
import subprocess
import sys

import client_model

CASES = pathlib.Path(__file__).resolve().parents[2] / "crates" / "cases_client"
PROGRAM = CASES / "out" / "cases_client"
KEPT, SEED = 60, 41


def schedules(count, seed):
    chance = random.Random(seed)
    return [client_model.case(chance) for _ in range(count)]


def self_test():
    lines = set((CASES / "stdout").read_text().splitlines())
    missing = [words for words, answer in schedules(KEPT, SEED) if f"{words} => {answer}" not in lines]
    sys.exit("\n".join(["these are not among the cases:", *missing]) if missing else 0)


def main():
    if sys.argv[1:] == ["--self-test"]:
        self_test()
    count = int(sys.argv[1]) if sys.argv[1:] else 5000
    seed = int(sys.argv[2]) if sys.argv[2:] else random.randrange(2**32)
    cases = schedules(count, seed)
    text = "".join(f"{words}\n" for words, _ in cases)
    done = subprocess.run([PROGRAM], input=text, stdout=subprocess.PIPE, text=True, check=True)
    told = done.stdout.splitlines()
    wanted = [f"{words} => {answer}" for words, answer in cases]
    wrong = [(line, want) for line, want in zip(told, wanted) if line != want]
    for line, want in wrong[:5]:
        print(f"told:   {line}\nwanted: {want}\n")
    print(f"{count} schedules, seed {seed}: {len(wrong)} otherwise")
    sys.exit(bool(wrong) or len(told) != count)


if __name__ == "__main__":
    main()
