"""Programs over the crates, for trials: each is built in a repository of its own, with copies of the crates that it stands
on. What is proved of them is copied with them."""

import pathlib
import shutil
import subprocess
import sys

TRIALS = pathlib.Path(__file__).resolve().parents[1]
TOP = TRIALS.parent
CRATES = TOP / "crates"


def below(names):
    """The crates of the repository at or below these, with their lines of `crates.txt`."""
    lines = (TOP / "crates.txt").read_text().splitlines()
    needs = {name: words.split() for name, colon, words in (line.partition(":") for line in lines) if colon}
    found, waiting = {}, list(names)
    while waiting:
        name = waiting.pop()
        if name in needs and name not in found:
            found[name] = f"{name}: {' '.join(needs[name])}"
            waiting += needs[name]
    return found


def built(scratch, name, uses, answers={}, invariants={}):
    """The program `NAME.rt.txt` of a folder of trials, which uses these crates. `answers` has for a function the text of its
    answers, where its proof needs some, and `invariants` that of its invariants and of what it picks."""
    crates = below(uses)
    for crate in crates:
        # work that a proof begins with is of use only where no library is made of it yet
        spared = shutil.ignore_patterns("incremental") if (CRATES / crate / "out" / "rlib").is_dir() else None
        shutil.copytree(CRATES / crate, scratch / "crates" / crate, symlinks=True, ignore=spared)
    source = scratch / "crates" / name / "src"
    source.mkdir(parents=True)
    shutil.copy(next(TRIALS.glob(f"*/{name}.rt.txt")), source / "main.rt")
    for file, texts in (("Answers.antt", answers), ("Invariants.antt", invariants)):
        for function, text in texts.items():
            folder = source.parent / "proofs" / function
            folder.mkdir(parents=True, exist_ok=True)
            (folder / file).write_text(text)
    (scratch / "crates.txt").write_text("\n".join([*crates.values(), f"{name}: {' '.join(uses)}"]) + "\n")
    made = subprocess.run(
        ["rt", "run"], cwd=source.parent, stdin=subprocess.DEVNULL, stdout=subprocess.PIPE, stderr=subprocess.STDOUT
    )
    program = source.parent / "out" / name
    if not program.exists():
        sys.exit(made.stdout.decode())
    return program
