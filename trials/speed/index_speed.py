#!/usr/bin/env python3
"""index_speed.py PEER: times the checks of three scripts, answered by an index, by `plain` and by a peer. Takes half a minute,
and the time of a first build of `line_script` and the crates below it, which is many minutes where nothing of them is kept.

The program in `index_speed.rt.txt`, and the program PEER, which does the same work without proofs as `PEER evals SCRIPT 100`, run
in turn; `PEER script 1000` and `PEER flat M` write the scripts. Prints for each the best of several runs in nanoseconds a
check, what building the index takes, and the quotient of `verdict` and the peer. Their counts must be alike. Needs `rt`."""

import pathlib
import subprocess
import sys
import tempfile

from trial_crate import built

RUNS = 7
ROUNDS = "100"
SCRIPTS = [("script", "1000"), ("flat", "1000"), ("flat", "65536")]


def said(words, text=b""):
    return subprocess.run(words, input=text, stdout=subprocess.PIPE, check=True).stdout.decode()


def numbers(text):
    """The number behind each word of a text of words and numbers in turn."""
    words = text.split()
    return {word: float(number) for word, number in zip(words[::2], words[1::2])}


def ours(program, text):
    """The nanoseconds of each way, and how many checks it allows."""
    lines = said([program], text).splitlines()
    times = {line.split()[0]: numbers(line) for line in lines}
    return {name: of[name] for name, of in times.items()}, {of["allow"] for of in times.values() if "allow" in of}


def main():
    if len(sys.argv) != 2:
        sys.exit(__doc__)
    peer = sys.argv[1]
    with tempfile.TemporaryDirectory() as name:
        folder = pathlib.Path(name)
        uses = ["cynara_keys", "bucket_store", "bucket_eval", "desk_state", "line_script", "anyhow"]
        program, file = built(folder, "index_speed", uses), folder / "script"
        for words in SCRIPTS:
            text = said([peer, *words])
            file.write_text(text)
            own, bare = {}, float("inf")
            for _ in range(RUNS):
                times, allowed = ours(program, text.encode())
                theirs = numbers(said([peer, "evals", file, ROUNDS]))
                if allowed != {theirs["allow"]}:
                    sys.exit(f"other counts: {allowed}, and the peer allows {theirs['allow']}")
                own = {way: min(own.get(way, float("inf")), time) for way, time in times.items()}
                bare = min(bare, theirs["ns_per_check"])
            ways = ", ".join(f"{way} {own[way]:.0f}" for way in ("verdict", "decide", "plain"))
            print(f"{' '.join(words)}: {ways}, the peer's {bare:.0f} ns, quotient {own['verdict'] / bare:.2f}; built in {own['build'] / 1e6:.2f} ms")


if __name__ == "__main__":
    main()
