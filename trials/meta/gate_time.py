#!/usr/bin/env python3
"""gate_time.py: runs a command (by default `rt ci`) and says where its processor time went: a table by crate, with the time of the crate's proof,
of its tests and of its must-fail edits, and the greatest memory of each. It looks at /proc every two seconds and starts nothing else.

    trials/try gate_time [--out FILE] [COMMAND ..]        at the top of a clean clone, with nothing else at work
"""
import argparse
import os
import subprocess
import sys
import time

TICK = os.sysconf("SC_CLK_TCK")
PAGE = os.sysconf("SC_PAGE_SIZE")


def part_of(words, folder):
    """The crate and the part that a process works for, or None where it is none of the toolchain's."""
    if os.path.basename(words[0]) != "rattle" or "--crate-name" not in words:
        return None
    crate = words[words.index("--crate-name") + 1]
    if "rt-edit" in folder:
        return crate, "edits"
    return crate, "tests" if "--test" in words or "--tests" in words else "crate"


def look(found):
    for number in filter(str.isdigit, os.listdir("/proc")):
        try:
            with open(f"/proc/{number}/cmdline", "rb") as it:
                words = it.read().decode(errors="replace").split("\0")
            part = part_of(words, os.readlink(f"/proc/{number}/cwd"))
            if not part:
                continue
            with open(f"/proc/{number}/stat", encoding="utf-8") as it:
                stat = it.read().rsplit(")", 1)[1].split()
        except OSError:
            continue
        seconds, memory = (int(stat[11]) + int(stat[12])) / TICK, int(stat[21]) * PAGE
        held = found.setdefault((number, stat[19]), [part, 0, 0])
        held[1], held[2] = max(held[1], seconds), max(held[2], memory)


def table(found):
    rows, parts = {}, ("crate", "tests", "edits")
    for (crate, part), seconds, memory in found.values():
        row = rows.setdefault(crate, {it: 0 for it in (*parts, "memory")})
        row[part] += seconds
        row["memory"] = max(row["memory"], memory)
    yield f"{'processor minutes':28}{'crate':>8}{'tests':>8}{'edits':>8}{'all':>8}{'MiB':>8}"
    for crate, row in sorted(rows.items(), key=lambda it: -sum(it[1][p] for p in parts)):
        minutes = [row[it] / 60 for it in parts]
        yield f"{crate:28}" + "".join(f"{it:8.1f}" for it in (*minutes, sum(minutes))) + f"{row['memory'] >> 20:8}"
    sums = [sum(row[it] for row in rows.values()) / 60 for it in parts]
    yield f"{'together':28}" + "".join(f"{it:8.1f}" for it in (*sums, sum(sums)))


def main():
    words = argparse.ArgumentParser(description=__doc__, formatter_class=argparse.RawDescriptionHelpFormatter)
    words.add_argument("--out", help="a file for the table")
    words.add_argument("command", nargs=argparse.REMAINDER)
    given = words.parse_args()
    found, began = {}, time.time()
    with subprocess.Popen(given.command or ["rt", "ci"]) as running:
        while running.poll() is None:
            look(found)
            time.sleep(2)
    lines = [*table(found), f"{(time.time() - began) / 60:.1f} minutes by the clock, status {running.returncode}"]
    print("\n".join(lines), file=sys.stderr)
    if given.out:
        with open(given.out, "w", encoding="utf-8") as it:
            it.write("\n".join(lines) + "\n")
    return running.returncode


if __name__ == "__main__":
    sys.exit(main())
