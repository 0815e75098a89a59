#!/usr/bin/env python3
"""lane_speed.py: times the selection of rows of 65,536 by lanes and by a plain loop, in one run. Takes seconds, and a minute
for a first build of `lane_scan`.

The program in `lane_speed.rt.txt`, over `lane_scan`, asks each question 200 times in both ways in turn. Prints for each how
many rows it has, the least microseconds of both, and their quotient, of which at most a quarter is wanted for `select`. Where
nearly all rows are asked for, the numbers that are appended take most of the time of both. Needs `rt`."""

import pathlib
import re
import subprocess
import tempfile

from trial_crate import built


def main():
    with tempfile.TemporaryDirectory() as scratch:
        program = built(pathlib.Path(scratch), "lane_speed", ["lane_scan", "anyhow"])
        lines = subprocess.run([program], check=True, stdout=subprocess.PIPE).stdout.decode().splitlines()
    for line in lines:
        name, count, lanes, plain = re.fullmatch(r"(.*): (\d+) rows, lanes (\d+), plain (\d+)", line).groups()
        print(f"{name}: {count} rows, lanes {int(lanes) / 1000:.1f}, plain {int(plain) / 1000:.1f}, {int(lanes) / int(plain):.2f}")


if __name__ == "__main__":
    main()
