#!/usr/bin/env python3
"""audit_speed.py: times an audit of 256 applications by 256 privileges over 65,536 policies, and as many checks from the index
beside it, in one run. Takes seconds, and minutes for a first build of the crates.

The program in `audit_speed.rt.txt`, over `effective_audit` and `bucket_eval`, does both five times in turn. Prints how many
pairs are allowed and the least milliseconds of both; at most 1,000 are wanted for the audit. Needs `rt`."""

import pathlib
import re
import subprocess
import sys
import tempfile

from trial_crate import built

USES = ["cynara_keys", "lane_scan", "bucket_store", "bucket_eval", "evaluation_laws", "effective_audit", "anyhow"]


def main():
    with tempfile.TemporaryDirectory() as scratch:
        program = built(pathlib.Path(scratch), "audit_speed", USES)
        lines = subprocess.run([program], check=True, stdout=subprocess.PIPE).stdout.decode().splitlines()
    allowed, checked, audit, checks = map(int, re.findall(r"\d+", lines[-1]))
    if allowed != checked:
        sys.exit(f"the audit has {allowed} pairs, and the checks {checked}")
    print(f"{allowed} pairs, audit {audit / 1e6:.1f}, checks {checks / 1e6:.1f}, {audit / checks:.2f}")


if __name__ == "__main__":
    main()
