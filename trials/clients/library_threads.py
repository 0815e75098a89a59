#!/usr/bin/env python3
"""library_threads.py [--count N] [--core FILE]: four threads ask over libprivilege at once, an echo of equal frames: each with its handle,
one handle under a lock, and one without, which is wrong and has to be refused where it happens (`library_threads.c`). Plain and under
ThreadSanitizer; what the core does inside, ThreadSanitizer does not see. Ends with status 1 where one is not as wanted. Needs gcc, and
libclient_c.a, which `rt lib` makes in crates/client_c. Linux alone."""

import argparse
import pathlib
import subprocess
import sys
import tempfile

import program
from library_build import built_library
from library_cost import echo_at

HERE = pathlib.Path(__file__).resolve().parent


def main():
    words = argparse.ArgumentParser(description=__doc__, formatter_class=argparse.RawDescriptionHelpFormatter)
    words.add_argument("--count", type=int, default=20_000)
    words.add_argument("--core", type=pathlib.Path)
    options = words.parse_args()
    with tempfile.TemporaryDirectory(dir=program.ROOM) as name:
        scratch = pathlib.Path(name)
        path = scratch / "client.socket"
        echo = echo_at(scratch, path)
        try:
            for flags in (("-O2",), ("-O1", "-g", "-fsanitize=thread")):
                library = built_library(scratch, options.core, flags)
                build = ["gcc", "-std=c11", *flags, "-Wall", "-Wextra", "-Werror", "-pthread", "-I", library / "include"]
                built = [HERE / "library_threads.c", library / "lib" / "libprivilege.a", "-o", scratch / "threads"]
                subprocess.run([*build, *built], check=True)
                done = subprocess.run([scratch / "threads", path, str(options.count)], stdout=subprocess.PIPE)
                print(" ".join(flags), "answered, busy, wrong:", ", ".join(done.stdout.decode().split("\n")[:3]))
                if done.returncode:
                    sys.exit(1)
        finally:
            echo.kill()


if __name__ == "__main__":
    main()
