"""libprivilege, built for a trial."""

import os
import pathlib
import subprocess
import sys

TOP = pathlib.Path(__file__).resolve().parents[2]
CORE = TOP / "crates" / "client_c" / "out" / "libclient_c.a"


def built_library(scratch, core, flags=("-O2",), compiler="gcc"):
    """The folder of the libraries, built by `clients/build` over this core (None: that of crates/client_c) with these flags."""
    core = core or CORE
    if not core.is_file():
        sys.exit(f"there is no {core}: `rt lib` in crates/client_c makes it")
    folder = scratch / "library"
    kept = {**os.environ, "CORE": str(core.resolve()), "CFLAGS": " ".join(flags), "CC": compiler}
    subprocess.run([TOP / "clients" / "build", folder], env=kept, check=True)
    return folder
