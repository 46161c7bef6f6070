#!/usr/bin/env python3
"""Instructions that a call of libtinfo takes, over libti and with ncurses's library, by valgrind's
callgrind.

    bench/tinfo.py

The library is made already (`make tinfo`). What a call takes is the difference of two runs of one
program, by the number of calls between them, on the system's entry of xterm-256color.
"""

import os
import re
import shutil
import subprocess
import sys
import tempfile

sys.path.append(os.path.join(os.path.dirname(os.path.dirname(os.path.abspath(__file__))), "build"))
from repository import TOP, entry_file  # noqa: E402

LIBRARIES = os.path.join(TOP, "crates", "ti_c", "out", "lib", "ti")
THINGS = ("setupterm", "tigetstr", "tgetstr", "setaf", "cup", "tgoto", "tputs")
COUNT = 1000


def instructions(program, what, count, libraries):
    """How many instructions one run takes with the library of a directory, or the system's."""
    kept = {name: value for name, value in os.environ.items() if name != "LD_LIBRARY_PATH"}
    environment = {**kept, "LD_LIBRARY_PATH": libraries} if libraries else kept
    words = ["valgrind", "--tool=callgrind", "--callgrind-out-file=/dev/null", program, what, str(count)]
    done = subprocess.run(words, env=environment, capture_output=True, text=True, check=True)
    return int(re.search(r"Collected : (\d+)", done.stderr)[1])


def main():
    made = os.path.exists(os.path.join(LIBRARIES, "libtinfo.so.6"))
    if not entry_file("xterm-256color") or not shutil.which("valgrind") or not made:
        print("not measured: valgrind, the entry of xterm-256color and `make tinfo` are needed")
        return 1
    with tempfile.TemporaryDirectory() as room:
        program = os.path.join(room, "tinfo")
        words = [os.environ.get("CC") or "cc", "-O2", f"{TOP}/bench/tinfo.c", "-ltinfo", "-o", program]
        subprocess.run(words, check=True)
        print("instructions a call".ljust(24), "over libti".rjust(12), "ncurses".rjust(12))
        for thing in THINGS:
            row = []
            for libraries in (LIBRARIES, None):
                runs = [instructions(program, thing, count, libraries) for count in (COUNT, 2 * COUNT)]
                row.append(f"{(runs[1] - runs[0]) / COUNT:,.0f}".rjust(12))
            print(thing.ljust(24), *row, flush=True)
    return 0


if __name__ == "__main__":
    sys.exit(main())
