#!/usr/bin/env python3
"""Instructions that a call of libti takes, compared with ncurses and unibilium, by valgrind's
callgrind.

    bench/library.py

The C library is made already (`make library`). What a call takes is the difference of a run of
20,000 calls and one of 10,000, by 10,000, on the system's entry of xterm-256color; of `curly` on that
of tmux-256color, which has Smulx.
"""

import os
import re
import shutil
import subprocess
import sys
import tempfile

sys.path.append(os.path.join(os.path.dirname(os.path.dirname(os.path.abspath(__file__))), "build"))
from repository import TOP, entry_file  # noqa: E402

LIBRARY = os.path.join(TOP, "crates", "ti_c", "out", "lib", "libti.a")
# what is measured, and with which entry
THINGS = {
    **dict.fromkeys(("setaf", "cup", "find", "get", "read", "send"), "xterm-256color"), "curly": "tmux-256color",
}
LACKING = {"ncurses-get", "ncurses-read", "unibilium-find", "unibilium-send", "unibilium-curly"}
COUNT = 10_000


def instructions(program, what, count, environment):
    """How many instructions one run takes."""
    words = ["valgrind", "--tool=callgrind", "--callgrind-out-file=/dev/null", program, what, str(count)]
    done = subprocess.run(words, env=environment, capture_output=True, text=True, check=True)
    return int(re.search(r"Collected : (\d+)", done.stderr)[1])


def main():
    entries = {name: entry_file(name) for name in THINGS.values()}
    if not all(entries.values()) or not shutil.which("valgrind") or not os.path.exists(LIBRARY):
        print(f"not measured: valgrind, the C library and the entries of {', '.join(entries)} are needed")
        return 1
    libraries = ["libti", "ncurses", "unibilium"]
    with tempfile.TemporaryDirectory() as room:
        program = os.path.join(room, "library")
        words = [os.environ.get("CC") or "cc", "-O2", "-I", f"{TOP}/include", f"{TOP}/bench/library.c", LIBRARY]
        words += ["-lncurses", "-ltinfo", "-o", program]
        if subprocess.run([*words, "-DUNIBILIUM", "-lunibilium"], capture_output=True, check=False).returncode:
            subprocess.run(words, check=True)
            libraries.remove("unibilium")
        print("instructions a call".ljust(24), *(name.rjust(10) for name in libraries))
        for thing, terminal in THINGS.items():
            environment, row = {**os.environ, "TERMINFO_FILE": entries[terminal], "TERM": terminal}, []
            for name in libraries:
                what = f"{name}-{thing}"
                if what in LACKING:
                    row.append("")
                    continue
                runs = [instructions(program, what, count, environment) for count in (COUNT, 2 * COUNT)]
                row.append(f"{(runs[1] - runs[0]) / COUNT:,.0f}")
            print(thing.ljust(24), *(figure.rjust(10) for figure in row), flush=True)
    return 0


if __name__ == "__main__":
    sys.exit(main())
