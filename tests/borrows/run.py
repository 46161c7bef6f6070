#!/usr/bin/env python3
"""Programs that the borrow checker must refuse, and their neighbours that it must accept.

Each directory here is one library crate of a file `program`; `uses` names what it
uses of this repository, one crate a line. With a file `refused-by` the check must
refuse it by that error; without one it must pass. The crates are checked in a copy
of the repository's crates, over what the gate has stored of them. The last line is
`borrows: N passed, M failed`.
"""

import os
import shutil
import subprocess
import sys
import tempfile

HERE = os.path.dirname(os.path.abspath(__file__))
sys.path.insert(0, os.path.dirname(HERE))
from common import TOP, Tally, lines_of  # noqa: E402

from crates import all_below, read_crates  # noqa: E402


def part(case, name):
    """A file of a case."""
    return os.path.join(HERE, case, name)


def crate_of(case):
    """The name of the crate that a case becomes."""
    return "probe_" + case.replace("-", "_")


def prepare(room, cases):
    """Copies the crates that the cases depend on, and makes each case a crate of its own too."""
    crates, copied = read_crates(), os.path.join(room, "crates")
    used = {name for case in cases for name in lines_of(part(case, "uses"))}
    needed = sorted(used.union(*(all_below(crates, name) for name in used)))
    for name in needed:
        shutil.copytree(os.path.join(TOP, "crates", name), os.path.join(copied, name))
    with open(os.path.join(room, "crates.txt"), "w", encoding="utf-8") as file:
        for name in needed:
            file.write(f"{name}: {' '.join(crates[name].needs)}\n")
        for case in cases:
            source = os.path.join(copied, crate_of(case), "src")
            os.makedirs(source)
            shutil.copyfile(part(case, "program"), os.path.join(source, "lib.rt"))
            file.write(f"{crate_of(case)}: {' '.join(lines_of(part(case, 'uses')))}\n")
    subprocess.run(["git", "init", "-q", "."], cwd=room, check=True)


def run(case, room):
    """What is wrong with one case, or None."""
    wanted = lines_of(part(case, "refused-by")) if os.path.isfile(part(case, "refused-by")) else []
    done = subprocess.run(
        ["rt", "check"], cwd=os.path.join(room, "crates", crate_of(case)), stdout=subprocess.PIPE,
        stderr=subprocess.STDOUT, timeout=1200, encoding="utf-8", errors="replace", check=False,
    )
    if wanted:
        if done.returncode == 0:
            return "it was accepted"
        if not any(f"error[{code}]" in done.stdout for code in wanted):
            return f"it was refused, but not by {wanted[0]}: {done.stdout[-1500:]}"
        return None
    return None if done.returncode == 0 else f"it was refused: {done.stdout[-1500:]}"


def main():
    cases = sorted(name for name in os.listdir(HERE) if os.path.isfile(part(name, "program")))
    tally = Tally("borrows")
    with tempfile.TemporaryDirectory(prefix="ti-borrows-") as room:
        prepare(room, cases)
        for case in cases:
            fault = run(case, room)
            tally.add(case, [fault] if fault else [])
    return tally.close()


if __name__ == "__main__":
    sys.exit(main())
