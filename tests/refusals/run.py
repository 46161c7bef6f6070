#!/usr/bin/env python3
"""Has each growth of memory refused in turn to the programs.

Each scenario runs a program once with all the memory it asks for, and then once for each growth
that it asks for, which is refused, until a run meets no refusal. A run to which one was refused

- does the same as the first, if the program can do without the growth; or
- says that it is out of memory and has another exit status than 0; what it wrote to standard output
  and reported before is the front of what the first run wrote, and each file is as the first run
  left it, or as before, and no other file is there.

A session answers `refused Memory` to an edit, and all its other answers are those to the script
without that edit.

Growths are refused by `refuse.c`, which is preloaded into the program and counts the calls of
malloc and of its kin; it is compiled by the clang of the toolchain, else by `cc`.

One edit of a thousand blocks is run apart: it asks for less than 500 growths, and each of these is
refused. The growths before, for the blocks themselves, are those of edits.

With names of scenarios as arguments only those are run. The last line is
`refusals: N passed, M failed`, which counts scenarios.
"""

import os
import shutil
import subprocess
import sys
import tempfile
import time
from concurrent.futures import ThreadPoolExecutor
from typing import NamedTuple

import scenarios

HERE = os.path.dirname(os.path.abspath(__file__))
sys.path.insert(0, os.path.dirname(HERE))
from common import EVERYDAY, PROGRAM, Tally, is_missing  # noqa: E402

PROGRAMS = {"ti": PROGRAM, "ti-everyday": EVERYDAY}
SECONDS = 60
# no scenario asks for so many growths: a sweep that reaches it would never end
MOST_GROWTHS = 20_000
# the growths that an edit of a database of a thousand blocks may ask for
MOST_OF_AN_EDIT = 500
AT_ONCE = 32
REFUSED_EDIT = b"refused Memory\n"


def compilers():
    """The clang of the toolchain, if it is found, and the machine's own compiler."""
    page = subprocess.run(["rt", "doc"], stdout=subprocess.PIPE, text=True, check=False).stdout.strip()
    clang = os.path.join(os.path.dirname(page), "toolchain", "bin", "clang")
    if os.access(clang, os.X_OK):
        yield [clang, "-fuse-ld=lld"]
    if shutil.which("cc"):
        yield ["cc"]


def build(directory):
    """The library that refuses a growth."""
    library, why = os.path.join(directory, "refuse.so"), "no C compiler was found"
    for words in compilers():
        words = [*words, "-O1", "-shared", "-fPIC", "-nostdlib", "-o", library, os.path.join(HERE, "refuse.c")]
        done = subprocess.run(words, stdout=subprocess.PIPE, stderr=subprocess.STDOUT, text=True, check=False)
        if done.returncode == 0:
            return library
        why = done.stdout
    raise OSError(why)


class Done(NamedTuple):
    """What a run came to: its status, what it wrote, and the files that it left."""

    status: int
    out: bytes
    err: bytes
    files: dict


def files_in(directory):
    """The files below a directory: what each holds, by its path."""
    found = {}
    for at, _, names in os.walk(directory):
        for name in names:
            with open(os.path.join(at, name), "rb") as file:
                found[os.path.relpath(os.path.join(at, name), directory)] = file.read()
    return found


class Runs:
    """Runs of one scenario with a growth refused, or none."""

    def __init__(self, library, directory, scenario):
        self.library, self.directory, self.scenario = library, directory, scenario

    def run(self, number, given=None):
        """A run with the growth of a number refused; how many it asked for, and how many were."""
        scenario = self.scenario
        with tempfile.TemporaryDirectory(dir=self.directory) as room:
            for name, content in scenario.files.items():
                os.makedirs(os.path.dirname(os.path.join(room, name)), exist_ok=True)
                with open(os.path.join(room, name), "wb") as file:
                    file.write(content)
            done = subprocess.run(
                [PROGRAMS[scenario.program], *scenario.words], input=scenario.given if given is None else given,
                stdout=subprocess.PIPE, stderr=subprocess.PIPE, cwd=room, timeout=SECONDS, check=False,
                env={"LD_PRELOAD": self.library, "REFUSE": str(number), "TERMINFO": "entries", "TERM": "aurora"},
            )
            err, _, counts = done.stderr.rstrip(b"\n").rpartition(b"\n")
            words = counts.split()
            if len(words) != 4 or words[0] != b"growths":
                if number and done.returncode > 0 and done.stderr.endswith(b"out of memory\n"):
                    # the part in C ends the process at once
                    return Done(done.returncode, done.stdout, done.stderr, files_in(room)), 0, 1
                raise ValueError(f"with growth {number} refused: status {done.returncode}, errors {done.stderr[-200:]!r}")
            err = err + b"\n" if err else b""
            return Done(done.returncode, done.stdout, err, files_in(room)), int(words[1]), int(words[3])


def is_front(done, whole, files):
    """Whether a run said that it is out of memory, and did no more than the front of the whole."""
    *said, last = done.err.splitlines(keepends=True) or [b""]
    return (
        done.status > 0 and b"out of memory" in last and whole.err.startswith(b"".join(said))
        and whole.out.startswith(done.out) and is_left_well(done, whole, files)
    )


def is_left_well(done, whole, files):
    """Whether each file is as the whole run left it or as before, and no other is there."""
    return set(files) <= set(done.files) <= {*files, *whole.files} and all(
        content in (whole.files.get(path), files.get(path)) for path, content in done.files.items())


class Sessions:
    """What a session answers to a script without one of its requests."""

    def __init__(self, runs):
        self.runs, self.requests, self.known = runs, runs.scenario.requests, {}

    def wanted(self, number):
        """The answers if memory is refused to the edit of this number."""
        if number not in self.known:
            parts = [b"".join(self.requests[:number]), b"".join(self.requests[:number] + self.requests[number + 1:])]
            front, rest = (self.runs.run(0, part)[0].out for part in parts)
            self.known[number] = front + REFUSED_EDIT + rest[len(front):]
        return self.known[number]

    def is_one_refused(self, done, whole):
        """Whether memory was refused to one edit alone, or to one report, and all else follows."""
        if (done.status, done.err) != (whole.status, whole.err) or done.out.count(REFUSED_EDIT) != 1:
            return False
        return any(done.out == self.wanted(number) for number in range(len(self.requests)))


def accepts(runs):
    """What decides whether a run to which memory was refused is right."""
    scenario = runs.scenario
    if scenario.requests:
        sessions = Sessions(runs)
        return lambda done, whole: sessions.is_one_refused(done, whole) or is_front(done, whole, scenario.files)
    return lambda done, whole: is_front(done, whole, scenario.files)


def sweep(runs, pool, whole, first):
    """Refuses each growth from the first on, until a run meets none. How many, and how many said so."""
    is_right, number, count, said = accepts(runs), first, 0, 0
    while count < MOST_GROWTHS:
        for at, (done, _, refusals) in enumerate(pool.map(runs.run, range(number, number + AT_ONCE)), number):
            if done != whole and (refusals == 0 or not is_right(done, whole)):
                raise ValueError(
                    f"with growth {at} refused: status {done.status}, {done.out[-120:]!r}, errors {done.err[-200:]!r}, "
                    f"files {sorted(path for path in done.files if done.files[path] != whole.files.get(path))}")
            if refusals == 0:
                return count, said
            count += 1
            said += done != whole
        number += AT_ONCE
    raise ValueError(f"still refused after {MOST_GROWTHS} growths")


def try_scenario(runs, pool):
    """Runs a scenario in all ways; what to say of it."""
    scenario = runs.scenario
    whole, growths, _ = runs.run(0)
    if whole.status != scenario.status or scenario.says not in whole.out + whole.err:
        raise ValueError(f"status {whole.status}, {whole.out[-200:]!r}, errors {whole.err[-200:]!r}")
    first = 1
    if scenario.before:
        first = 1 + runs.run(0, scenario.before)[1]
        if not first <= growths < first + MOST_OF_AN_EDIT:
            raise ValueError(f"the edit asks for {growths - first + 1} growths")
    count, said = sweep(runs, pool, whole, first)
    if not said:
        raise ValueError(f"of {count} growths refused none was told")
    return f"{count} growths refused, of which {said} told"


def main():
    if any(is_missing(program, "refusals") for program in PROGRAMS.values()):
        return 1
    start, tally = time.monotonic(), Tally("refusals")
    with tempfile.TemporaryDirectory(prefix="ti-refusals-") as directory, ThreadPoolExecutor(os.cpu_count()) as pool:
        library = build(directory)
        for scenario in scenarios.ALL:
            if sys.argv[1:] and scenario.name not in sys.argv[1:]:
                continue
            try:
                print(f"{scenario.name}: {try_scenario(Runs(library, directory, scenario), pool)}", flush=True)
                tally.add(scenario.name, [])
            except (subprocess.TimeoutExpired, OSError, ValueError) as fault:
                tally.add(scenario.name, [str(fault)])
    print(f"{time.monotonic() - start:.0f} seconds")
    return tally.close()


if __name__ == "__main__":
    sys.exit(main())
