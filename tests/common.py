"""What the runners of tests share: where things are, what a case needs, and the closing line."""

import os
import re
import shutil
import subprocess
import sys

# after the directories of tests, one of which also has a module `packages`
sys.path.append(os.path.join(os.path.dirname(os.path.dirname(os.path.abspath(__file__))), "build"))
from repository import ENTRY_DIRECTORIES, PROBE, TOP, entry_file, files_below, program_of, text_of  # noqa: E402, F401


class Skipped(Exception):
    """What a case needs is not there; the text says what."""


PROGRAM = program_of("ti")
LSP = program_of("ti_lsp")
EVERYDAY = program_of("ti_everyday")


def need(program):
    """Skips the case unless a program is installed."""
    if not shutil.which(program):
        raise Skipped(f"{program} is not installed")


def bytes_of(path, default=None):
    """The bytes of a file; of one that is not there the default, if there is one."""
    try:
        with open(path, "rb") as file:
            return file.read()
    except FileNotFoundError:
        if default is None:
            raise
        return default


def lines_of(path):
    """The lines of a file that are not empty, stripped; none if there is no file."""
    return [line.strip() for line in bytes_of(path, b"").decode().split("\n") if line.strip()]


def commands_of(page, heading):
    """The commands of the first block of sh after a heading of a page, without their comments."""
    block = text_of(page).split(f"\n{heading}\n")[1].split("```sh\n")[1].split("```")[0]
    return [line.split("  #")[0].strip() for line in block.strip().split("\n")]


def programs_of(page):
    """The programs in C, C++ and Python of a page of Markdown that have a name there, `As NAME` after
    them: the text and the name of each."""
    return re.findall(r"^```(?:c|cpp|python)\n([^`]*)^```\n\nAs `([\w.]+)`", text_of(page), re.M)


def lines_printed(*words):
    """The lines that a command prints in the repository."""
    return subprocess.run(words, cwd=TOP, check=True, capture_output=True, text=True).stdout.split("\n")


def changed_paths(commit):
    """The files of crates that differ from a commit, or that git does not know yet."""
    paths = lines_printed("git", "diff", "--name-only", commit, "--", "crates")
    paths += lines_printed("git", "ls-files", "--others", "--exclude-standard", "--", "crates")
    return [path for path in paths if path]


def is_missing(program, word):
    """Whether a program that a runner tries is not built; then says so, and what the run counts."""
    if os.access(program, os.X_OK):
        return False
    print(f"{os.path.relpath(program, TOP)} is not built")
    print(f"{word}: 0 passed, 1 failed")
    return True


class Tally:
    """How many cases passed, failed and were skipped."""

    def __init__(self, word):
        self.word, self.passed, self.failed, self.skipped = word, 0, 0, 0

    def add(self, name, faults):
        """Counts one case, and prints its faults."""
        if not faults:
            self.passed += 1
            return
        self.failed += 1
        print(f"{name}: FAILED")
        for fault in faults:
            print(f"    {fault}")

    def skip(self, name, why):
        """Counts a case that was skipped, and says why, in the form that tests/run counts."""
        self.skipped += 1
        print(f"{name}: skipped, since {why}")

    def close(self):
        """Prints the closing line. Gives the exit status."""
        skipped = f", {self.skipped} skipped" if self.skipped else ""
        print(f"{self.word}: {self.passed} passed, {self.failed} failed{skipped}")
        return 1 if self.failed else 0
