"""How commands of `ti` and of ncurses are measured: instructions, wall-clock time, files."""

import json
import os
import re
import shlex
import shutil
import statistics
import subprocess
import time
from typing import NamedTuple

from repository import files_below

# how often a command is timed that writes files, and one that does not, which is short
FILE_RUNS, SHORT_RUNS = 10, 100
SECONDS = 600
# what takes longer is timed alone, since callgrind takes some fifty times as long
COUNTED_SECONDS = 2.0
# the word of a command in whose place each run has a directory of its own
OUT = "{out}"


class Work(NamedTuple):
    """Some work: its name, the commands of ours and of ncurses, the file for their input, and whether
    both have to end well and write something."""

    name: str
    ours: list
    theirs: list
    given: str = os.devnull
    is_compared: bool = True

    def writes_files(self):
        return OUT in self.ours

    def runs(self):
        return FILE_RUNS if self.writes_files() else SHORT_RUNS


class Measure(NamedTuple):
    """What the two commands took; instructions are None if they were not counted."""

    name: str
    instructions: tuple
    seconds: tuple

    def ratio(self, of):
        """What ours took, as a part of what theirs took; None if it was not measured."""
        return of[0] / of[1] if None not in of else None


class Room:
    """A directory for what runs read and write; each run writes into a new directory in it."""

    def __init__(self, path):
        self.path, self.count = path, 0

    def write(self, name, content):
        """Writes a file, and gives its path."""
        path = os.path.join(self.path, name)
        with open(path, "wb") as file:
            file.write(content)
        return path

    def new(self):
        """The path of a directory that is not there yet, and was not there before."""
        self.count += 1
        return os.path.join(self.path, f"out{self.count}")

    def words(self, words):
        """The words of a command, with a new directory in place of OUT."""
        place = self.new()
        return [place if word == OUT else word for word in words]


def run(words, given):
    """Runs a command with a file as its input; gives its status and what it wrote."""
    with open(given, "rb") as file:
        done = subprocess.run(
            words, stdin=file, stdout=subprocess.PIPE, stderr=subprocess.DEVNULL, timeout=SECONDS, check=False,
        )
    return done.returncode, done.stdout


def clock(room, words, given):
    """The wall-clock seconds of one run."""
    words = room.words(words)
    with open(given, "rb") as file:
        begun = time.perf_counter()
        subprocess.run(
            words, stdin=file, stdout=subprocess.DEVNULL, stderr=subprocess.DEVNULL, timeout=SECONDS, check=False,
        )
        return time.perf_counter() - begun


def in_new_directory(words, following):
    """A command for sh that takes its directory from a file, since each run has another one."""
    command = " ".join('"$out"' if word == OUT else shlex.quote(word) for word in words)
    return shlex.join(["sh", "-c", f"read -r out <{shlex.quote(following)}; exec {command}"])


def hyperfine(room, work):
    """The median wall-clock seconds of both commands, by hyperfine."""
    report, following = os.path.join(room.path, "hyperfine.json"), os.path.join(room.path, "following")
    # hyperfine would take off a guess of its own shell's time, which is wrong on a busy machine
    words = ["hyperfine", "--shell", "none", "--style", "none", "--ignore-failure", "--warmup", "1"]
    words += ["--runs", str(work.runs()), "--export-json", report]
    commands = [shlex.join(command) for command in (work.ours, work.theirs)]
    if work.writes_files():
        commands = [in_new_directory(command, following) for command in (work.ours, work.theirs)]
        name = f"mktemp -u {shlex.quote(room.new())}-XXXXXXXXXX >{shlex.quote(following)}"
        words += ["--prepare", shlex.join(["sh", "-c", name])]
    done = subprocess.run([*words, *commands], stdout=subprocess.PIPE, stderr=subprocess.STDOUT, text=True, check=False)
    if done.returncode:
        raise OSError(f"hyperfine: {done.stdout}")
    with open(report, encoding="utf-8") as file:
        return tuple(result["median"] for result in json.load(file)["results"])


def wall_clock(room, work):
    """The median wall-clock seconds of both commands: by hyperfine, if it is installed, but for
    commands with input, which its version 1.15 cannot give; else in turn."""
    if shutil.which("hyperfine") and work.given == os.devnull:
        return hyperfine(room, work)
    pairs = [(clock(room, work.ours, work.given), clock(room, work.theirs, work.given)) for _ in range(work.runs())]
    return tuple(statistics.median(taken) for taken in zip(*pairs))


def instructions(room, words, given):
    """How many instructions one run takes, by callgrind, or None if valgrind is not installed."""
    if not shutil.which("valgrind"):
        return None
    words = ["valgrind", "--tool=callgrind", "--callgrind-out-file=/dev/null", *room.words(words)]
    with open(given, "rb") as file:
        done = subprocess.run(
            words, stdin=file, stdout=subprocess.DEVNULL, stderr=subprocess.PIPE, timeout=SECONDS, check=False,
        )
    found = re.search(rb"Collected : (\d+)", done.stderr)
    return int(found[1]) if found else None


def measure(room, work):
    """What both commands of a work take. The directories that they wrote are removed."""
    seconds = wall_clock(room, work)
    counted = (None, None)
    if seconds[0] < COUNTED_SECONDS:
        counted = tuple(instructions(room, words, work.given) for words in (work.ours, work.theirs))
    for name in os.listdir(room.path):
        if name.startswith("out"):
            shutil.rmtree(os.path.join(room.path, name), ignore_errors=True)
    return Measure(work.name, counted, seconds)


def files_written(room, words):
    """The files that a command writes into a new directory."""
    words = room.words(words)
    run(words, os.devnull)
    return set(files_below(words[words.index("-o") + 1]))
