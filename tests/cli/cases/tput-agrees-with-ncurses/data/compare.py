"""Compares `ti tput` with ncurses's on entries of the system: each capability that ncurses lists,
with as many parameters as its string takes, 0 to 2, alone and by `-S`. Prints what differs, and at
the end how much there was to compare.

Left out, since ncurses does not answer from the standard capability alone: `lines` and `cols`, for
which it asks the terminal and the environment, and `clear`, to which it adds the user-defined
capability E3, which clears what has scrolled away.
"""

import glob
import os
import re
import subprocess

# The first of these that has entries: those that another package adds, as Debian's ncurses-term,
# are not compared.
PLACES = ["/etc/terminfo", "/lib/terminfo", "/usr/share/terminfo"]
DIRECTORIES = [place for place in PLACES if glob.glob(f"{place}/?/*")][:1]
ASKED_ELSEWHERE = {"lines", "cols", "clear"}


def entries():
    found = {}
    for directory in DIRECTORIES:
        for at, _, names in os.walk(directory):
            for name in names:
                found.setdefault(name, directory)
    return found


def run(tool, term, words, lines=None):
    env = dict(os.environ, TERMINFO_DIRS=":".join(DIRECTORIES))
    done = subprocess.run(
        [*tool, "-T", term, *words], input=lines, env=env, stdout=subprocess.PIPE, stderr=subprocess.DEVNULL,
        stdin=None if lines is not None else subprocess.DEVNULL,
    )
    return done.returncode, done.stdout


def capabilities(term, directory):
    listed = subprocess.run(["infocmp", "-1", "-A", directory, term], stdout=subprocess.PIPE, stderr=subprocess.DEVNULL)
    for line in listed.stdout.decode("latin-1").split("\n"):
        found = re.match(r"\t([A-Za-z0-9]+)([=#,])(.*)", line)
        if found and found[1] not in ASKED_ELSEWHERE:
            yield found[1], found[2], found[3]


def commands(term, directory):
    for name, kind, value in capabilities(term, directory):
        yield [name]
        if kind != "=":
            continue
        if "%p1" in value:
            yield [name, "5"]
        if "%p2" in value:
            yield [name, "5", "7"]


def main():
    ours, theirs = ["ti", "tput"], ["tput"]
    compared = 0
    for term, directory in sorted(entries().items()):
        every = list(commands(term, directory))
        lines = "".join(" ".join(words) + "\n" for words in every).encode()
        compared += len(every)
        if run(ours, term, ["-S"], lines) == run(theirs, term, ["-S"], lines):
            continue
        for words in every:
            one, other = run(ours, term, words), run(theirs, term, words)
            if one != other:
                print(f"{term} {' '.join(words)}: {one} {other}")
    for term in ["xterm", "linux", "vt100"]:
        for words in commands(term, entries().get(term, DIRECTORIES[0])):
            one, other = run(ours, term, words), run(theirs, term, words)
            if one != other:
                print(f"{term} {' '.join(words)}: {one} {other}")
    print("compared" if compared > 1000 else f"compared {compared} alone")


main()
