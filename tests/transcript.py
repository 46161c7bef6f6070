#!/usr/bin/env python3
"""Runs the commands that documents show, unchanged, and compares what they print.

    transcript.py FILE..      pages in mdoc (FILE.1, FILE.7) or Markdown

In a literal display of a page, or a block of Markdown between lines of three backquotes, a line
that begins with `$ ` is a command of sh; if it has a here-document, that follows as it is, and ends
with the line END. The lines up to the next command are what it prints on standard output and error
together. A block that does not begin with `$ ` is not looked at. The commands of a document are run
one after the other in the current directory by one shell. Prints what differs, and nothing if all
is as shown.
"""

import re
import subprocess
import sys

MARK = "==== end of the command ===="
UNESCAPED = {"\\e": "\\", "\\&": "", "\\-": "-", "\\(aq": "'", "\\(ha": "^", "\\(ti": "~", "\\(ga": "`"}


def plain(line):
    """A line of a literal display, without the escapes of mdoc."""
    return re.sub(r"\\e|\\&|\\-|\\\((?:aq|ha|ti|ga)", lambda found: UNESCAPED[found[0]], line)


def blocks(path):
    """The literal blocks of a document, each a list of lines."""
    with open(path, encoding="utf-8") as file:
        lines = file.read().split("\n")
    is_page = not path.endswith(".md")
    inside = None
    for line in lines:
        if inside is None:
            if line.startswith(".Bd -literal" if is_page else "```"):
                inside = []
        elif line == (".Ed" if is_page else "```"):
            yield inside
            inside = None
        else:
            inside.append(plain(line) if is_page else line)


def commands(path):
    """The commands of a document, each with the text that it is to print."""
    for block in blocks(path):
        if not block or not block[0].startswith("$ "):
            continue
        command, shown, ends = None, [], None
        for line in block:
            if ends is not None:
                command += "\n" + line
                ends = None if line == ends else ends
            elif line.startswith("$ "):
                if command is not None:
                    yield command, "\n".join(shown)
                command, shown = line[2:], []
                ends = "END" if "<<" in command and "END" in command else None
            else:
                shown.append(line)
        yield command, "\n".join(shown)


def differences(path):
    every = list(commands(path))
    if not every:
        yield f"{path}: no commands"
        return
    script = "exec 2>&1\n" + "".join(f"{command}\necho; echo '{MARK}'\n" for command, _ in every)
    done = subprocess.run(["sh", "-c", script], stdin=subprocess.DEVNULL, stdout=subprocess.PIPE, timeout=300)
    printed = done.stdout.decode("utf-8", errors="backslashreplace").split(f"\n{MARK}\n")
    for (command, shown), got in zip(every, printed):
        if got.rstrip("\n") != shown.rstrip("\n"):
            yield f"{path}: $ {command}\n--- shown\n{shown}\n--- printed\n{got}"
    if len(printed) != len(every) + 1:
        yield f"{path}: {len(printed) - 1} of {len(every)} commands ended"


def main():
    for path in sys.argv[1:]:
        for difference in differences(path):
            print(difference)


if __name__ == "__main__":
    main()
