"""Runs the pairs of sources of ti-hints(7): whether the first has the hint of its section, and the
hints that the second has. A pair is two lines of one display, or two displays that adjoin."""

import re
import subprocess
import sys

DISPLAY = r"\.Bd -literal -offset indent\n((?:[^.].*\n)+)\.Ed\n"


def pairs(section):
    """The failing sources of a section, each with the corrected one."""
    for group in re.finditer(f"(?:{DISPLAY})+", section):
        displays = re.findall(DISPLAY, group[0].replace("\\e", "\\"))
        if len(displays) % 2:
            yield displays.pop(0).splitlines(keepends=True)
        yield from zip(displays[::2], displays[1::2])


def hints(source):
    """The codes of the hints on a source."""
    words = ["ti-lint", "-x", "--format", "github", "-"]
    shown = subprocess.run(words, input=source, stdout=subprocess.PIPE, stderr=subprocess.DEVNULL, text=True, check=False)
    return re.findall(r",title=(N\d) ", shown.stdout)


with open(sys.argv[1], encoding="utf-8") as page:
    sections = re.split(r"^\.S[hs] ", page.read(), flags=re.M)
for section in sections:
    code = section[:2]
    if re.match(r"N\d \w", section):
        for failing, corrected in pairs(section):
            print(code, code in hints(failing), hints(corrected))
