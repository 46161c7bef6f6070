#!/usr/bin/env python3
"""Writes docs/FOUND.md: the mistakes that `ti-lint` finds in the sources of terminals, as Debian's
source packages have them.

    docs/found.py            writes the page
    docs/found.py --check    says whether it is up to date
    docs/found.py .. DIRECTORY    takes the sources in a directory, where an earlier run kept them, or
                                  keeps them there

The sources are those of tests/everyday/sources.py, and some that are small. Each repair is made in
the text of its entry, and `ti-lint` is run again: a repair after which the message is still there
is an error. What needs no more words than the message has is said by it. The last line is
`found: N passed, M failed[, K skipped]`.
"""

import json
import os
import re
import subprocess
import sys
import tempfile

HERE = os.path.dirname(os.path.abspath(__file__))
TESTS = os.path.join(os.path.dirname(HERE), "tests")
sys.path[:0] = [os.path.join(TESTS, "everyday"), TESTS]
import sources  # noqa: E402
from common import EVERYDAY, TOP, Skipped, Tally, is_missing, text_of  # noqa: E402

PAGE = os.path.join("docs", "FOUND.md")
MORE = {
    "bogl": ("bogl", "*/bterm.ti", {}),
    "fbterm": ("fbterm", "*/terminfo/fbterm", {}),
    "screen": ("screen", "*/terminfo/screeninfo.src", {}),
}
# limits of ti are no mistakes of a source
LIMITS = ("E2", "E9")
HEAD = """# Mistakes in the sources of terminals

`ti-lint -x` finds these in sources as Debian {release} has them. `docs/found.py` made this page: it
made each repair that is certain, and the message was then gone. [ti-report(7)](../man/ti-report.7)
and [ti-hints(7)](../man/ti-hints.7) explain the codes. `ti-lint -x FILE` checks your own source.

| Source | Version | Entries | Mistakes |
|---|---|---:|---:|
"""
ROWS = """
## {name}

| Line | Entry | Code | Why | Written | Repair |
|---:|---|---|---|---|---|
"""


def lint(path):
    """What ti-lint says of a source, in its order."""
    done = subprocess.run(
        [EVERYDAY, "ti-lint", "-x", "--format", "json", path], stdout=subprocess.PIPE, stderr=subprocess.DEVNULL, check=False,
    )
    return json.loads(done.stdout)


def offset_of(text, place):
    """The offset of a place of the protocol in a text, whose columns count units of UTF-16."""
    line = text.split("\n")[place["line"]]
    before = line.encode("utf-16-le")[: 2 * place["character"]].decode("utf-16-le")
    return sum(len(other) + 1 for other in text.split("\n")[: place["line"]]) + len(before)


class Finding:
    """One message of ti-lint, with the item that it marks and the entry that this is of."""

    def __init__(self, text, told):
        self.start, self.end = (offset_of(text, told["range"][side]) for side in ("start", "end"))
        self.line = told["range"]["start"]["line"] + 1
        self.code, self.told = str(told["code"]), told["message"]
        self.written = text[self.start : self.end]
        heads = re.findall(r"^([^\s#,|]+)[|,]", text[: self.end], re.M)
        self.entry = heads[-1] if heads else ""
        # the name that the message is about, and its sentence
        found = re.match(r"\w+(?: (\S+))?: (.*)", self.told)
        self.subject, self.sentence = found[1] or "", found[2]
        self.name = re.match(r"[^=#@]*", self.written)[0]

    def same(self, other):
        return (self.code, self.entry, self.subject, self.name) == (other.code, other.entry, other.subject, other.name)


# Each gives why an item is wrong, and what to write in its place, or None if only its author knows.


def missing_comma(found):
    why = f"a comma is missing, so `{found.name}` gets the text of `{found.subject}` too, which is not set"
    before, name, after = found.written.partition(f"{found.subject}=")
    # the other item may be on the next line
    return why, f"{before}, {name}{after}" if name else f"{before},"


def foreign_parameter(found):
    return f"`{found.name}` does not have the parameter `{found.subject}`, which is 0", None


def wrong_padding(found):
    repaired = re.sub(r"\$<\.", "$<0.", found.written)
    return "a delay begins with a digit: our tools send this one as text, and ncurses waits", repaired


def unknown_name(found):
    return f"no terminal or program is known to use `{found.subject or found.name}`", None


def said_after_use(found):
    if not found.sentence.startswith("A use before this item"):
        return found.sentence, None
    return f"a use before it has `{found.subject}` too: our `ti tic` takes that, ncurses and `ti-tic` the item", None


REPAIRS = {"N2": foreign_parameter, "N3": said_after_use, "N4": missing_comma, "N7": wrong_padding, "N8": unknown_name}


def explained(found):
    if found.code in REPAIRS:
        return REPAIRS[found.code](found)
    return found.sentence, None


def advice(found, repaired):
    """What the column of repairs says."""
    if found.code == "N3":
        return "move the `use=` to the end"
    return "not certain" if repaired is None else code(repaired)


def code(text):
    """A text as code in a cell of a table; of a long one the end is left out."""
    shown = text if len(text) <= 60 else f"{text[:57]}..."
    return "`" + shown.replace("|", "\\|").replace("\n", " ") + "`"


def block_around(text, found):
    """Where the entry of a finding begins in a text, and where it ends."""
    heads = [head.start() for head in re.finditer(r"^[^\s#]", text, re.M)]
    return max(at for at in heads if at <= found.start), min([at for at in heads if at >= found.end], default=len(text))


def is_repaired(text, found, repaired, room):
    """Whether the message is gone, and was there before, in the entry with the item written in another
    way."""
    start, end = block_around(text, found)
    are_there = []
    for item in (found.written, repaired):
        path = os.path.join(room, "entry.ti")
        with open(path, "w", encoding="utf-8", errors="surrogateescape", newline="") as file:
            file.write(text[start : found.start] + item + text[found.end : end])
        are_there.append(any(found.same(Finding(read(path), told)) for told in lint(path)))
    return are_there == [True, False]


def version_of(directory, package):
    for name in sorted(os.listdir(directory)):
        found = re.match(rf"{re.escape(package)}_(.*)\.orig\.tar\.", name)
        if found:
            return found[1]
    return "?"


def read(path):
    with open(path, encoding="utf-8", errors="surrogateescape", newline="") as file:
        return file.read()


def rows_of(path, room, faults):
    """The rows on a source, and how many of its messages are about limits of ti."""
    text, rows, limits = read(path), [], 0
    for told in lint(path):
        found = Finding(text, told)
        if found.code in LIMITS:
            limits += 1
            continue
        why, repaired = explained(found)
        if repaired is not None and not is_repaired(text, found, repaired, room):
            faults.append(f"{path}:{found.line}: {found.code} is still there after the repair")
        shown = advice(found, repaired)
        rows.append(f"| {found.line} | `{found.entry}` | {found.code} | {why} | {code(found.written)} | {shown} |")
    return rows, limits


def page(directory, paths, faults):
    """The page on the sources at some paths, by their names."""
    head, parts, limits = HEAD.format(release=sources.release()), [], 0
    for name, path in sorted(paths.items()):
        with tempfile.TemporaryDirectory(prefix="ti-found-") as room:
            rows, over = rows_of(path, room, faults)
        limits += over
        entries = len(re.findall(r"^[^\s#]", read(path), re.M))
        head += f"| {name} | {version_of(directory, sources.SOURCES[name][0])} | {entries:,} | {len(rows)} |\n"
        if rows:
            parts.append(ROWS.format(name=name) + "\n".join(rows) + "\n")
    if limits:
        head += f"\nNot counted are {limits} entries over a limit of [ti(1)](../man/ti.1), of their names or their size.\n"
    return head + "".join(parts)


def kept(directory):
    """The paths of the sources that an earlier run kept in a directory."""
    found = {name: os.path.join(directory, f"{name}.ti") for name in sources.SOURCES}
    return {name: path for name, path in found.items() if os.path.exists(path)}


def main():
    words = [word for word in sys.argv[1:] if word != "--check"]
    if is_missing(EVERYDAY, "found"):
        return 1
    sources.SOURCES.update(MORE)
    tally, faults = Tally("found"), []
    with tempfile.TemporaryDirectory(prefix="ti-found-") as room:
        directory = words[0] if words else room
        os.makedirs(directory, exist_ok=True)
        try:
            text = page(directory, kept(directory) or sources.fetch(directory), faults)
        except Skipped as why:
            tally.skip("page", why)
            return tally.close()
    path = os.path.join(TOP, PAGE)
    if "--check" not in sys.argv[1:]:
        with open(path, "w", encoding="utf-8") as file:
            file.write(text)
    elif sources.release() not in text_of(PAGE).split("\n|")[0]:
        tally.skip("page", f"it is not about {sources.release()}")
        return tally.close()
    elif text_of(PAGE) != text:
        faults.append(f"{PAGE} is out of date: docs/found.py writes it")
    tally.add("page", faults)
    return tally.close()


if __name__ == "__main__":
    sys.exit(main())
