"""Builds of Debian's source packages: the scripts and commands that call tic and infocmp are run as the packages
have them, once with ncurses's tools and once with ours in their place, and what they write is compared."""

import collections
import os
import re
import shutil
import subprocess

import images
import sources
from common import Skipped, bytes_of, files_below, need
from recipes import COMMANDS, PARTS

# why a build differs
ENTRIES = "docs/COMPARED.md, under tic: cancelled values and user-defined names without a value"
ORDER = "ncurses's infocmp lists the pairs of acsc in order"
LIMITS = "docs/COMPARED.md, under tic: entries over 4,096 bytes are an error"
LINKS = "ours are files, and links lead nowhere once Debian's rules have moved the entry"
OPTION = "the option is refused by name"
HEADING = "ours has no line that names the file"
STOPS = "the build stops at an error"
THROUGH = "tic writes the entry of rxvt-color through the link that was there, and so into the file of rxvt"
PRINTED = "the script prints the version of tic"
VERSION = "run-tic.sh prints the version of tic, and the build stops at an error"
RXVT, RXVT_COLOR = (b"%s|rxvt terminal emulator (X Window System)\0" % name for name in (b"rxvt", b"rxvt-color"))
# in what each build differs, with its cause
DIFFERENCES = {
    "kitty, build-terminfo": {
        "status 2 in place of 0": OPTION, "terminfo/kitty.termcap: missing": OPTION, "written by tic alone": STOPS,
    },
    "ncurses, run_tic.sh": {
        "cancelled values": ENTRIES, "absent user-defined names": ENTRIES,
        "other words on standard output": PRINTED,
    },
    "ncurses, debian/rules": {
        "cancelled values": ENTRIES, "absent user-defined names": ENTRIES,
        "a link that leads nowhere": LINKS,
        f"debian/tmp/lib/terminfo/r/rxvt: names {RXVT!r} and {RXVT_COLOR!r}": THROUGH,
    },
    "rxvt-unicode, ssh": {"spelled otherwise": ORDER},
    "rxvt-unicode, termcap": {"status 2 in place of 0": OPTION, "doc/etc/rxvt-unicode.termcap: other bytes": OPTION},
    "rxvt-unicode, infocmp -C": {"other words on standard output": HEADING},
    "xterm, run-tic.sh": {
        "status 1 in place of 0": LIMITS, "over 4,096 bytes": LIMITS,
        "cancelled values": ENTRIES, "other words on standard output": VERSION,
    },
    "xterm, tic -x": {
        "status 1 in place of 0": LIMITS, "over 4,096 bytes": LIMITS,
        "cancelled values": ENTRIES,
    },
    "xterm, terminfo.out": {"status 2 in place of 0": OPTION, "terminfo.out: other bytes": OPTION},
    "xterm, termcap.out": {"status 2 in place of 0": OPTION, "termcap.out: other bytes": OPTION},
}
# what a link without its file has
NOWHERE = b"a link that leads nowhere"
SECONDS = 300
Result = collections.namedtuple("Result", "status printed written")


def packages(room):
    """The directories of the source packages, unpacked and patched."""
    need("dpkg-source")
    directory = room.source_lists()
    for package in COMMANDS:
        sources.apt(directory, "source", "--download-only", package)
        described = sorted(name for name in os.listdir(directory) if re.fullmatch(rf"{package}_.*\.dsc", name))
        unpacked = os.path.join(directory, package)
        if described and unpack(os.path.join(directory, described[-1]), unpacked):
            yield package, unpacked
        else:
            print(f"    the package {package} cannot be had")


def unpack(described, directory):
    """Unpacks a source package, and applies Debian's patches. Gives whether that succeeds."""
    words = ("dpkg-source", "--no-check", "--extract", described, directory)
    return subprocess.run(words, stdout=subprocess.DEVNULL, stderr=subprocess.DEVNULL, check=False).returncode == 0


def copy_parts(package, unpacked, tree):
    """Puts what the builds need of a package into a directory, which has nothing else then."""
    shutil.rmtree(tree, ignore_errors=True)
    for part in PARTS[package]:
        path, copy = os.path.join(unpacked, part), os.path.join(tree, part)
        os.makedirs(os.path.dirname(copy), exist_ok=True)
        if os.path.isdir(path):
            shutil.copytree(path, copy, symlinks=True)
        else:
            shutil.copy2(path, copy)


def times_of(tree):
    """When the files of a package were written, by their paths."""
    found = {path: os.lstat(os.path.join(tree, path)) for path in files_below(tree)}
    return {path: (status.st_mtime_ns, status.st_ino) for path, status in found.items()}


def run_builds(package, tree, tools):
    """Runs the builds of a package. Gives for each its status, what it prints, and the files that are new or other
    ones after it."""
    path = f"{tools}:/usr/sbin:/usr/bin:/sbin:/bin"
    environment = {"PATH": path, "HOME": os.path.join(tree, "home"), "TREE": tree, "LC_ALL": "C.UTF-8"}
    found = {}
    for name, command in COMMANDS[package](tree):
        before = times_of(tree)
        done = subprocess.run(
            ("sh", "-ec", command), cwd=tree, env=environment, stdin=subprocess.DEVNULL, stdout=subprocess.PIPE,
            stderr=subprocess.PIPE, timeout=SECONDS, check=False,
        )
        written = [path for path, time in times_of(tree).items() if before.get(path) != time]
        contents = {path: bytes_of(os.path.join(tree, path), NOWHERE) for path in written}
        found[name] = Result(done.returncode, done.stdout, contents)
    return found


# How they differ


class Listings:
    """What ncurses's infocmp lists of entries."""

    def __init__(self, room):
        self.room, self.found = room, {}

    def listed(self, path, content):
        """The listing of an entry, without the comment that has its path."""
        if content not in self.found:
            file = self.room.path("listed", *path.split("/")[-2:])
            os.makedirs(os.path.dirname(file), exist_ok=True)
            with open(file, "wb") as entry:
                entry.write(content)
            shown = self.room.run("infocmp", "-x", "-1", "-A", self.room.path("listed"), os.path.basename(file)).stdout
            self.found[content] = re.sub(rb"^#.*\n", b"", shown, flags=re.M)
        return self.found[content]

    def alike(self, path, ours, theirs):
        return self.listed(path, ours) == self.listed(path, theirs)


def difference(path, ours, theirs):
    """How a file that both have to write differs, None if it does not."""
    if ours == theirs:
        return None
    if theirs == NOWHERE and images.is_entry(ours or b""):
        return "a link that leads nowhere"
    if all(content is None or images.is_entry(content) for content in (ours, theirs)):
        cause = images.cause_of(ours, theirs)
        return cause if not cause or cause in images.CAUSES or None in (ours, theirs) else f"{path}: {cause}"
    return f"{path}: {'missing' if ours is None else 'written by ours alone' if theirs is None else 'other bytes'}"


def compare(ours, theirs, listings):
    """In what a build by ours differs, in how many files each time, and how many of them ncurses lists alike; and how
    many files do not differ."""
    found, alike = collections.Counter(), 0
    if ours.status != theirs.status:
        found[f"status {ours.status} in place of {theirs.status}"] += 1
    if ours.printed != theirs.printed:
        found["other words on standard output"] += 1
    for path in sorted({*ours.written, *theirs.written}):
        pair = ours.written.get(path), theirs.written.get(path)
        found[difference(path, *pair)] += 1
        if pair[0] != pair[1] and all(images.is_entry(content or b"") for content in pair):
            alike += listings.alike(path, *pair)
    return found.pop(None, 0), found, alike


def unlisted(build, found):
    """What is not as the list has it of a build."""
    wanted = DIFFERENCES.get(build, {})
    return [f"{build}: {what}" for what in sorted(set(found) - set(wanted))] + [
        f"{build}: no longer differs: {what} ({wanted[what]})" for what in sorted(set(wanted) - set(found))
    ]


def check(room):
    """Runs the builds of all packages by both. Gives what is not as the list has it."""
    listings, faults, count = Listings(room), [], 0
    for package, unpacked in packages(room):
        tree, results = room.path("tree"), []
        for tools in (room.in_place, "/usr/bin"):
            copy_parts(package, unpacked, tree)
            results.append(run_builds(package, tree, tools))
        for name in results[0]:
            same, found, alike = compare(results[0][name], results[1][name], listings)
            others = "".join(f"; {what} ({number:,})" for what, number in sorted(found.items()))
            listed = f"; ncurses lists {alike:,} of them alike" if alike else ""
            print(f"    {package}, {name}: {same:,} files alike{others}{listed}", flush=True)
            faults += unlisted(f"{package}, {name}", found)
            count += 1
    if not count:
        raise Skipped("Debian's source packages cannot be had here")
    print(f"    {count} builds")
    return faults
