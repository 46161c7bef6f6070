"""Sources of terminals' entries, from the source packages of Debian."""

import fnmatch
import os
import re
import subprocess
import tarfile

from common import Skipped

# the package of each source, the file, and what its build puts in place of words
SOURCES = {
    "foot": ("foot", "*/foot.info", {"@default_terminfo@": "foot"}),
    "dvtm": ("dvtm", "dvtm.info", {}),
    "rxvt-unicode": ("rxvt-unicode", "*/doc/etc/rxvt-unicode.terminfo", {}),
    "kitty": ("kitty", "*/terminfo/kitty.terminfo", {}),
    "xterm": ("xterm", "*/terminfo", {}),
    "ncurses": ("ncurses", "*/misc/terminfo.src", {}),
}
# how many hints of each code are on a source as this release has it
HINTS_RELEASE = "bookworm"
HINTS = {
    "foot": {}, "dvtm": {"N3": 4, "N4": 1}, "rxvt-unicode": {}, "kitty": {}, "xterm": {}, "ncurses": {"N2": 5, "N7": 7},
}
# whose lines ti-fmt --keep leaves as they are, but for one in a hundred
ONE_IN_A_HUNDRED = ("foot", "kitty", "ncurses")
LISTS = ("/etc/apt/sources.list.d/debian.sources", "/etc/apt/sources.list")


def release():
    """The name of this system's release of Debian."""
    with open("/etc/os-release", encoding="utf-8") as file:
        found = re.search(r"VERSION_CODENAME=(\w+)", file.read())
    return found[1] if found else "stable"


def mirror():
    """Where this system gets its packages from, and the key that they are signed with."""
    for path in LISTS:
        if not os.path.exists(path):
            continue
        with open(path, encoding="utf-8") as file:
            text = file.read()
        found = re.search(r"^URIs: *(\S+)", text, re.M) or re.search(r"^deb (?:\[[^]]*\] )?(\S+)", text, re.M)
        key = re.search(r"^Signed-By: *(\S+)", text, re.M)
        if found:
            return found[1], key[1] if key else "/usr/share/keyrings/debian-archive-keyring.gpg"
    raise Skipped("this system names no mirror of Debian")


def apt(room, *words):
    """Runs apt-get with lists of source packages of its own."""
    places = {
        "Dir::Etc::SourceList": "/dev/null", "Dir::Etc::SourceParts": f"{room}/parts",
        "Dir::State::Lists": f"{room}/lists", "Dir::Cache": f"{room}/cache", "APT::Sandbox::User": "root",
        "Acquire::Retries": "1", "Acquire::http::Timeout": "30",
    }
    options = [option for place, value in places.items() for option in ("-o", f"{place}={value}")]
    done = subprocess.run(
        ["apt-get", "-q", *options, *words], cwd=room, stdin=subprocess.DEVNULL, stdout=subprocess.DEVNULL,
        stderr=subprocess.DEVNULL, timeout=600, check=False,
    )
    return done.returncode == 0


def file_of(directory, package, pattern):
    """The text of the file of an archive of a source package, or None."""
    for name in sorted(os.listdir(directory)):
        if name.startswith(f"{package}_") and ".orig.tar." in name and not name.endswith(".asc"):
            with tarfile.open(os.path.join(directory, name)) as archive:
                for member in archive:
                    if member.isfile() and fnmatch.fnmatch(member.name, pattern):
                        return archive.extractfile(member).read()
    return None


def list_sources(room):
    """Makes lists of source packages in a directory, which has the lists and the cache of apt then, if there are none."""
    if os.path.exists(os.path.join(room, "parts")):
        return
    uri, key = mirror()
    for part in ("parts", "lists/partial", "cache/archives/partial"):
        os.makedirs(os.path.join(room, part))
    with open(os.path.join(room, "parts", "own.sources"), "w", encoding="utf-8") as file:
        file.write(f"Types: deb-src\nURIs: {uri}\nSuites: {release()}\nComponents: main\nSigned-By: {key}\n")
    if not apt(room, "update"):
        raise Skipped("Debian's source packages cannot be listed here")


def fetch(room):
    """Puts the sources that can be had into a directory, by their names. Gives their paths."""
    list_sources(room)
    found = {}
    for name, (package, pattern, words) in SOURCES.items():
        apt(room, "source", "--download-only", "--tar-only", package)
        text = file_of(room, package, pattern)
        if text is None:
            print(f"    the source of {name} cannot be had")
            continue
        for word, value in words.items():
            text = text.replace(word.encode(), value.encode())
        found[name] = os.path.join(room, f"{name}.ti")
        with open(found[name], "wb") as file:
            file.write(text)
    if not found:
        raise Skipped("Debian's source packages cannot be had here")
    return found
