"""A new system of Debian, made by debootstrap, and what is run in it."""

import os
import re
import shutil
import signal
import subprocess
import sys
import time

HERE = os.path.dirname(os.path.abspath(__file__))
TESTS = os.path.dirname(HERE)
sys.path[:0] = [TESTS, os.path.join(TESTS, "package"), os.path.join(TESTS, "tinfo")]
import packages  # noqa: E402
from common import Skipped, files_below, need  # noqa: E402

ENTER = os.path.join(HERE, "enter")
# what the pages ask for of Debian: compilers and pkg-config, make, Python with its environments, an
# editor, and the programs that ti-run runs
OF_DEBIAN = (
    "g++", "gcc", "libc6-dev", "less", "make", "neovim", "pkg-config", "python3", "python3-venv", "tmux", "vim",
)
# in how many seconds a command ends, and debootstrap, which gets 150 MB and unpacks them
SECONDS = 900
SECONDS_OF_SYSTEM = 2400
# how often debootstrap is tried, since a file may not come through
TRIES_OF_SYSTEM = 2
# a user who is not root
USER = 1000
AS_USER = ("setpriv", f"--reuid={USER}", f"--regid={USER}", "--clear-groups")
ENVIRONMENT = {
    "PATH": "/usr/local/sbin:/usr/local/bin:/usr/sbin:/usr/bin:/sbin:/bin", "HOME": "/room", "LC_ALL": "C.UTF-8",
    "DEBIAN_FRONTEND": "noninteractive", "PYTHONDONTWRITEBYTECODE": "1",
}


def run(words, seconds=SECONDS, **more):
    """Runs a command, and ends it and what it started after so many seconds. Gives its status, and all
    that it wrote."""
    with subprocess.Popen(
        words, stdin=subprocess.DEVNULL, stdout=subprocess.PIPE, stderr=subprocess.STDOUT, start_new_session=True, **more
    ) as started:
        try:
            said, _ = started.communicate(timeout=seconds)
        except subprocess.TimeoutExpired:
            os.killpg(started.pid, signal.SIGKILL)
            raise
    return started.returncode, said.decode(errors="replace")


def release():
    """The name of this system's release of Debian."""
    with open("/etc/os-release", encoding="utf-8") as file:
        found = re.search(r"VERSION_CODENAME=(\w+)", file.read())
    return found[1] if found else "stable"


class System:
    """The system and the packages, which are made once."""

    def __init__(self, directory):
        self.directory, self.first, self.why_not = directory, None, None
        self.root, self.made = self.path("system"), self.path("made")

    def path(self, *parts):
        return os.path.join(self.directory, *parts)

    def make(self):
        """Makes the packages and the system, or skips the case."""
        if self.why_not:
            raise Skipped(self.why_not)
        if self.first is not None:
            return
        try:
            self.make_packages()
            self.make_root()
        except Skipped as why:
            self.why_not = str(why)
            raise

    def make_packages(self):
        """Makes the packages and the archives of a release, and says how long that takes."""
        for program in ("debootstrap", "dh", "git", "make"):
            need(program)
        if not packages.HAS_LIBRARY or not packages.HAS_LSP or not packages.HAS_TINFO:
            raise Skipped("not all is made: make all lsp tinfo everyday")
        if os.geteuid() != 0:
            raise Skipped("a chroot takes root's rights")
        for what in ("deb", "release"):
            began = time.monotonic()
            packages.make(what, self.made)
            print(f"    make {what}: {time.monotonic() - began:.0f} seconds", flush=True)

    def bootstrap(self):
        """Makes the system. What is mounted for that is gone when it ends. Gives what debootstrap said at
        last, if there is none."""
        words = ["unshare", "--mount", "debootstrap", "--variant=minbase", f"--include={','.join(OF_DEBIAN)}"]
        said = ""
        for _ in range(TRIES_OF_SYSTEM):
            shutil.rmtree(self.root, ignore_errors=True)
            try:
                status, said = run([*words, release(), self.root], SECONDS_OF_SYSTEM)
            except subprocess.TimeoutExpired:
                return f"it did not end within {SECONDS_OF_SYSTEM} seconds"
            if status == 0:
                return ""
        return (said.strip().splitlines() or ["nothing"])[-1]

    def make_root(self):
        began = time.monotonic()
        why_not = self.bootstrap()
        if why_not:
            print(f"    debootstrap: {why_not}", flush=True)
            raise Skipped("debootstrap could make no system here")
        os.mkdir(os.path.join(self.root, "room"))
        if run([ENTER, self.root, self.directory, "true"])[0]:
            raise Skipped("nothing can be mounted here")
        self.first = set(files_below(self.root))
        print(f"    debootstrap: {time.monotonic() - began:.0f} seconds", flush=True)

    def left(self):
        """Files of the system that were not there at first."""
        return sorted(set(files_below(self.root)) - self.first)


class Room:
    """A directory of a case, which is /room in the system."""

    def __init__(self, system, name):
        system.make()
        self.system, self.directory, self.faults = system, system.path(name), []
        os.mkdir(self.directory)
        os.chown(self.directory, USER, USER)
        shutil.copytree(system.made, self.path("packages"))

    def path(self, *parts):
        return os.path.join(self.directory, *parts)

    def write(self, name, text):
        """Writes a file of the user's."""
        path = self.path(name)
        os.makedirs(os.path.dirname(path), exist_ok=True)
        with open(path, "w", encoding="utf-8") as file:
            file.write(text)
        while path != self.directory:
            os.chown(path, USER, USER)
            path = os.path.dirname(path)

    def run(self, command, before=(), **more):
        """Runs a command of sh in the system. Gives its status, and all that it wrote."""
        words = [ENTER, self.system.root, self.directory, *before, "sh", "-c", command]
        return run(words, env={**ENVIRONMENT, **more})

    def root_does(self, command):
        """Runs a command as root, which has to end well. Gives what it printed."""
        return self.has_to_work(command, *self.run(command))

    def user_does(self, command, **more):
        """The same as a user who is not root."""
        return self.has_to_work(command, *self.run(command, AS_USER, **more))

    def has_to_work(self, command, status, said):
        if status:
            self.faults.append(f"{command}: status {status}, {said[-1000:]!r}")
        return said

    def wants(self, what, got, wanted):
        """Notes a fault unless what was printed is what is wanted."""
        if got != wanted:
            self.faults.append(f"{what}: printed {got[-2000:]!r}, wanted {wanted!r}")

    def wants_nothing_left(self, what):
        """Notes the files that are left over in the system."""
        left = self.system.left()
        if left:
            self.faults.append(f"{what} leaves {left[:8]}")
