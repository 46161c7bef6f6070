"""Programs in a terminal of 80 by 24 that tmux is, once with ncurses's libtinfo and once with that
over libti: the same keys are pressed, and the screens after each key are compared, and the bytes
that the program wrote if these are the same each time with ncurses's."""

import fcntl
import glob
import os
import re
import shutil
import subprocess
import tempfile
import termios
import time
from concurrent.futures import ThreadPoolExecutor

from common import need, text_of

TERMS = ["xterm-256color", "screen-256color"]
LINES = "".join(f"line {number}, \u00e9 \t tab\n" for number in range(1, 100))
# the command of a program, and the keys that are pressed; a key of one lower-case text is typed
PROGRAMS = {
    "bash": (
        "bash --norc --noprofile -i",
        ["echo hello", "Enter", "C-r", "hel", "C-a", "Right", "x", "M-f", "C-k", "Up", "C-l", "Enter", "exit", "Enter"],
    ),
    "less": ("less notes.txt", ["G", "g", "/37", "Enter", "Up", "n", "PageDown", "Space", "q"]),
    "vim": (
        "vim -u NONE -i NONE -n -N notes.txt",
        [":set number hlsearch ruler", "Enter", "/line 9", "Enter", "dd", "itext ", "Escape", "C-f", "C-b", "p",
         ":q!", "Enter"],
    ),
    "tmux": (
        "tmux -S inner -f tmux.conf new-session 'sh -i'",
        ["echo hello", "Enter", "C-b", "%", "ls", "Enter", "C-b", "o", "C-b", "c", "C-b", "d"],
    ),
    "zsh": (
        "zsh -f -i",
        ["echo hello", "Enter", "Up", "C-a", "Right", "x", "C-k", "Escape", "ls /etc/ter", "Tab", "C-u", "C-l", "exit",
         "Enter"],
    ),
    "fish": (
        "fish --no-config -i",
        ["echo hello", "Enter", "Up", "C-a", "Right", "x", "C-k", "C-u", "ec", "C-e", "Enter", "C-l", "exit", "Enter"],
    ),
    "more": ("more notes.txt", ["Space", "Enter", "Space", "=", "q"]),
    "emacs": (
        "emacs -Q -nw notes.txt",
        ["C-n", "C-e", "M-b", "C-v", "M-<", "C-s", "line 9", "C-g", "C-x", "C-c"],
    ),
    "minicom": (
        "minicom -s",
        ["Down", "Down", "Enter", "A", "C-u", "/dev/none", "Enter", "Enter", "Up", "Enter", "Escape", "Down", "Escape"],
    ),
    "w3m": ("w3m notes.txt", ["Space", "j", "l", "/line 3", "Enter", "n", "b", "G", "q", "y"]),
    "mg": ("mg -n notes.txt", ["C-n", "C-e", "M-b", "C-v", "M-<", "C-s", "line 9", "C-g", "C-x", "C-c"]),
    "tcsh": (
        "tcsh -f -i",
        ["echo hello", "Enter", "Up", "C-a", "Right", "x", "C-k", "C-u", "ls /etc/ter", "Tab", "C-u", "C-l", "exit",
         "Enter"],
    ),
    "joe": ("joe -asis -nobackups notes.txt", ["C-n", "C-e", "PageDown", "xyz", "C-k", "h", "C-c", "y"]),
}
# in how many seconds a program begins, and in how many all that it wrote is recorded, on a machine
# that has much else to do
START = 120
# for how many seconds the screens have to be quiet: longer ones count if something differs
QUIET = (0.15, 0.6, 2, 5)
# how many times longer than a screen has to be quiet it may take to be like the others
PATIENCE = 30
# what the shell around a program writes when that has ended
ENDED = "ended"
TMUX_CONF = """set -g status-right ''
set -g status-interval 0
set -g default-terminal screen-256color
set -g automatic-rename off
"""


class Screen:
    """A program in a terminal, in a directory of its own."""

    def __init__(self, command, term, start):
        self.directory = tempfile.mkdtemp(prefix="ti-tinfo-")
        self.tmux = ["tmux", "-S", self.path("outer"), "-f", "/dev/null"]
        try:
            self.begin(command, term, start)
        except (OSError, subprocess.SubprocessError):
            self.close()
            raise

    def begin(self, command, term, start):
        """Begins the program once all that it writes is recorded."""
        # directories of the same name, since programs show them
        here = os.path.join(self.directory, "here")
        os.mkdir(here)
        for name, text in (("notes.txt", LINES), ("tmux.conf", TMUX_CONF)):
            with open(os.path.join(here, name), "w", encoding="utf-8") as file:
                file.write(text)
        variables = {
            "LC_ALL": "C.UTF-8", "HOME": ".", "PATH": "/usr/bin:/bin", "TERM": term, "LESSHISTFILE": "-", "PS1": "$ ",
            "HISTFILE": "", "SHELL": "/bin/sh",
        }
        words = " ".join(f"{name}='{value}'" for name, value in variables.items())
        # a shell waits for the program, since tmux may not see that a pane's own process has ended
        started = self.write("program.sh", f"echo $$ >{self.path('process')}\nexec env -i {words} {start} {command}\n")
        main = self.write("main.sh", f"read begin\nstty sane\nsh {started}\necho {ENDED}\nread end\n")
        self.run("new-session", "-d", "-x", "80", "-y", "24", "-c", here, f"exec sh {main}")
        self.run("pipe-pane", "-o", f"exec cat >>{self.path('written')}")
        self.terminal = self.run("display-message", "-p", "#{pane_tty}").decode().strip()
        self.device = os.stat(self.terminal).st_rdev
        self.run("send-keys", "Enter")

    def path(self, name):
        return os.path.join(self.directory, name)

    def write(self, name, text):
        """Writes a file above the directory in which the program is. Gives its path."""
        with open(self.path(name), "w", encoding="utf-8") as file:
            file.write(text)
        return self.path(name)

    def run(self, *words):
        return subprocess.run([*self.tmux, *words], stdout=subprocess.PIPE, stderr=subprocess.DEVNULL, check=True).stdout

    def capture(self):
        """What is on the screen, with colors and attributes, and where the cursor is."""
        return self.run("capture-pane", "-p", "-e", ";", "display-message", "-p", "#{cursor_x},#{cursor_y}")

    def waits(self):
        """Whether there are keys that the program has not read yet."""
        try:
            terminal = os.open(self.terminal, os.O_RDONLY | os.O_NOCTTY | os.O_NONBLOCK)
        except OSError:
            return False
        try:
            return fcntl.ioctl(terminal, termios.FIONREAD, b"\0" * 4) != b"\0" * 4
        except OSError:
            return False
        finally:
            os.close(terminal)

    def press(self, key):
        special = key[0].isupper() and len(key) > 1
        self.run("send-keys", *([key] if special else ["-l", key]))

    def libraries(self):
        """The libraries named libtinfo.so.6 that the program has loaded, once it has begun."""
        end = time.monotonic() + START
        while time.monotonic() < end:
            time.sleep(0.03)
            try:
                process = text_of(self.directory, "process").strip()
                maps = text_of("/proc", process, "maps") if process else ""
            except OSError:
                continue
            found = {line.split()[-1] for line in maps.splitlines() if "libtinfo" in line}
            if found:
                return found
        return set()

    def bytes_written(self, has_ended):
        """What is recorded; of a program that has ended, all up to that, once it is."""
        end = time.monotonic() + START
        while True:
            with open(self.path("written"), "rb") as file:
                written = file.read().replace(self.directory.encode(), b"")
            before, ended, _ = written.rpartition(f"{ENDED}\r\n".encode())
            if ended or not has_ended or time.monotonic() > end:
                return before if ended else written
            time.sleep(0.03)

    def close(self):
        subprocess.run([*self.tmux, "kill-server"], stderr=subprocess.DEVNULL, check=False)
        shutil.rmtree(self.directory, ignore_errors=True)


def busy_terminals():
    """The devices of the terminals in which something runs or waits to run, which a busy machine
    puts off."""
    found = set()
    for path in glob.glob("/proc/[0-9]*/stat"):
        try:
            # after the name of the program, which may have spaces: the state, .., the terminal
            state, _, _, _, device = text_of(path).rpartition(") ")[2].split()[:5]
        except (OSError, ValueError):
            continue
        if state in "RD":
            found.add(int(device))
    return found


def settled(screens, quiet):
    """What is on each of these screens once all are alike, none has changed for `quiet` seconds, and
    nothing runs in their terminals; or what is there when PATIENCE times as long has gone by."""
    last, since = None, time.monotonic()
    end = since + PATIENCE * quiet
    while time.monotonic() < end:
        shown = [screen.capture() for screen in screens]
        if shown != last or any(screen.waits() for screen in screens):
            last, since = shown, time.monotonic()
        elif len(set(shown)) == 1 and time.monotonic() - since > quiet:
            busy = busy_terminals()
            if not any(screen.device in busy for screen in screens):
                break
            since = time.monotonic()
        time.sleep(0.03)
    return last


def difference(name, term, key, shown):
    """What differs between the screens after a key, the first with libti, or None."""
    first, *others = (screen.decode() for screen in shown)
    if others[0] != others[1]:
        return f"{name} on {term}, {key}: with ncurses's\n{others[0]}\n--- and again\n{others[1]}"
    return None if first == others[0] else f"{name} on {term}, {key}:\n{first}\n--- and with ncurses's\n{others[0]}"


class Run:
    """A program that is run several times at once, first by ti-run and then with ncurses's library:
    the keys are pressed in all of them, and each key waits until the screens are alike."""

    def __init__(self, name, command, term, room, quiet):
        keys = PROGRAMS[name][1]
        self.shown, self.wrong, screens = [], None, []
        try:
            for start in (room.ti_run, room.plain, room.plain):
                screens.append(Screen(command, term, start))
            self.libraries = [screen.libraries() for screen in screens]
            for key in ("at first", *keys):
                if self.shown:
                    for screen in screens:
                        screen.press(key)
                shown = settled(screens, quiet if self.shown else 3 * quiet)
                self.shown.append(shown[0])
                self.wrong = difference(name, term, key, shown)
                if self.wrong:
                    break
            has_ended = not self.wrong and ENDED.encode() in self.shown[-1]
            self.written = [screen.bytes_written(has_ended) for screen in screens]
        finally:
            for screen in screens:
                screen.close()


def compare(name, term, room, command=None):
    """What is wrong with a program on a terminal, started by its command or by another one, and
    whether its bytes were compared. They are if those of each library are the same in all runs; more
    time is given if something differs."""
    ours, theirs = set(), set()
    for quiet in QUIET:
        ran = Run(name, command or PROGRAMS[name][0], term, room, quiet)
        ours.add(ran.written[0])
        theirs.update(ran.written[1:])
        repeats = len(ours) == len(theirs) == 1
        is_same_bytes = not repeats or ours == theirs
        if not ran.wrong and is_same_bytes:
            break
    wrong = ran.wrong
    # the screens have to show that the keys were taken
    if not wrong and len({*ran.shown}) < 4:
        wrong = f"{name} on {term} shows too little: {ran.shown}"
    if ran.libraries[0] != {f"{room.libraries}/libtinfo.so.6"}:
        wrong = f"{name} has loaded {ran.libraries[0]}"
    if not wrong and not is_same_bytes:
        wrong = f"{name} on {term} writes {ours!r}, and with ncurses's {theirs!r}"
    return wrong, repeats


def faults(name, room):
    """What is wrong with a program, on each terminal; says how much was compared."""
    need(name)
    need("tmux")
    with ThreadPoolExecutor(len(TERMS)) as pool:
        found = list(pool.map(lambda term: compare(name, term, room), TERMS))
    screens = len(TERMS) * (len(PROGRAMS[name][1]) + 1)
    repeating = [term for term, (_, repeats) in zip(TERMS, found) if repeats]
    print(f"    {name}: {screens} screens, and the bytes on {', '.join(repeating) or 'no terminal'}")
    return [wrong for wrong, _ in found if wrong]
