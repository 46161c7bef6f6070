"""Runs less, nano and dialog under tmux on an entry that `ti tic` made and on the one that
ncurses's tic made of the same source, presses the same keys, and compares the screens, with
colors and attributes, after each. Prints how many screens were compared, or what differs."""

import os
import shutil
import subprocess
import tempfile
import time
from concurrent.futures import ThreadPoolExecutor

ENTRIES = ["comet", "lantern3", "beacon-direct"]
PROGRAMS = [
    ("less", "less lines.txt", ["G", "g", "/37", "Enter", "Up", "q"]),
    ("nano", "nano --ignorercfiles lines.txt", ["Down", "Right", "typed here ", "C-k", "C-x", "n"]),
    ("dialog", "dialog --title Lamps --menu 'Choose one' 12 40 3 1 first 2 second 3 third", ["Down", "Tab", "Right", "Enter"]),
]


class Screen:
    """A program in a terminal of 80 by 24 that tmux is."""

    def __init__(self, socket, command, places, term):
        self.tmux = ["tmux", "-S", socket, "-f", "/dev/null"]
        env = f"env LC_ALL=C.UTF-8 HOME=. TERM={term} TERMINFO={places} TERMINFO_DIRS={places} LESSHISTFILE=-"
        command = f"{env} {command} 2>&1; printf '\\033[24;1Hended'; sleep 60"
        subprocess.run([*self.tmux, "new-session", "-d", "-x", "80", "-y", "24", command], check=True)

    def capture(self):
        got = subprocess.run([*self.tmux, "capture-pane", "-p", "-e"], stdout=subprocess.PIPE, check=True).stdout
        where = ["display-message", "-p", "#{cursor_x},#{cursor_y}"]
        return got + subprocess.run([*self.tmux, *where], stdout=subprocess.PIPE, check=True).stdout

    def settled(self, quiet):
        """The screen once it has not changed for `quiet` seconds."""
        end, last, since = time.monotonic() + 10, b"", time.monotonic()
        while time.monotonic() < end:
            got = self.capture()
            if got != last:
                last, since = got, time.monotonic()
            elif got.strip() != b"0,0" and time.monotonic() - since > quiet:
                break
            time.sleep(0.05)
        return last

    def press(self, key):
        subprocess.run([*self.tmux, "send-keys", *([key] if key[0].isupper() else ["-l", key])], check=True)

    def close(self):
        subprocess.run([*self.tmux, "kill-server"], stderr=subprocess.DEVNULL)


def screens(command, keys, places, term, quiet):
    directory = tempfile.mkdtemp(prefix="ti-tmux-")
    screen = Screen(os.path.join(directory, "socket"), command, places, term)
    try:
        found = [screen.settled(quiet)]
        for key in keys:
            screen.press(key)
            found.append(screen.settled(quiet))
        return found
    finally:
        screen.close()
        shutil.rmtree(directory)


def faults(name, term, keys, ours, theirs):
    """What is wrong with the screens of a program."""
    if len({*ours}) < 3 or any(b"ended" in screen for screen in ours[:-1]):
        yield f"{name} on {term} shows too little: {ours}"
    for key, one, other in zip(["at first", *keys], ours, theirs):
        if one != other:
            yield f"{name} on {term}, {key}:\n{one.decode()}\n--- and on ncurses's entry\n{other.decode()}"


def compare(name, command, keys, term):
    """How many screens are equal. If some are not, more time is given: the machine may be busy."""
    places = [os.path.abspath(name) for name in ("ours", "theirs")]
    for quiet in (0.3, 1, 3):
        with ThreadPoolExecutor() as both:
            ours, theirs = both.map(lambda place: screens(command, keys, place, term, quiet), places)
        wrong = list(faults(name, term, keys, ours, theirs))
        if not wrong:
            return len(ours)
    print("\n".join(wrong))
    return 0


def main():
    compared = 0
    with open("lines.txt", "w", encoding="utf-8") as file:
        file.write("".join(f"line {number}, \u00e9 \t tab\n" for number in range(1, 100)))
    for term in ENTRIES:
        for name, command, keys in PROGRAMS:
            compared += compare(name, command, keys, term)
    print(f"{compared} screens")


main()
