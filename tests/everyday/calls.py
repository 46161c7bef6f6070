"""Calls of tput, which are in the file `calls` and say where their streams lead: each is run by two
programs on a terminal whose window has another size than the entry's, and the modes of its line are
compared too."""

import fcntl
import os
import pty
import re
import select
import shlex
import struct
import subprocess
import termios

HERE = os.path.dirname(os.path.abspath(__file__))
# lines and columns of the window
WINDOW = (50, 132)
# why the results of a call may differ
KNOWN = {
    "base": "COLUMNS is a decimal number to ours, and may be octal or hexadecimal to ncurses",
    "popped": "a string that pops what it has not pushed writes 0 by ours, and its parameters by ncurses",
    "string": "a string that does not follow terminfo(5) is refused, and is written in part by ncurses",
    "usage": "the text about bad usage is another, the status is the same",
    "words": "words next to -S are refused, and ignored by ncurses",
}
# modes of the line before a call, by the value of MODES: what becomes of the flags of input, output
# and the line, and of the control characters
MODES = {
    "none": (lambda flags: 0, lambda character: character),
    "all": (lambda flags: 0o77777 & ~termios.TOSTOP, lambda character: character),
    "unset": (lambda flags: flags, lambda character: b"\0"),
    "ones": (lambda flags: flags, lambda character: b"\xff"),
}
# these are numbers where a line is not read in lines
NUMBERS = (termios.VMIN, termios.VTIME)
ESCAPES = {"\\n": "\n", "\\r": "\r", "\\t": "\t", "\\v": "\v"}
ENDS = 20


class Call:
    """A line of the file: its terminal, streams, variables, words and input, and why its results
    differ, if they do."""

    def __init__(self, line):
        said = re.fullmatch(r"(?:differs (\w+): )?(\S+) ([tpn]{3}) (.*?)(?: <<< (.*))?", line)
        self.line, (self.why, self.term, self.streams, command, typed) = line, said.groups()
        words = shlex.split(command)
        at = words.index("tput")
        self.variables = dict(word.split("=", 1) for word in words[:at])
        self.modes = self.variables.pop("MODES", None)
        self.words = words[at:]
        self.input = re.sub(r"\\[nrtv]", lambda found: ESCAPES[found[0]], typed or "").encode()

    def run(self, program):
        """What a program writes to output, error and the terminal, its status, and the modes of the line
        after it."""
        master, slave = pty.openpty()
        try:
            set_window(slave)
            modes = termios.tcgetattr(slave)
            modes[1] &= ~termios.OPOST
            termios.tcsetattr(slave, termios.TCSANOW, changed(modes, *MODES[self.modes]) if self.modes else modes)
            kinds = {"t": slave, "p": subprocess.PIPE, "n": subprocess.DEVNULL}
            done = subprocess.Popen(
                self.words, executable=program, start_new_session=True,
                stdin=kinds[self.streams[0]], stdout=kinds[self.streams[1]], stderr=kinds[self.streams[2]],
                env={"PATH": "/usr/bin:/bin", "HOME": "/nonexistent", "LC_ALL": "C.UTF-8", "TERM": self.term, **self.variables},
            )
            typed = self.input if self.streams[0] == "p" else None
            output, error = done.communicate(typed, timeout=ENDS)
            return output, error, shown(master), done.returncode, termios.tcgetattr(slave)
        finally:
            os.close(master)
            os.close(slave)


def set_window(terminal):
    """Gives a terminal the size of the window."""
    fcntl.ioctl(terminal, termios.TIOCSWINSZ, struct.pack("HHHH", *WINDOW, 0, 0))


def changed(modes, flags, character):
    """The modes of a line with other flags and control characters."""
    for at in (0, 1, 3):
        modes[at] = flags(modes[at])
    modes[6] = [old if at in NUMBERS else character(old) for at, old in enumerate(modes[6])]
    return modes


def shown(master):
    """What was written to a terminal."""
    found = b""
    while select.select([master], [], [], 0)[0]:
        found += os.read(master, 65536)
    return found


def calls():
    """The calls of the file."""
    with open(os.path.join(HERE, "calls"), encoding="utf-8") as file:
        lines = file.read().split("\n")
    return [Call(line) for line in lines if line and not line.startswith("#")]


def named_alike(result):
    """A result with the name that messages begin with replaced by that of ncurses's."""
    output, error, *others = result
    return output, error and re.sub(rb"^ti-tput: ", b"tput: ", error), *others


def compare(ours, theirs):
    """Runs each call by two programs. Gives how many results are alike and how many differ for each
    known cause, and what is wrong."""
    counts, faults = {}, []
    for call in calls():
        first, second = named_alike(call.run(ours)), call.run(theirs)
        cause = "alike" if first == second else call.why or "unexplained"
        counts[cause] = counts.get(cause, 0) + 1
        if cause != (call.why or "alike"):
            faults.append(f"{call.line}: {first} in place of {second}")
        elif call.why == "usage" and first[3] != second[3]:
            faults.append(f"{call.line}: status {first[3]} in place of {second[3]}")
    return counts, faults
