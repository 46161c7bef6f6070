"""Calls of tset and reset, which are in the file `setups`: each is run by two programs on a terminal of
its own, and the modes of its line and the size of its window are compared too."""

import fcntl
import os
import pty
import re
import shlex
import struct
import subprocess
import termios
from concurrent.futures import ThreadPoolExecutor

import calls

HERE = os.path.dirname(os.path.abspath(__file__))
# why the results of a call may differ
KNOWN = {
    "usage": "the text about bad usage is another, the status is the same",
    "rate": "a mapping may name any rate of termios(3), to ncurses only those up to 134",
    "text": "what is not UTF-8 is not written to standard error by ours",
}
# how often a call is run whose input is typed: it is echoed before the question or after it
TRIES = 4
# the modes of the line before a call, by the value of MODES
MODES = {**calls.MODES, "other": (lambda flags: flags, lambda character: b"\x08")}
# a call that sends strings waits a second
AT_ONCE = 16


class Call:
    """A line of the file: its terminal, streams, variables, words and input, and why its results
    differ, if they do."""

    def __init__(self, line):
        said = re.fullmatch(r"(?:differs (\w+): )?(\S+) ([tpn]{3}) (.*?)(?: <<< (.*))?", line)
        self.line, (self.why, term, self.streams, command, typed) = line, said.groups()
        words = shlex.split(command)
        at = next(at for at, word in enumerate(words) if word in ("tset", "reset"))
        self.variables = dict(word.split("=", 1) for word in words[:at])
        self.modes = self.variables.pop("MODES", None)
        self.window = [int(part) for part in self.variables.pop("WINDOW", "50x132").split("x")]
        if term != "-":
            self.variables["TERM"] = term
        self.words = words[at:]
        self.input = re.sub(r"\\[nrtv]", lambda found: calls.ESCAPES[found[0]], typed or "").encode()

    def run(self, program):
        """What a program writes to output, error and the terminal, its status, and the modes of the line
        and the size of the window after it."""
        master, slave = pty.openpty()
        try:
            fcntl.ioctl(slave, termios.TIOCSWINSZ, struct.pack("HHHH", *self.window, 0, 0))
            modes = termios.tcgetattr(slave)
            if self.modes:
                termios.tcsetattr(slave, termios.TCSANOW, calls.changed(modes, *MODES[self.modes]))
            if self.streams[0] == "t":
                os.write(master, self.input)
            kinds = {"t": slave, "p": subprocess.PIPE, "n": subprocess.DEVNULL}
            done = subprocess.Popen(
                self.words, executable=program, start_new_session=True,
                stdin=kinds[self.streams[0]], stdout=kinds[self.streams[1]], stderr=kinds[self.streams[2]],
                env={"PATH": "/usr/bin:/bin", "HOME": "/nonexistent", "LC_ALL": "C.UTF-8", **self.variables},
            )
            try:
                output, error = done.communicate(self.input if self.streams[0] == "p" else None, timeout=calls.ENDS)
            finally:
                done.kill()
            window = struct.unpack("HHHH", fcntl.ioctl(slave, termios.TIOCGWINSZ, bytes(8)))[:2]
            return output, error, calls.shown(master), done.returncode, termios.tcgetattr(slave), window
        finally:
            os.close(master)
            os.close(slave)


def setups():
    """The calls of the file."""
    with open(os.path.join(HERE, "setups"), encoding="utf-8") as file:
        lines = file.read().split("\n")
    return [Call(line) for line in lines if line and not line.startswith("#")]


def named_alike(result):
    """A result with the names that messages begin with replaced by those of ncurses's."""
    output, error, *others = result
    texts = [text and re.sub(rb"ti-(tset|reset): ", rb"\1: ", text) for text in (output, error, others[0])]
    return (*texts, *others[1:])


def compare_call(call, ours, theirs):
    """Whether the results of a call are alike, the cause for which they differ if they do, and what is
    wrong."""
    for _ in range(TRIES if call.input and call.streams[0] == "t" else 1):
        first, second = named_alike(call.run(ours)), named_alike(call.run(theirs))
        if first == second:
            break
    cause = "alike" if first == second else call.why or "unexplained"
    if cause != (call.why or "alike") or cause == "usage" and first[3:] != second[3:]:
        return cause, f"{call.line}: {first} in place of {second}"
    return cause, None


def compare(ours, theirs):
    """Runs each call by two programs, of which the second is a directory's. Gives how many results are
    alike and how many differ for each known cause, and what is wrong."""
    counts, faults = {}, []
    with ThreadPoolExecutor(AT_ONCE) as pool:
        found = pool.map(lambda call: compare_call(call, ours, theirs[call.words[0]]), setups())
        for cause, fault in found:
            counts[cause] = counts.get(cause, 0) + 1
            if fault:
                faults.append(fault)
    return counts, faults
