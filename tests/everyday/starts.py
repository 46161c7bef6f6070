"""What `init` and `reset` of tput write for each terminal, by two programs, on a terminal whose window
has another size than the entry's."""

import os
import pty
import subprocess
import termios

import calls

# tput runs the program that this entry names, and ours does not
WITH_PROGRAM = ("linux-s",)
ENDS = 20


def written(program, name, start):
    """What a program writes to standard output, and its status. Padding is left out, which ncurses
    writes as NUL where the entry says that it always has to."""
    master, slave = pty.openpty()
    try:
        calls.set_window(slave)
        modes = termios.tcgetattr(slave)
        modes[1] &= ~termios.OPOST
        termios.tcsetattr(slave, termios.TCSANOW, modes)
        done = subprocess.run(
            ("tput", "-T", name, start), executable=program, start_new_session=True, stdin=subprocess.DEVNULL,
            stdout=subprocess.PIPE, stderr=slave, timeout=ENDS, check=False,
            env={"PATH": "/usr/bin:/bin", "HOME": "/nonexistent", "LC_ALL": "C.UTF-8", "TERM": name, "NCURSES_NO_PADDING": "1"},
        )
        return done.stdout.replace(b"\0", b""), done.returncode
    finally:
        os.close(master)
        os.close(slave)


def compare(ours, theirs, name):
    """What is wrong with a terminal."""
    faults = []
    if name in WITH_PROGRAM:
        return faults
    for start in ("init", "reset"):
        first, second = written(ours, name, start), written(theirs, name, start)
        if first != second:
            faults.append(f"{name} {start}: {first} in place of {second}")
    return faults
