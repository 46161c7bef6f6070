"""A program on a terminal of its own."""

import fcntl
import os
import signal
import struct
import subprocess
import termios
import threading


def read_all(terminal, written):
    """Adds what is written to a terminal, until nobody has it open any more."""
    while True:
        try:
            block = os.read(terminal, 65536)
        except OSError:
            return
        if not block:
            return
        written.append(block)


def press_keys(terminal, written, keys, has_ended):
    """Presses keys after each second in which nothing more is written, until the program has ended."""
    before = 0
    while not has_ended.wait(1):
        if before and len(written) == before:
            try:
                os.write(terminal, keys.encode())
            except OSError:
                return
        before = len(written)


def on_terminal(words, environment, seconds=60, rows=24, columns=80, keys="", directory=None):
    """Runs a program with standard input and output on a new terminal, in a directory, and presses keys
    that end it. Gives its status, what it wrote there, and what on standard error."""
    ours, its = os.openpty()
    fcntl.ioctl(its, termios.TIOCSWINSZ, struct.pack("4H", rows, columns, 0, 0))
    # a session of its own, so that what it starts ends with it
    started = subprocess.Popen(
        words, stdin=its, stdout=its, stderr=subprocess.PIPE, env=environment, start_new_session=True, cwd=directory
    )
    os.close(its)
    written, has_ended = [], threading.Event()
    reader = threading.Thread(target=read_all, args=(ours, written))
    reader.start()
    presser = threading.Thread(target=press_keys, args=(ours, written, keys, has_ended))
    presser.start()
    ender = threading.Timer(seconds, os.killpg, (started.pid, signal.SIGKILL))
    ender.start()
    said = started.stderr.read()
    status = started.wait()
    has_ended.set()
    presser.join()
    ender.cancel()
    started.stderr.close()
    # what it started may still have the terminal open
    reader.join(seconds)
    os.close(ours)
    return status, b"".join(written).decode(errors="replace"), said.decode(errors="replace")
