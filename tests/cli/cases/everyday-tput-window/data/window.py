"""Runs a command whose standard input is a terminal with a window of this size:

    window.py LINES COLUMNS WORD..
"""

import fcntl
import pty
import struct
import subprocess
import sys
import termios

_, lines, columns, *words = sys.argv
master, slave = pty.openpty()
fcntl.ioctl(slave, termios.TIOCSWINSZ, struct.pack("HHHH", int(lines), int(columns), 0, 0))
sys.exit(subprocess.call(words, stdin=slave))
