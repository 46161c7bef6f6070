"""Runs programs for `limits.py` and measures them: a small process, since what a child is said to
have held at most is never less than what its parent held.

Each line of standard input is a program to run, in JSON; each is answered by a line.
"""

import json
import os
import resource
import signal
import sys
import threading

# a program that waits, or a machine that does much else, may take longer than the processor's time
WAIT_FACTOR = 8


def answer(asked):
    """Runs a program; its status, its CPU time in seconds, and its memory."""
    child = os.fork()
    if child == 0:
        try:
            start(asked)
        finally:
            os._exit(127)
    watch = threading.Timer(WAIT_FACTOR * asked["seconds"], os.kill, (child, signal.SIGKILL))
    watch.start()
    _, status, usage = os.wait4(child, 0)
    watch.cancel()
    seconds = usage.ru_utime + usage.ru_stime
    return {"status": os.waitstatus_to_exitcode(status), "seconds": seconds, "memory": usage.ru_maxrss * 1024}


def start(asked):
    for descriptor, name in enumerate(("given", "out", "err")):
        os.dup2(os.open(asked[name], os.O_RDWR), descriptor)
    limits = (resource.RLIMIT_AS, asked["memory"]), (resource.RLIMIT_CPU, asked["seconds"]), (resource.RLIMIT_CORE, 0)
    for what, most in limits:
        resource.setrlimit(what, (most, most))
    os.execve(asked["words"][0], asked["words"], asked["env"])


for line in sys.stdin:
    print(json.dumps(answer(json.loads(line))), flush=True)
