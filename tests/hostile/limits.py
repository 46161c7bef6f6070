"""Runs a program within limits of memory and time, and measures both."""

import json
import os
import subprocess
import sys
import tempfile
from typing import NamedTuple

HERE = os.path.dirname(os.path.abspath(__file__))
sys.path.insert(0, os.path.dirname(HERE))
from common import PROBE as BUILT_PROBE, program_of  # noqa: E402

PROGRAM = os.environ.get("TI_PROGRAM") or program_of("ti")
PROBE = os.environ.get("TI_PROBE") or BUILT_PROBE
LSP = os.environ.get("TI_LSP") or program_of("ti_lsp")
EVERYDAY = os.environ.get("TI_EVERYDAY") or program_of("ti_everyday")
MEMORY_MAX = 2_000_000_000
# of CPU time
SECONDS_MAX = 120
# the directory of files that are many and short-lived
ROOM = "/dev/shm" if os.access("/dev/shm", os.W_OK) else None


class Done(NamedTuple):
    """How a program ended; a negative status is the signal that ended it."""

    status: int
    out: bytes
    err: bytes
    seconds: float  # of CPU time
    memory: int  # the most bytes that were held at once, or 10 MB if that is more


class Helper:
    """The process that runs and measures programs, started when it is first wanted."""

    process = None

    @classmethod
    def ask(cls, question):
        if cls.process is None:
            cls.process = subprocess.Popen(
                [sys.executable, "-S", "-E", os.path.join(HERE, "measure.py")],
                stdin=subprocess.PIPE, stdout=subprocess.PIPE, text=True,
            )
        cls.process.stdin.write(json.dumps(question) + "\n")
        cls.process.stdin.flush()
        return json.loads(cls.process.stdout.readline())


def run(words, given=b"", program=PROGRAM, env=None):
    """Runs a program, whose standard input holds the bytes given."""
    with tempfile.TemporaryDirectory(prefix="ti-hostile-", dir=ROOM) as room:
        paths = {name: os.path.join(room, name) for name in ("given", "out", "err")}
        for name, path in paths.items():
            with open(path, "wb") as file:
                file.write(given if name == "given" else b"")
        found = Helper.ask({
            **paths, "words": [program, *words], "env": env or {}, "memory": MEMORY_MAX, "seconds": SECONDS_MAX})
        texts = {}
        for name in ("out", "err"):
            with open(paths[name], "rb") as file:
                texts[name] = file.read()
        return Done(**found, **texts)


def quick(words, given=b"", program=PROGRAM, env=None):
    """As `run` with no measure, for what is small: its status, what it wrote, and its errors."""
    done = subprocess.run(
        [program, *words], input=given, env=env or {}, stdout=subprocess.PIPE, stderr=subprocess.PIPE,
        timeout=SECONDS_MAX, check=False,
    )
    return done.returncode, done.stdout, done.stderr
