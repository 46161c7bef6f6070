"""Cases that are runs of the built program `ti`, or of `ti-lsp`, each a directory of files.

    args      the words after `ti`, one a line
    run       in place of args, a command that sh runs with `ti` on PATH, and `ti-lsp`, `ti-everyday`,
              `ti-tic`, `ti-infocmp`, `ti-tput`, `ti-clear`, `ti-toe`, `ti-tabs`, `ti-tset`, `ti-reset`,
              `ti-fmt` and `ti-lint` if they are built: it lays out what `before` cannot, as a link or a FIFO, and then runs `ti`
    exchanges in place of args and run, what a client sends to `ti-lsp`, and what must come back: the
              head of tests/exchanges.py says how
    env       NAME=VALUE a line; apart from these only PATH is set
    stdin     what standard input has (none: nothing)
    data/     the files of the directory that it runs in
    from-repo files of the repository that are copied there too, a line for each: a path (which may
              have `*`), and the directory that it goes to, if that is another one
    before    a command that sh runs there first, for files too large to keep; what it makes must
              still be there afterwards, unchanged; if it fails, so does the case
    needs     programs that the case needs, one a line; if one is not installed the case is
              skipped, and that is said
    when      a command that sh runs before all else, with the path of the program of the everyday
              tools as TI_EVERYDAY; if it fails the case is skipped, and what it prints says why
    as-nobody that the case is run without root's rights, which let it read and write everything:
              if root runs the cases, the user nobody runs this one, on a copy of the program
    stdout    what standard output must have (none: nothing)
    stderr    what standard error must have (none: nothing)
    stdout-begins, stderr-begins
              how a text begins of which the rest is free (usage and help); it must also fit in 80
              columns
    status    the exit status that is wanted (none: 0)
    files     the files that must be there afterwards, apart from those that were laid out: for
              each a line `file PATH` and then its bytes in hexadecimal, white space apart, or a
              line `file PATH FROM` if they are those of a file of the repository; no other file
              may be there. A case without it may leave any files
    then      a command that sh runs in that directory afterwards with `ti` on PATH; its standard
              output must be that of the file then-stdout, and its status 0
"""

import glob
import os
import pwd
import shutil
import subprocess
import sys
import tempfile

from common import EVERYDAY, LSP, PROGRAM, TOP, Tally, bytes_of, files_below, is_missing, lines_of, text_of
from exchanges import exchange_faults

SECONDS = 120
SHOWN = 400
COLUMNS = 80


class Case:
    """One case, and the room that it runs in."""

    def __init__(self, directory, room):
        self.directory = directory
        self.here = os.path.join(room, "here")
        self.tools = os.path.join(room, "bin")
        self.room = room

    def part(self, name):
        return os.path.join(self.directory, name)

    def has(self, name):
        return os.path.isfile(self.part(name))

    def bytes(self, name, default=b""):
        return bytes_of(self.part(name), default)

    def prepare(self):
        """Lays out the directory of the case. Gives what is wrong with its `before`, or None."""
        if os.path.isdir(self.part("data")):
            shutil.copytree(self.part("data"), self.here)
        else:
            os.mkdir(self.here)
        for line in lines_of(self.part("from-repo")):
            copy_from_repository(self.here, *line.split())
        os.mkdir(self.tools)
        # the directories above the program may be closed to others
        place = shutil.copy if self.has("as-nobody") else os.symlink
        place(PROGRAM, os.path.join(self.tools, "ti"))
        if os.access(LSP, os.X_OK):
            place(LSP, os.path.join(self.tools, "ti-lsp"))
        if os.access(EVERYDAY, os.X_OK):
            for name in ("ti-everyday", "ti-tic", "ti-infocmp", "ti-tput", "ti-clear", "ti-toe", "ti-tabs", "ti-tset", "ti-reset", "ti-fmt",
                         "ti-lint"):
                place(EVERYDAY, os.path.join(self.tools, name))
        if not self.has("before"):
            return None
        done = self.shell(self.bytes("before"))
        if done.returncode == 0:
            return None
        return f"before: status {done.returncode}, output {shown(done.stdout)}"

    def environment(self):
        path = f"{self.tools}:/usr/local/bin:/usr/bin:/bin"
        rows = [row for row in self.bytes("env").split(b"\n") if row]
        return {b"PATH": path.encode(), **dict(row.split(b"=", 1) for row in rows)}

    def shell(self, command):
        """Runs a command by sh in the directory of the case."""
        return subprocess.run(
            ["sh", "-c", command.decode()], cwd=self.here, env=self.environment(),
            stdin=subprocess.DEVNULL, stdout=subprocess.PIPE, stderr=subprocess.STDOUT,
            timeout=SECONDS, check=False,
        )

    def words(self):
        """The words of the command that the case is about."""
        if self.has("run"):
            command = ["sh", "-c", self.bytes("run").decode()]
        else:
            words = self.bytes("args").split(b"\n")
            command = [os.path.join(self.tools, "ti"), *(words[:-1] if words[-1] == b"" else words)]
        return [*without_rights(self.room), *command] if self.has("as-nobody") else command

    def faults(self):
        """What is wrong with the case."""
        why = self.prepare()
        if why:
            return [why]
        if self.has("exchanges"):
            return self.exchange_faults()
        before = contents(self.here)
        done = subprocess.run(
            self.words(), input=self.bytes("stdin"), cwd=self.here, env=self.environment(),
            stdout=subprocess.PIPE, stderr=subprocess.PIPE, timeout=SECONDS, check=False,
        )
        found = [self.text_fault("stdout", done.stdout), self.text_fault("stderr", done.stderr)]
        status = int(self.bytes("status", b"0"))
        if done.returncode != status:
            found.append(f"status is {done.returncode}, wanted {status}")
        found += [*self.file_faults(before), self.then_fault()]
        return [fault for fault in found if fault]

    def exchange_faults(self):
        text = text_of("tests", "cli", "names") + self.bytes("exchanges").decode()
        return exchange_faults(text, [os.path.join(self.tools, "ti-lsp")], self.here, self.environment(), SECONDS)

    def text_fault(self, what, got):
        """What is wrong with the text that came on standard output or error, or None."""
        if self.has(f"{what}-begins"):
            wanted = self.bytes(f"{what}-begins").rstrip(b"\n")
            if not got.startswith(wanted):
                return f"{what} begins {got[:200]!r}, wanted {wanted!r}"
            if any(len(line) > COLUMNS for line in got.decode(errors="replace").split("\n")):
                return f"{what} has a line over {COLUMNS} columns"
            return None
        wanted = self.bytes(what)
        return None if got == wanted else f"{what} is {got[:SHOWN]!r}, wanted {wanted[:SHOWN]!r}"

    def file_faults(self, before):
        """What is wrong with the files that are there afterwards; `before` has those of before."""
        wanted, got = {**before, **listed(self.part("files"))}, contents(self.here)
        for name in sorted({*wanted, *got} if self.has("files") else wanted):
            if wanted.get(name) != got.get(name):
                yield f"file {name}: {bytes_shown(got.get(name))}, wanted {bytes_shown(wanted.get(name))}"

    def then_fault(self):
        """What is wrong with the command that is run afterwards, or None."""
        if not self.has("then"):
            return None
        after = self.shell(self.bytes("then"))
        if after.returncode == 0 and after.stdout == self.bytes("then-stdout"):
            return None
        return f"then: status {after.returncode}, output {shown(after.stdout)}"


def copy_from_repository(here, pattern, directory="."):
    """Copies the files of the repository that fit a pattern into a directory."""
    found = glob.glob(os.path.join(TOP, pattern))
    if not found:
        raise OSError(f"from-repo: there is no {pattern}")
    os.makedirs(os.path.join(here, directory), exist_ok=True)
    for path in found:
        shutil.copy(path, os.path.join(here, directory))


def contents(directory):
    """The bytes of the files below a directory, by their path in it."""
    return {name: bytes_of(os.path.join(directory, name)) for name in files_below(directory)}


def listed(path):
    """The files of a list, by their path."""
    found, name = {}, None
    for line in lines_of(path):
        if line.startswith("file "):
            _, name, *repository_file = line.split()
            found[name] = bytes_of(os.path.join(TOP, *repository_file)) if repository_file else b""
        else:
            found[name] += bytes.fromhex("".join(line.split()))
    return found


def shown(text):
    return text[: 2 * SHOWN].decode(errors="replace")


def bytes_shown(content):
    return "not there" if content is None else f"{content[:64].hex(' ')} ({len(content)} bytes)"


def without_rights(room):
    """If root runs this, the words before a command that have nobody run it, who then owns the
    room."""
    if os.geteuid() != 0:
        return []
    nobody = pwd.getpwnam("nobody")
    for at, directories, names in os.walk(room):
        for name in [".", *directories, *names]:
            os.chown(os.path.join(at, name), nobody.pw_uid, nobody.pw_gid, follow_symlinks=False)
    return ["setpriv", f"--reuid={nobody.pw_uid}", f"--regid={nobody.pw_gid}", "--clear-groups"]


def why_skipped(directory):
    """Why a case cannot be run here, or None."""
    for program in lines_of(os.path.join(directory, "needs")):
        if not shutil.which(program):
            return f"{program} is not installed"
    when = os.path.join(directory, "when")
    if not os.path.isfile(when):
        return None
    done = subprocess.run(
        ["sh", when], stdin=subprocess.DEVNULL, stdout=subprocess.PIPE, stderr=subprocess.DEVNULL,
        env={**os.environ, "TI_EVERYDAY": EVERYDAY}, check=False
    )
    return None if done.returncode == 0 else done.stdout.decode(errors="replace").strip()


def run_cases(word, cases):
    """Runs the cases of a directory, or those named as arguments. Gives the exit status."""
    if is_missing(PROGRAM, word):
        return 1
    tally = Tally(word)
    for name in sys.argv[1:] or sorted(os.listdir(cases)):
        directory = os.path.join(cases, name)
        reason = why_skipped(directory)
        if reason is not None:
            tally.skip(name, reason)
            continue
        try:
            with tempfile.TemporaryDirectory(prefix="ti-case-") as room:
                faults = Case(directory, room).faults()
        except (subprocess.SubprocessError, OSError, ValueError) as fault:
            faults = [str(fault)]
        tally.add(name, faults)
    return tally.close()
