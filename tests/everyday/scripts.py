"""Scripts of Debian's packages that call tput or infocmp: each is run on terminals whose window has another size
than their entries, in a system of its own, with ncurses's tools and with ours in their place. Perl's Term::Cap is
asked for each entry of this system, with both.

Debian 12 has the package of each script; that of pipes.sh is pipes-sh. None of them calls tic. libtoolize takes m4."""

import fcntl
import os
import pty
import re
import select
import subprocess
import termios
import typing

import calls
from common import ENTRY_DIRECTORIES, Skipped, files_below, need

PACKAGES = (
    "bats", "byobu", "git-extras", "libtool", "liquidprompt", "m4", "ncurses-examples", "parallel", "pipes-sh",
    "screenfetch",
)
TERMINALS = ("xterm-256color", "linux", "vt100", "dumb")
# for calls that take long and depend on few capabilities
TWO = ("xterm-256color", "dumb")
ENTER = os.path.join(os.path.dirname(os.path.dirname(os.path.abspath(__file__))), "newcomers", "enter")
PATH = "/usr/games:/usr/sbin:/usr/bin:/sbin:/bin"
EXAMPLES, PALETTES = "/usr/libexec/ncurses-examples", "/usr/share/ncurses-examples"
# what the calls read: tests, a repository, a package, and a tmux that says how it is called
FILES = {
    "tests.bats": '@test "one" { true; }\n@test "two" { false; }\n@test "three" { skip "later"; }\n',
    "bin/tmux": '#!/bin/sh\ncase $1 in *-window) ;; *) echo "tmux $*, $BYOBU_TERM";; esac\n',
    "package/configure.ac": "AC_INIT([a], [1])\nAC_CONFIG_AUX_DIR([aux])\nAC_CONFIG_MACRO_DIR([m4])\nLT_INIT\n",
    "repository.sh": """
        git init -q -b main repository && cd repository || exit
        git config user.name A && git config user.email a@example.org
        export GIT_AUTHOR_DATE=2020-01-01T00:00:00Z GIT_COMMITTER_DATE=2020-01-01T00:00:00Z
        echo a >a && git add a && git commit -q -m first && echo b >>a && git commit -q -a -m second && git branch side
    """,
}
LIQUIDPROMPT = """
    LP_ENABLE_LOAD=0
    . /usr/share/liquidprompt/liquidprompt
    cd /usr && __lp_set_prompt && printf "%s\\n" "$PS1" && set | grep -a ^_LP_TI
"""
SCREENFETCH = "screenfetch -D Debian -d '-uptime,mem,disk,cpu'"
# of calls whose processes run at once: lines in any order, or what is shown at last
LINES = rb"[^\r\n]+"
LAST_BAR = rb"100%[^\r\n]*"
LAST_LINES = rb"[abc] |\x1b.[A-Z]"


class Call(typing.NamedTuple):
    """A command, the keys that are typed, which pieces of what it shows are compared, in any order, or all of it if
    there is no pattern, and the terminals."""

    command: str
    typed: str = ""
    pieces: bytes = b""
    terminals: tuple = TERMINALS

    def compared(self, output):
        return sorted(set(re.findall(self.pieces, output))) if self.pieces else output


CALLS = {
    "bats": Call("bats tests.bats"),
    "byobu": Call("PATH=/room/bin:$PATH BYOBU_NO_TITLE=1 byobu new-session"),
    "byobu without colors": Call("PATH=/room/bin:$PATH BYOBU_NO_TITLE=1 BYOBU_COLOR_TERM=no-such byobu new-session"),
    "byobu's mondrian": Call("PATH=/room/bin:$PATH /usr/lib/byobu/include/mondrian"),
    "git brv": Call("cd repository && git brv"),
    "git bulk": Call("cd repository && git bulk --addcurrent here && git bulk -a log --oneline; git bulk --listall"),
    "git effort": Call("cd repository && git effort"),
    "git info": Call("cd repository && git info"),
    "git scp": Call("cd repository && git scp no-such-remote"),
    "git standup": Call("cd repository && git standup -d 20000"),
    "libtoolize": Call("cd package && libtoolize --copy --force", terminals=TWO),
    "libtoolize --no-such-option": Call("libtoolize --no-such-option", pieces=LINES),
    "ltmain.sh": Call("bash /usr/share/libtool/build-aux/ltmain.sh --mode=no-such-mode", pieces=LINES),
    "liquidprompt": Call(f"bash --norc -ic '{LIQUIDPROMPT}'"),
    "tput-colorcube": Call(f"{EXAMPLES}/tput-colorcube", terminals=TWO),
    "tput-initc": Call(f"cd {PALETTES} && {EXAMPLES}/tput-initc xterm-256color.dat", terminals=TWO[:1]),
    "parallel --bar": Call("parallel --will-cite --bar -j1 echo ::: a b c", pieces=LAST_BAR),
    "parallel --color": Call("parallel --will-cite --color --tag -j1 echo ::: a b c"),
    "parallel --latest-line": Call("parallel --will-cite --latest-line -j1 echo ::: a b c", pieces=LAST_LINES),
    "pipes.sh": Call("bash -c 'RANDOM=1; . /usr/games/pipes -r 40'", "P" * 90 + "q"),
    "pipes.sh of two": Call("bash -c 'RANDOM=2; . /usr/games/pipes -p 2 -t 1'", "P" * 60 + "q"),
    "screenfetch": Call(f"{SCREENFETCH} -c 3,200"),
    "screenfetch -n -w": Call(f"{SCREENFETCH} -n -w yes", terminals=TWO),
    "screenfetch -t": Call(f"{SCREENFETCH} -t", terminals=TWO),
}
# the calls whose results differ, with their terminals: ours pads nothing without --rate
WITHOUT_PADS = {("pipes.sh", "vt100"), ("pipes.sh of two", "vt100")}
# what Term::Cap makes of entries
TERM_CAP = r"""
use Term::Cap;
for my $name (@ARGV) {
    my $entry = eval { Term::Cap->Tgetent({ TERM => $name, OSPEED => 9600 }) };
    my @found = $entry ? map { "$_=" . unpack "H*", $entry->{$_} } sort grep { /^_/ } keys %$entry : ();
    print "$name ", join(",", @found), "\n";
}
"""
ENDS = 120


def install(room, system):
    """Installs the packages into the system."""
    words = ("apt-get", "-q", "-y", "--no-install-recommends", "install", *PACKAGES)
    done = room.run("chroot", system, *words, PATH=PATH, DEBIAN_FRONTEND="noninteractive")
    if done.returncode:
        raise Skipped("the packages of the scripts cannot be had here")


def write_files(directory):
    """Puts what the calls read into a directory."""
    os.mkdir(directory)
    for name, text in FILES.items():
        path = os.path.join(directory, name)
        os.makedirs(os.path.dirname(path), exist_ok=True)
        with open(path, "w", encoding="utf-8") as file:
            file.write(text)
        os.chmod(path, 0o755)


def take_terminal():
    """Makes standard input the terminal of the session."""
    fcntl.ioctl(0, termios.TIOCSCTTY, 0)


def result_of(system, directory, call, terminal):
    """What a call shows on a terminal of the system, and its status."""
    master, slave = pty.openpty()
    calls.set_window(slave)
    environment = {
        "PATH": PATH, "HOME": "/room", "USER": "root", "SHELL": "/bin/bash", "LC_ALL": "C.UTF-8", "TERM": terminal,
        "GIT_PAGER": "cat",
    }
    with subprocess.Popen(
        (ENTER, system, directory, "sh", "-c", call.command), stdin=slave, stdout=slave, stderr=slave, env=environment,
        start_new_session=True, preexec_fn=take_terminal,
    ) as started:
        os.close(slave)
        os.write(master, call.typed.encode())
        found = b"".join(iter(lambda: read(master), b""))
        os.close(master)
        return call.compared(found), ended(started)


def ended(started):
    """The status of a process, which is killed if it does not end."""
    try:
        return started.wait(ENDS)
    except subprocess.TimeoutExpired:
        started.kill()
        raise


def read(master):
    """The next bytes that come to a terminal, none if it is closed or nothing comes for long."""
    if not select.select([master], [], [], ENDS)[0]:
        return b""
    try:
        return os.read(master, 65536)
    except OSError:
        return b""


def run_calls(system, directory, which):
    """What each of the calls shows on its terminal."""
    return {call: result_of(system, directory, CALLS[call[0]], call[1]) for call in which}


def compare_calls(room):
    """Runs the calls with both. Gives what is wrong."""
    system, directory = room.system(), room.path("scripts")
    install(room, system)
    write_files(directory)
    room.run(ENTER, system, directory, "sh", "repository.sh", PATH=PATH)
    which = [(name, terminal) for name, call in CALLS.items() for terminal in call.terminals]
    theirs = run_calls(system, directory, which)
    room.put_ours()
    ours = run_calls(system, directory, which)
    # what is shown may depend on which process is first
    again = [call for call in which if ours[call] != theirs[call]]
    ours.update(run_calls(system, directory, again))
    differing = {call for call in which if ours[call] != theirs[call]}
    padded = {call for call in differing if ours[call] == without_pads(theirs[call])}
    print(
        f"    {len(which) - len(differing)} of {len(which)} calls alike on {', '.join(TERMINALS)}, "
        f"{len(padded)} without the pads"
    )
    faults = [f"{call}: {ours[call]} in place of {theirs[call]}" for call in sorted(differing - padded)]
    faults += [f"{call}: the pads are missing" for call in sorted(padded - WITHOUT_PADS)]
    return faults + [f"{call}: no longer differs by pads" for call in sorted(WITHOUT_PADS - padded)]


def without_pads(result):
    """A result without the pads that ncurses writes."""
    output, status = result
    return output.replace(b"\0", b"") if isinstance(output, bytes) else output, status


def term_cap(room, names, path):
    """What Term::Cap makes of each entry, by its name."""
    done = room.run("perl", "-e", TERM_CAP, *names, PATH=path)
    return dict(line.split(" ", 1) for line in done.stdout.decode().splitlines())


def without_cancels(found):
    """What Term::Cap found but for empty strings, which cancelled values are."""
    return [one for one in (found or "").split(",") if not one.endswith("=")]


def compare_entries(room):
    """Asks Term::Cap for each entry of this system, with both. Gives what is wrong."""
    paths = [os.path.join(directory, path) for directory in ENTRY_DIRECTORIES for path in files_below(directory)]
    names = sorted({os.path.basename(path) for path in paths if not os.path.islink(path)})
    theirs = term_cap(room, names, "/usr/bin:/bin")
    ours = term_cap(room, names, f"{room.in_place}:/usr/bin:/bin")
    found = [name for name in names if theirs.get(name)]
    differing = [name for name in names if without_cancels(ours.get(name)) != without_cancels(theirs.get(name))]
    print(f"    Term::Cap: {len(found) - len(differing):,} of {len(found):,} entries alike")
    if differing:
        return [f"Term::Cap differs on {len(differing)} entries of {len(found)}: {', '.join(differing[:20])}"]
    return []


def check(room):
    """Asks Term::Cap, and runs the calls, with both. Gives what is wrong."""
    need("perl")
    return compare_entries(room) + compare_calls(room)
