#!/usr/bin/env python3
"""Does the first tasks of three newcomers as the pages have them, in a new system of Debian.

    tests/newcomers/run.py [CASE..]        the cases named, or all of them

The commands, the programs and what they print are read from the pages. The system is made once, by
debootstrap, with Debian's packages that the pages ask for. The cases:

packager     the ways of README to install and to remove ti; all packages, with their own tests
             (debian/tests) and the alternatives of docs/COMPARED.md; nothing is left over
author       who writes the entry of a terminal: with README alone ti-tic, ti-lint and Neovim work
             within MINUTES from the package; then the commands of docs/TUTORIAL.md,
             examples/README.md, docs/TROUBLESHOOTING.md and the manual pages, as the package has
             them and as a user who is not root; Neovim shows the errors and warnings of a source,
             set up by README, docs/EDITORS.md and ti-lsp(1)
programmer   the programs of README, docs/LIBRARY.md, ti(3) and examples/, in C, C++ and Python,
             built and run as the pages say; the wheel in an environment of its own, once the
             packages are removed
programs     the commands of docs/TINFO.md in a terminal, each next to the same without ti-run

What cannot be had is skipped, and said to be. The last line is
`newcomers: N passed, M failed[, K skipped]`.
"""

import gzip
import importlib.util
import os
import re
import shutil
import subprocess
import sys
import tempfile
import time
from concurrent.futures import ThreadPoolExecutor

from debian import ENTER, Room, System  # puts the directories of the following modules on the path
import packages
import screens
import transcript
from common import TOP, Skipped, Tally, commands_of, need, programs_of, text_of
from shared import INSTALLED_PAGES, install_command

DOC = "usr/share/doc/ti"
TERM = "xterm-256color"
# how long the first tasks may take with README alone
MINUTES = 5


def inline(page, beginning):
    """The command in backquotes of a page that begins with some words."""
    text = " ".join(text_of(page).split())
    return re.search(rf"`({re.escape(beginning)}[^`]*)`", text)[1]


# The packager


def tree_of_repository(directory):
    """Copies what is of the repository, and the built programs, as `make deb` does."""
    spec = importlib.util.spec_from_file_location("build_packages", packages.MAKER)
    maker = importlib.util.module_from_spec(spec)
    spec.loader.exec_module(maker)
    maker.copy_tree(directory)


def try_alternatives(room):
    """Puts our tools in the place of ncurses's by the commands of docs/COMPARED.md, and tput back. The
    others go with the package."""
    command = "\n".join(commands_of("docs/COMPARED.md", "## In place of ncurses's tools"))
    room.root_does(command)
    for tool in ("tic", "infocmp", "tput", "clear", "toe", "tabs", "tset", "reset"):
        version = f"ti-{tool} {packages.version()} (in the place of ncurses 6.4.20221231)\n"
        room.wants(command, room.root_does(f"/usr/local/bin/{tool} --version"), version)
    command = inline("docs/COMPARED.md", "update-alternatives --remove")
    room.root_does(command)
    room.wants(command, room.root_does("ls /usr/local/bin"), "clear\ninfocmp\nreset\ntabs\ntic\ntoe\ntset\n")


def try_ways(room):
    """Installs in each way of README, runs the tools, and removes them as README says."""
    tree_of_repository(room.path("source"))
    ways = (
        ("", install_command("dpkg -i"), "dpkg -r"),
        ("", install_command("install.sh"), f"ti-{packages.version()}-x86_64-linux/install.sh"),
        ("cd source && ", install_command("make install"), "make uninstall"),
    )
    for at, (place, install, removal) in enumerate(ways):
        room.root_does(place + install)
        room.root_does(f"mkdir way{at} && cp source/examples/dumb.ti way{at}")
        room.wants(f"the tools after {install}", room.root_does(f"cd way{at} && {packages.SCRIPT}"), packages.PRINTED)
        if removal == "dpkg -r":
            try_alternatives(room)
        room.root_does(place + inline("README.md", removal))
        room.wants_nothing_left(removal)


def try_packages(room):
    """Installs all packages, runs their tests, and purges them."""
    room.root_does("dpkg -i packages/*.deb")
    names = re.findall(r"^Tests: (\w+)$", text_of("debian", "tests", "control"), re.M)
    for name in names:
        room.root_does(f"source/debian/tests/{name}")
    room.root_does(f"dpkg --purge {' '.join(packages.PACKAGES)}")
    room.wants_nothing_left("a purge")
    print(f"    3 ways to install, and the tests {', '.join(names)} of the packages")


def check_packager(system):
    room = Room(system, "packager")
    try_ways(room)
    try_packages(room)
    return room.faults


# The author of a terminal's entry

# prints the errors and warnings of the source that is open, once the server has sent them all
SHOW = """vim.wait(120000, function() return #vim.diagnostic.get(0) == COUNT end, 20)
for _, found in ipairs(vim.diagnostic.get(0)) do
  io.stdout:write((found.lnum + 1) .. ' ' .. (found.code or found.user_data.lsp.code) .. '\\n')
end
vim.cmd('qa!')
"""


def try_transcripts(room):
    """Runs the commands of pages as they are installed, and compares what they print."""
    room.user_does("mkdir pages")
    for page in INSTALLED_PAGES:
        packed = os.path.join(room.system.root, "usr/share/man", f"man{page[-1]}", f"{page}.gz")
        with gzip.open(packed, "rt", encoding="utf-8") as file:
            room.write(f"pages/{page}", file.read())
    work = "mkdir walk && cd walk && python3 ../transcript.py"
    room.wants("docs/TUTORIAL.md", room.user_does(f"{work} /{DOC}/docs/TUTORIAL.md && rm -r ../walk"), "")
    room.wants("examples/README.md", room.user_does("cd examples && python3 ../transcript.py README.md"), "")
    for page in INSTALLED_PAGES:
        command = f"mkdir walk && cp /{DOC}/examples/*.ti walk && cd walk && python3 ../transcript.py ../pages/{page}"
        room.wants(page, room.user_does(f"{command} && rm -r ../walk"), "")
    print(f"    the commands of docs/TUTORIAL.md, examples/README.md and {len(INSTALLED_PAGES)} manual pages")


def try_base(room):
    """Lists an entry of Debian into a source, by the commands of docs/TROUBLESHOOTING.md."""
    page = text_of("docs", "TROUBLESHOOTING.md").split("\n## A base entry that is installed\n")[1]
    commands = page.split("```sh\n")[1].split("```")[0]
    room.write("mine.ti", "mine|a wide one,\n\tam@, cols#132, use=xterm,\n")
    printed = room.user_does(f"set -e\n{commands}{inline('docs/TROUBLESHOOTING.md', 'TERMINFO=out')}")
    room.wants("the base", printed, "mine|a wide one,\n\tam@,\n\tcols#132,\n\tuse=xterm,\n")


def neovim_files(room):
    """For each page that sets up Neovim the file below the user's directory, and what it has."""
    docs = os.path.join(room.system.root, DOC, "docs")
    link, place = re.search(r"^\| Neovim[^|]*\| \[[^]]*\]\(([^)]*)\) \| `~/([^`]*)`", text_of(docs, "EDITORS.md"), re.M).groups()
    yield "docs/EDITORS.md", place, text_of(docs, link)
    page = room.path("pages", "ti-lsp.1")
    settings = next(lines for lines in transcript.blocks(page) if lines[0].startswith("dofile"))
    yield "ti-lsp(1)", ".config/nvim/init.lua", "\n".join(settings) + "\n"


def wanted_of_readme():
    """README's first source, and the lines and codes that README shows for it."""
    pairs = list(transcript.commands(os.path.join(TOP, "README.md")))
    source = next(command for command, _ in pairs if command.startswith("cat >"))
    checked, shown = next(pair for pair in pairs if pair[0].startswith("ti-lint "))
    name = checked.split()[-1]
    found = re.findall(rf"^{re.escape(name)}:(\d+):\d+: .* \[(\w+) \w+\]$", shown, re.M)
    return source, name, "".join(f"{line} {code}\n" for line, code in found)


def try_neovim(room, ways):
    """Opens README's first source in Neovim, set up in some ways, which has to show the errors and warnings that
    README shows for it."""
    source, name, wanted = wanted_of_readme()
    room.write("show.lua", SHOW.replace("COUNT", str(wanted.count("\n"))))
    for at, (page, set_up) in enumerate(ways):
        room.user_does(f"mkdir home{at}")
        home = f"/room/home{at}"
        set_up(at, home)
        room.user_does(source, HOME=home)
        got = room.user_does(f"nvim --headless -n -i NONE {name} -c 'luafile show.lua'", HOME=home)
        room.wants(f"Neovim by {page}", got, wanted)
    print(f"    Neovim by {', '.join(page for page, _ in ways)}")


def try_readme(room):
    """Does with README alone what an author does first: what is installed has its commands."""
    room.wants("README", room.user_does(f"python3 transcript.py /{DOC}/README.md"), "")
    commands = " && ".join(commands_of("README.md", "## In an editor"))
    try_neovim(room, [("README", lambda _, home: room.user_does(commands, HOME=home))])


def check_author(system):
    room = Room(system, "author")
    began = time.monotonic()
    room.root_does(install_command("dpkg -i"))
    shutil.copy(transcript.__file__, room.path("transcript.py"))
    try_readme(room)
    seconds = time.monotonic() - began
    print(f"    with README alone: {seconds:.0f} seconds")
    if seconds > 60 * MINUTES:
        room.faults.append(f"the first tasks took {seconds:.0f} seconds")
    room.user_does("rm -r home0 out mine.ti")
    room.user_does(inline("examples/README.md", "cp -r"))
    try_transcripts(room)
    try_base(room)
    files = list(neovim_files(room))
    try_neovim(room, [(page, lambda at, _, file=file: room.write(f"home{at}/{file[0]}", file[1])) for page, *file in files])
    room.root_does(inline("README.md", "dpkg -r"))
    return room.faults


# The programmer

# the programs of examples/, and what each writes on a terminal of 256 colors
PROGRAMS_OF_EXAMPLES = {
    "palette.c": "\033[38;5;200m", "styles.c": "\033[33morange\r\n", "palette.py": "\033[38;5;200mcolor 200",
    "screen.py": "\033[32m",
}


def check_programmer(system):
    room = Room(system, "programmer")
    for command in commands_of("docs/LIBRARY.md", "## Install"):
        room.root_does(command)
    room.root_does(inline("docs/LIBRARY.md", "dpkg -i packages/python3-ti"))
    shutil.copy(transcript.__file__, room.path("transcript.py"))
    for name in ("docs/LIBRARY.md", *(f"examples/{name}" for name in PROGRAMS_OF_EXAMPLES)):
        shutil.copy(os.path.join(TOP, name), room.path(os.path.basename(name)))
    for text, name in programs_of("docs/LIBRARY.md"):
        room.write(name, text)
    room.wants("docs/LIBRARY.md", room.user_does("python3 transcript.py LIBRARY.md"), "")
    room.write("colors.c", re.search(r"^```c\n(.*?)^```", text_of("README.md"), re.S | re.M)[1])
    room.user_does(inline("README.md", "cc colors.c"))
    room.wants("README's program", room.user_does("./a.out", TERM=TERM), "256 colors\n")
    try_program_of_tutorial(room)
    page = text_of("man", "ti.3")
    room.write("width.c", "\n".join(next(transcript.blocks(os.path.join(TOP, "man", "ti.3")))) + "\n")
    room.user_does(re.search(r"^\.Ql (cc width\.c .*?) ?\.?$", page, re.M)[1])
    room.wants("the program of ti(3)", room.user_does("./a.out", TERM=TERM), f"{TERM}: 80 columns\n")
    for name, shown in PROGRAMS_OF_EXAMPLES.items():
        command = re.search(rf"((?:cc|python3) {name}[^\n\"]*)", text_of("examples", name))[1]
        printed = room.user_does(command, TERM=TERM)
        if shown not in printed:
            room.faults.append(f"{command}: printed {printed[:400]!r}")
    room.root_does("dpkg --purge libti-dev libti2 python3-ti")
    try_wheel(room)
    return room.faults


def try_program_of_tutorial(room):
    """Builds and runs the program of docs/TUTORIAL.md, on a terminal without true color."""
    ((text, name),) = programs_of("docs/TUTORIAL.md")
    room.write(name, text)
    build, run = commands_of("docs/TUTORIAL.md", "## Use it in a program")
    room.user_does(build)
    printed = room.user_does(f"./{run.partition('./')[2]}", TERM=TERM)
    if not re.fullmatch(r"\033\[33m\033\[4(:3)?mhello\033\(B\033\[m", printed):
        room.faults.append(f"the program of docs/TUTORIAL.md printed {printed!r}")


def try_wheel(room):
    """Installs the wheel by the commands of docs/LIBRARY.md, where no package has the library."""
    for command in commands_of("docs/LIBRARY.md", "## Python"):
        room.user_does(command)
    script = "import ti; print(ti.Entry.find().number('cols'), ti._library_name())"
    printed = room.user_does(f'own/bin/python -c "{script}"', TERM=TERM)
    if not re.fullmatch(r"80 /room/own/\S*/site-packages/ti/libti\.so\.2\n", printed):
        room.faults.append(f"the module of the wheel printed {printed!r}")


# Programs of libtinfo


class Terminals:
    """How programs are started in the system by tests/tinfo/screens.py, with ti-run and without it."""

    def __init__(self, root):
        self.libraries = os.path.join(root, "usr/lib/x86_64-linux-gnu/ti")
        # they are started in a directory of their own, which is /room in the system
        self.plain = f"{ENTER} {root} ."
        self.ti_run = f"{self.plain} ti-run"


def check_programs(system):
    need("tmux")
    room = Room(system, "programs")
    (install,) = commands_of("docs/TINFO.md", "## Turn it on")
    room.root_does(install)
    command = re.search(r"^\.Dl \$ (ti-run bash .*)$", text_of("man", "ti-run.1"), re.M)[1]
    printed = room.user_does(command)
    if not printed or not all(line.endswith("/ti/libtinfo.so.6") for line in printed.splitlines()):
        room.faults.append(f"{command}: printed {printed!r}")
    with open(os.path.join(system.root, "etc", "tmux.conf"), "w", encoding="utf-8") as file:
        file.write(screens.TMUX_CONF)
    block = text_of("docs", "TINFO.md").split("\n## Turn it on\n")[1].split("```sh\n")[2].split("```")[0]
    commands = [line.removeprefix("ti-run ") for line in block.strip().split("\n")]
    terminals = Terminals(system.root)
    with ThreadPoolExecutor(len(commands)) as pool:
        compared = pool.map(lambda words: screens.compare(words.split()[0], TERM, terminals, words), commands)
        room.faults += [wrong for wrong, _ in compared if wrong]
    print(f"    {', '.join(commands)}")
    os.remove(os.path.join(system.root, "etc", "tmux.conf"))
    room.root_does("dpkg --purge libti-tinfo libti2")
    return room.faults


CASES = {"packager": check_packager, "author": check_author, "programmer": check_programmer, "programs": check_programs}


def main():
    tally = Tally("newcomers")
    with tempfile.TemporaryDirectory(prefix="ti-newcomers-") as directory:
        system = System(directory)
        for name in sys.argv[1:] or CASES:
            print(f"{name}:", flush=True)
            try:
                tally.add(name, CASES[name](system))
            except Skipped as why:
                tally.skip(name, why)
            except (OSError, subprocess.SubprocessError, AttributeError, StopIteration, ValueError) as fault:
                tally.add(name, [f"{type(fault).__name__}: {fault}"])
    return tally.close()


if __name__ == "__main__":
    sys.exit(main())
