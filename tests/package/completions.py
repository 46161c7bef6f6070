"""Options, commands and capabilities are one set in pages, help, completions; what shells do."""

import os
import pty
import re
import select
import shutil
import subprocess
import tempfile
import time

from shared import (
    EVERYDAY, EVERYDAY_TOOLS, HERE, PAGE_OF, PROGRAM, TOOLS, TOP, Skipped, help_of, need, output, text_of,
)

SHELLS = ["ti.bash", "_ti", "ti.fish"]
# what a person types, and a candidate that must come, and one that must not
CANDIDATES = [
    ("ti i", "infocmp", "tic"),
    ("ti help se", "session", "tic"),
    ("ti tic -", "-o", "-T"),
    ("ti tic lan", "lantern.ti", "dumb.ti"),
    ("ti tput set", "setaf", "cup"),
    ("ti tput -T la", "lantern3", "dumb"),
    ("ti tput -T dumb longn", "longname", "cols"),
    ("ti infocmp du", "dumb", "lantern3"),
    ("ti infocmp lantern3 lantern2", "lantern2-n", "dumb"),
    ("ti-tput -x -T du", "dumb", "lantern3"),
    ("ti-tput -T ho", "homely", "dumb"),
    ("ti-tput --", "--version", "-S"),
    ("ti-tput set", "setaf", "cup"),
    ("ti-tic -", "-x", "-T"),
    ("ti-tic lan", "lantern.ti", "dumb.ti"),
    ("ti-tic -x -o out lan", "lantern.ti", "dumb.ti"),
    ("ti-clear -", "-T", "-S"),
    ("ti-clear -x -T du", "dumb", "lantern3"),
    ("ti-toe -", "--help", "-T"),
    ("ti-tabs -", "-a2", "-x"),
    ("ti-tabs -T du", "dumb", "lantern3"),
    ("ti-tset -", "-Q", "-x"),
    ("ti-reset du", "dumb", "lantern3"),
    ("ti-fmt -", "--check", "-x"),
    ("ti-fmt --k", "--keep", "--check"),
    ("ti-fmt --check lan", "lantern.ti", "dumb.ti"),
    ("ti-lint -", "--strict", "-T"),
    ("ti-lint --format g", "github", "json"),
    ("ti-lint --fix --color never lan", "lantern.ti", "dumb.ti"),
    ("ti-infocmp -", "-D", "-L"),
    ("ti-infocmp -x ho", "homely", "dumb"),
    ("ti-infocmp ./out/d/du", "./out/d/dumb", "lantern3"),
    ("ti-infocmp -d -A more homely lantern", "lantern3", "homely"),
    ("ti infocmp -A more lantern", "lantern-color", "lantern3"),
    ("ti infocmp -A out -B more lantern3 lantern", "lantern-color", "lantern2"),
]

# the keys and the compadd by which zsh is asked
ZSHRC = """asked=@ASKED@ PS1=
fpath=(@TOP@/completions $fpath)
autoload -U compinit; compinit -u -D
zle -N ask
ask() { zle complete-word; print -rl -- ${${(z)BUFFER}[-1]} done. >>$asked }
bindkey '^I' ask
compadd() {
  local -a hits
  [[ ${@[1,(i)(-|--)]} == *-[OAD]\\ * ]] || {
    builtin compadd -A hits "$@"
    print -rl -- $hits >>$asked
  }
  builtin compadd "$@"
}
print done. >>$asked
"""
# where a completion has its list of capabilities
CAPABILITIES = re.compile(
    r"_ti_capabilities(?:='|=\(|\n    string split ' ' -- \\\n)(.*?)(?:'\n\n|\)\n|\nend)", re.S
)


def options_of_help(tool):
    part = help_of(tool).split("\nOptions:\n")[1].split("\n\n")[0]
    found = {word for line in part.split("\n") for word in re.findall(r"(?:^ +|, )(--?[\w-]+)", line.split("  <")[0])}
    # most options of these are words to clap, and have a list of their own
    if tool in ("ti-tabs", "ti-tset", "ti-reset"):
        listed = help_of(tool).split("\nOptions may share a word")[1]
        for line in re.findall(r"^  -.*$", listed, re.M):
            found.update(re.findall(r"(?<![\w-])-[a-zA-Z]\d?(?![\w-])", line))
        found.discard("-N")
    return found


def page_of(tool):
    return text_of("man", PAGE_OF[tool])


def flags(line):
    """The options that a line of macros names."""
    found = set()
    for part in re.findall(r"Fl ((?:-?\w[\w-]*)(?: [,|] -?\w[\w-]*)*)", line):
        for name in re.split(r" [,|] ", part):
            found.add("-" + name)
    # a hyphen before an argument, as in -N
    return found - {"-Ar"}


def options_of_page(tool):
    return {name for line in page_of(tool).split("\n") if line.startswith(".It Fl ") for name in flags(line)}


def options_of_synopsis(tool):
    synopsis = page_of(tool).split(".Sh SYNOPSIS\n")[1].split(".Sh ")[0]
    return {name for line in synopsis.split("\n") for name in flags(line)}


def bash_candidates(lines, directory=None):
    env = dict(os.environ, TERMINFO="out", TERMINFO_DIRS="none::also", HOME=directory or "/nonexistent")
    asked = os.path.join(TOP, "completions", "ti.bash")
    words = ["bash", "--norc", os.path.join(HERE, "ask.bash"), asked]
    got = output(words, "".join(line + "\n" for line in lines), cwd=directory, env=env)
    return {line.rpartition(": ")[0]: line.rpartition(": ")[2].split() for line in got.split("\n") if line}


def fish_candidates(lines, directory=None):
    env = dict(os.environ, TERMINFO="out", TERMINFO_DIRS="none::also", HOME=directory or "/nonexistent")
    found = {}
    for line in lines:
        script = f"source {TOP}/completions/ti.fish; complete -C '{line}'"
        got = output(["fish", "--no-config", "-c", script], cwd=directory, env=env)
        found[line] = [row.split("\t")[0] for row in got.split("\n") if row]
    return found


class Zsh:
    """An interactive zsh, asked for candidates by the key Tab: the compadd of ZSHRC writes each into
    a file, and the key what the last word has become."""

    def __init__(self, directory):
        self.asked = os.path.join(directory, "asked")
        with open(os.path.join(directory, ".zshrc"), "w", encoding="utf-8") as file:
            file.write(ZSHRC.replace("@ASKED@", self.asked).replace("@TOP@", TOP))
        self.pid, self.terminal = pty.fork()
        if self.pid == 0:
            os.chdir(directory)
            os.environ.update(TERM="dumb", TERMINFO="out", HOME=directory, ZDOTDIR=directory)
            os.execvp("zsh", ["zsh", "-i", "--no-globalrcs"])
        self.answer("")

    def answer(self, typed):
        """What zsh has written into the file once it has done with what was typed."""
        os.write(self.terminal, typed.encode())
        end, said = time.monotonic() + 30, ""
        while not said.endswith("done.\n"):
            if time.monotonic() > end:
                raise OSError(f"zsh does not answer: {said!r}")
            if select.select([self.terminal], [], [], 0.02)[0]:
                os.read(self.terminal, 65536)
            if os.path.isfile(self.asked):
                with open(self.asked, encoding="utf-8") as file:
                    said = file.read()
        os.remove(self.asked)
        return said.split("\n")[:-2]

    def candidates(self, line):
        return self.answer(f"\x15{line}\t")

    def close(self):
        os.write(self.terminal, b"\x15exit\n")
        os.close(self.terminal)
        os.waitpid(self.pid, 0)


def zsh_candidates(lines, directory):
    zsh = Zsh(directory)
    try:
        return {line: zsh.candidates(line) for line in lines}
    finally:
        zsh.close()


def with_entries(check):
    """Runs a check in a directory in which the examples are, compiled, and which is also that of the
    user, with the entry `homely`."""
    with tempfile.TemporaryDirectory(prefix="ti-package-") as directory:
        for name in ("dumb.ti", "lantern.ti"):
            shutil.copy(os.path.join(TOP, "examples", name), directory)
            subprocess.run([PROGRAM, "tic", "-o", "out", name], cwd=directory, check=True)
        os.makedirs(os.path.join(directory, "more", "l"))
        shutil.copy(os.path.join(directory, "out", "l", "lantern-color"), os.path.join(directory, "more", "l"))
        # by the code of its first letter, as where names of files tell no case
        os.makedirs(os.path.join(directory, ".terminfo", "68"))
        shutil.copy(os.path.join(directory, "out", "d", "dumb"), os.path.join(directory, ".terminfo", "68", "homely"))
        yield from check(directory)


def check_shell(shell, candidates):
    """Whether a shell gives the candidates that are wanted."""
    need(shell)
    lines = [line for line, _, _ in CANDIDATES]
    yield from with_entries(lambda directory: faults_of_candidates(shell, candidates(lines, directory)))


def faults_of_candidates(shell, found):
    for line, wanted, other in CANDIDATES:
        got = found.get(line, [])
        if wanted not in got or other in got:
            yield f"{shell}: candidates of {line!r} are {got[:20]}, wanted {wanted!r} and not {other!r}"


def check_bash():
    yield from check_shell("bash", bash_candidates)


def check_fish():
    yield from check_shell("fish", fish_candidates)


def check_zsh():
    yield from check_shell("zsh", zsh_candidates)


def options_of_zsh(tool):
    completion = text_of("completions", "_ti")
    if tool:
        part = re.split(rf"        (?:[\w-]+ ?\| ?)*{tool}(?: ?\| ?[\w-]+)*\)\n", completion)[1].split(";;")[0]
    else:
        part = completion.split("\n_ti() {")[1]
    plain = re.findall(r"'(?:\([^)]*\))?\*?(--?[\w-]+)\[", part)
    return {*plain, *re.findall(r"(?<=[{,])--?[\w-]+(?=[},])", part)}


def command_of(tool):
    """What is typed for a tool: an everyday tool is a command of its own."""
    return tool if tool in EVERYDAY_TOOLS else f"ti {tool}".strip()


def option_sets(tool, helped):
    """The options of a tool, or of the program, in each place that has them, by its name. A synopsis
    leaves out what asks for help and version."""
    name = command_of(tool)
    yield "page", options_of_page(tool)
    # the synopsis of the program has the options of its tools
    if tool:
        yield "synopsis", options_of_synopsis(tool) | helped & {"-h", "--help", "-V", "--version"}
    if shutil.which("bash"):
        yield "completion in bash", set(bash_candidates([f"{name} -"])[f"{name} -"])
    if shutil.which("fish"):
        found = fish_candidates([f"{name} -", f"{name} --"])
        yield "completion in fish", {word for words in found.values() for word in words}
    yield "completion in zsh", options_of_zsh(tool)


def option_faults(tools):
    """Places that have other options of these tools than their help."""
    for tool in tools:
        helped = options_of_help(tool)
        for place, got in option_sets(tool, helped):
            # intervals that are completed
            if tool == "ti-tabs":
                got = {name for name in got if not re.fullmatch(r"-\d+", name)}
            if got != helped:
                yield f"{command_of(tool)}: the {place} has {sorted(got)}, the help {sorted(helped)}"


def check_everyday_options():
    """Whether options of the everyday tools are one set in help, pages and completions."""
    if not os.access(EVERYDAY, os.X_OK):
        raise Skipped("ti-everyday is not built")
    yield from option_faults(EVERYDAY_TOOLS)


def check_options():
    """Whether options, commands and capabilities are one set in help, pages and completions."""
    yield from option_faults(["", *TOOLS])
    commands = set(re.findall(r"^  (\w+)  ", help_of("").split("Commands:\n")[1].split("\n\n")[0], re.M))
    if commands != {*TOOLS, "help"}:
        yield f"the tools are {sorted(commands)}"
    requests = re.findall(r"^  (\w) ", help_of("session").split("from 0:\n")[1].split("\nAn edit")[0], re.M)
    shown = re.findall(r"^\.It Ic (\w)(?: Ar|$)", page_of("session"), re.M)
    if requests != shown:
        yield f"the page of session has the requests {shown}, the help {requests}"
    yield from capability_faults()


def capability_faults():
    """Completions whose capabilities are not those of the program."""
    with tempfile.TemporaryDirectory(prefix="ti-package-") as directory:
        output([PROGRAM, "tic", "-o", directory], "empty|no capability,\n")
        places = ["-A", directory, "-B", directory]
        absent = output([PROGRAM, "infocmp", "-n", "-s", "d", *places, "empty", "empty"])
    known = re.findall(r"^\t!(\w+)\.$", absent, re.M)
    for name in SHELLS:
        if re.findall(r"\w+", CAPABILITIES.search(text_of("completions", name))[1]) != known:
            yield f"{name}: its capabilities are not the {len(known)} of the program"
