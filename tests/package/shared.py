"""What the checks of the package share."""

import os
import subprocess
import sys

HERE = os.path.dirname(os.path.abspath(__file__))
sys.path.insert(0, os.path.dirname(HERE))
from common import (  # noqa: E402, F401
    EVERYDAY, LSP, PROGRAM, TOP, Skipped, bytes_of, commands_of, files_below, need, text_of,
)

TOOLS = ["tic", "infocmp", "tput", "session"]
# the links to ti-everyday
EVERYDAY_TOOLS = ["ti-tic", "ti-infocmp", "ti-tput", "ti-clear", "ti-toe", "ti-tabs", "ti-tset", "ti-reset", "ti-fmt", "ti-lint"]
# the page of each command, those of `ti` by the name of the tool
PAGE_OF = {
    "": "ti.1",
    "tic": "ti-profile-tic.1",
    "infocmp": "ti-profile-infocmp.1",
    "tput": "ti-profile-tput.1",
    "session": "ti-session.1",
    **{tool: f"{tool}.1" for tool in EVERYDAY_TOOLS},
}
PAGES = [*PAGE_OF.values(), "ti-everyday.1", "ti-lsp.1", "ti-report.7", "ti-hints.7"]
# the page of ti-run is of another package
PAGES_OF_ALL = [*PAGES, "ti-run.1"]
# the language server and its page are installed if it is built
HAS_LSP = os.access(LSP, os.X_OK)
INSTALLED_PAGES = [page for page in PAGES if HAS_LSP or page != "ti-lsp.1"]
# that page is of another package
PAGES_OF_TI = [page for page in PAGES if page != "ti-lsp.1"]


def output(words, stdin="", **more):
    done = subprocess.run(words, input=stdin.encode(), stdout=subprocess.PIPE, stderr=subprocess.STDOUT, timeout=100, **more)
    return done.stdout.decode(errors="replace")


def install_command(word):
    """The command of README's section on installing that has a word, as it is there."""
    return next(command for command in commands_of("README.md", "## Install") if word in command)


def ti(*words):
    return output([PROGRAM, *words])


def help_of(tool):
    """The help of a tool of `ti`, of `ti` itself, or of an everyday tool."""
    if tool in EVERYDAY_TOOLS:
        return output([EVERYDAY, tool, "--help"])
    return ti("help", tool) if tool else ti("--help")
