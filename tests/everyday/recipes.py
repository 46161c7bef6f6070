"""What source packages of Debian call tic and infocmp for: the scripts and commands as the packages have them, with
what configure and make put into them."""

import os
import re

from common import bytes_of
from makefiles import assigned, commands_of, configured

# what the commands need of each package
PARTS = {
    "foot": ("INSTALL.md", "foot.info", "meson.build"),
    "kitty": ("build-terminfo", "kitty/terminfo.py", "shell-integration/ssh", "terminfo"),
    "ncurses": ("debian", "misc", "ncurses/Makefile.in", "ncurses/tinfo/MKfallback.sh"),
    "rxvt-unicode": ("debian/patches", "doc"),
    "xterm": ("Makefile.in", "run-tic.in", "terminfo", "termcap"),
}
# what configure puts in place of words; for ncurses as Debian calls it
CONFIGURED = {
    "DESTDIR": "", "DFT_LWR_MODEL": "shared", "EXEEXT": "", "FGREP": "grep -F", "LN_S": "ln -s", "MAKE_DATABASE": "",
    "NCURSES_EXT_FUNCS": "1", "PATH_SEPARATOR": ":", "SHELL": "/bin/sh", "TERMINFO": "/etc/terminfo",
    "TERMINFO_SRC": "${top_srcdir}/misc/terminfo.src", "TIC": "tic", "WHICH_XTERM": "xterm-new", "XTERM_KBS": "DEL",
    "bindir": "${exec_prefix}/bin", "cross_compiling": "no", "datadir": "${prefix}/share",
    "datarootdir": "${prefix}/share", "exec_prefix": "${prefix}", "host_os": "linux-gnu", "no_ticprog": "",
    "prefix": "/usr", "srcdir": ".", "top_srcdir": "..",
}
# the variables of make; the shell has TREE, the package's directory
VARIABLES = {
    "DEB_HOST_MULTIARCH": "x86_64-linux-gnu", "DESTDIR": "$TREE/debian/tmp", "INFOCMP_PATH": "infocmp",
    "FALLBACK_LIST": "linux vt100 xterm-256color", "INSTALL_DATA": "install -m 644", "SHELL": "/bin/sh",
    "SET_TERMINFO": "TERMINFO=$TREE/out", "TERMINFO": "/etc/terminfo", "TERMINFO_SRC": "../misc/terminfo.src",
    "TIC": "tic", "TIC_PATH": "tic", "bindir": "/usr/bin", "datadir": "/usr/share", "exec_prefix": "/usr",
    "fulltempdir": "$TREE/debian/tmp", "prefix": "/usr", "source": "./terminfo.src", "srcdir": ".",
    "tabsetdir": "/usr/share/tabset", "tempdir": "$TREE/debian/tmp", "ticdir": "/etc/terminfo", "tinfo": "./tinfo",
    "top_srcdir": "..",
}
# a remote system, for the command of rxvt-unicode's page: another home, and TERMINFO as the page
# has it, since root's entries are the system's
SSH = """#!/bin/sh
HOME=$TREE/$1 TERMINFO=$TREE/$1/.terminfo
export HOME TERMINFO
shift && mkdir -p "$HOME" && sh -c "$*"
"""
# the tic that Debian has built by then, where its rules look for it
BUILT_TIC = """mkdir -p debian/tmp/usr/bin
printf '#!/bin/sh\\nexec tic "$@"\\n' >debian/tmp/usr/bin/tic
chmod +x debian/tmp/usr/bin/tic
"""
# where kitty compiles its entry on a remote system
REMOTE_KITTY = """rm -rf home && mkdir -p home/.terminfo
cp terminfo/kitty.terminfo home/.terminfo
HOME=$TREE/home
"""
COMPILE_IN_SHELL = """die() { echo "$@"; exit 1; }
. shell-integration/ssh/bootstrap-utils.sh
compile_terminfo "$HOME"
"""
COMPILE_IN_PYTHON = """python3 - <<'END'
import os, shutil, subprocess, sys
HOME = os.environ['HOME']
%s
compile_terminfo(HOME)
END
"""
COMPILE_IN_SETUP = """python3 -c '
import runpy
runpy.run_path("build-terminfo", run_name="import_build")["compile_terminfo"]("package")
'
"""


def text_of(*parts):
    """The text of a file of a package, after configure."""
    return configured(bytes_of(os.path.join(*parts)).decode(), CONFIGURED)


def write(text, *parts):
    """Writes a file of a package that can be run."""
    path = os.path.join(*parts)
    os.makedirs(os.path.dirname(path), exist_ok=True)
    with open(path, "w", encoding="utf-8") as file:
        file.write(text)
    os.chmod(path, 0o755)


def foot_commands(tree):
    """The command of meson, and that of the page for a build by hand."""
    text = text_of(tree, "meson.build").replace(".format(get_option('default-terminfo'))", "")
    line = " ".join(["tic", *re.findall(r"'([^']*)'", re.search(r"command: \[tic, ([^]]*)\]", text)[1])])
    for word, value in {"@OUTDIR@": "meson", "@0@": "foot", "@INPUT@": "foot.info.preprocessed"}.items():
        line = line.replace(word, value)
    by_hand = re.search(r"^sed 's/@default_terminfo@.*\n.*tic -o.*-\n", text_of(tree, "INSTALL.md"), re.M)[0]
    yield "meson.build", f"sed s/@default_terminfo@/foot/g foot.info >foot.info.preprocessed\n{line}"
    yield "INSTALL.md", by_hand.replace("<output-directory>", "by-hand")


def kitty_commands(tree):
    """What setup.py calls, what makes the source and its termcap, and what compiles on a remote system."""
    bootstrap = text_of(tree, "shell-integration", "ssh", "bootstrap.py")
    function = re.search(r"^def compile_terminfo.*?\n(?=\n\n)", bootstrap, re.M | re.S)[0]
    yield "setup.py", COMPILE_IN_SETUP
    yield "build-terminfo", "python3 -B build-terminfo"
    yield "bootstrap-utils.sh", REMOTE_KITTY + COMPILE_IN_SHELL
    yield "bootstrap.py", REMOTE_KITTY + COMPILE_IN_PYTHON % function


def ncurses_commands(tree):
    """What installs the entries, with Debian's rules after it, and the entries that are compiled in."""
    write(text_of(tree, "misc", "run_tic.in"), tree, "misc", "run_tic.sh")
    makefile, rules = text_of(tree, "misc", "Makefile.in"), text_of(tree, "debian", "rules")
    names = {name: assigned(rules, name) for name in ("badterminfo", "libterminfofiles")}
    steps = [commands_of(makefile, target, VARIABLES) for target in ("run_tic.sed", "terminfo.tmp", "install.data")]
    yield "run_tic.sh", "\n".join(["cd misc", "mkdir -p $TREE/debian/tmp/usr/share/tabset", *steps])
    yield "debian/rules", BUILT_TIC + commands_of(rules, "install-indep", {**VARIABLES, **names}, "terminfo")
    fallback = commands_of(text_of(tree, "ncurses", "Makefile.in"), "./fallback.c", VARIABLES)
    yield "MKfallback.sh", f"cd ncurses\n{fallback}"


def rxvt_unicode_commands(tree):
    """The termcap entry, what `make install` has where Debian does not take it out, and the commands of the page."""
    write(SSH, tree, "bin", "ssh")
    makefile = text_of(tree, "doc", "Makefile.in").replace("$(srcdir)", ".")
    patch = text_of(tree, "debian", "patches", "16_no_terminfo.diff")
    install = "".join(re.findall(r"^-(\s.*\n)", patch, re.M)).replace("$(srcdir)", ".")
    page = text_of(tree, "doc", "rxvt.7.pod")
    made = commands_of(makefile, "./etc/rxvt-unicode.termcap", VARIABLES)
    yield "termcap", f"cd doc\nrm etc/rxvt-unicode.termcap\n{made}"
    yield "make install", f"cd doc\nTERMINFO=$TREE/installed; export TERMINFO\n{install}"
    yield "ssh", "PATH=$TREE/bin:$PATH\n" + re.search(r"^   REMOTE=.*\n(?:   .*\n)+", page, re.M)[0]
    yield "infocmp -C", re.search(r"^   infocmp -C .*\n", page, re.M)[0]


def xterm_commands(tree):
    """What installs the entries, the same without the script, and the translations of the sources."""
    write(text_of(tree, "run-tic.in"), tree, "run-tic.sh")
    makefile = text_of(tree, "Makefile.in")
    yield "run-tic.sh", commands_of(makefile, "install-ti", VARIABLES)
    yield "tic -x", "tic -x -o direct terminfo"
    yield "terminfo.out", commands_of(makefile, "terminfo.out", VARIABLES)
    yield "termcap.out", commands_of(makefile, "termcap.out", VARIABLES)


COMMANDS = {
    "foot": foot_commands, "kitty": kitty_commands, "ncurses": ncurses_commands, "rxvt-unicode": rxvt_unicode_commands,
    "xterm": xterm_commands,
}
