#!/usr/bin/env python3
"""Whether what is shipped with the program is in order.

    tests/package/run.py [CHECK..]     the checks named, or all but `tarball-builds`

tables       the tables of ti_caps and ti_names that follow from their lists are as they follow
options      the options and commands of pages, help and completions are one set, and the
             capabilities that completions know are those of the program
everyday-options
             the same of the options of the everyday tools
bash, fish, zsh
             the shell gives the candidates that are wanted
pages        the pages are clean under `mandoc -T lint`, and each says what a page is to say
markdown     pages link to the pages that they name, links lead to files, lines keep to the width,
             words are plain, the picture and the table of crates are those of crates.txt, and the
             picture of speed is that of docs/PERFORMANCE.md
scripts      comments of scripts, of the header and of examples keep to the width, in plain words
spelling     codespell knows the words of pages, scripts and doc comments, or words.txt has them
grammar      the grammar of VS Code gives the scopes that are wanted, and shows no fault of spelling
             where `ti tic -c` reports none
readme       the first command of README writes what README says of it, and the
             second is what CI runs
links        README and docs are installed, and links of installed pages lead to what is installed
install      what `make install` puts into a directory runs from there, and `make uninstall`
             takes all of it away
version      help, pages, changes and the extension have the version of VERSION, and what is of the C
             library that of its header
deb          the Debian packages are the same each time, run unpacked, and please lintian
release      the archives of a release are the same each time; install.sh installs what runs; the
             extension of Visual Studio Code has what it names, and the wheel's module runs
tarball      `make dist` makes a tarball of every file of the commit
tarball-builds
             the program is built from that tarball, with every proof anew
build        ./ti proves each crate after those that it depends on, ends if one is refused, and
             proves again what an edit reaches and nothing else (with a substitute for the toolchain)
layers       a crate of crates.txt depends only on crates above it
small-build  ./ti proves, compiles and links with the toolchain itself: one library, a small program
audit        tests/audit finds the wrong bodies that are proved or cannot be applied, and chooses the
             crates that changed and those above (with a substitute for the toolchain)
claims       docs/claims.py finds a name that is not there, and a call that no program makes

What needs a program that is not installed is skipped, and said to be. The last line is
`package: N passed, M failed`.
"""

import subprocess
import sys

import auditing
import building
import claiming
import completions
import grammars
import packages
import pages
import shared  # noqa: F401, puts the directory of `common` on the path
from common import PROGRAM, Skipped, Tally, is_missing

CHECKS = {
    "tables": pages.check_tables,
    "options": completions.check_options,
    "everyday-options": completions.check_everyday_options,
    "bash": completions.check_bash,
    "fish": completions.check_fish,
    "zsh": completions.check_zsh,
    "pages": pages.check_pages,
    "markdown": pages.check_markdown,
    "scripts": pages.check_scripts,
    "spelling": pages.check_spelling,
    "grammar": grammars.check_grammar,
    "readme": pages.check_readme,
    "links": packages.check_links,
    "install": packages.check_install,
    "version": packages.check_version,
    "deb": packages.check_deb,
    "release": packages.check_release,
    "tarball": building.check_tarball,
    "tarball-builds": building.check_tarball_builds,
    "build": building.check_build,
    "layers": building.check_layers,
    "small-build": building.check_small_build,
    "audit": auditing.check_audit,
    "claims": claiming.check_claims,
}
# these look at the repository alone, and not at the built program
WITHOUT_PROGRAM = {
    "tables", "markdown", "scripts", "spelling", "pages", "grammar", "everyday-options", "links", "tarball",
    "tarball-builds", "build", "layers", "small-build", "audit", "claims",
}
EXPECTED = (subprocess.SubprocessError, OSError, IndexError, KeyError, TypeError, StopIteration)


def main():
    wanted = sys.argv[1:] or [name for name in CHECKS if name != "tarball-builds"]
    if not WITHOUT_PROGRAM.issuperset(wanted) and is_missing(PROGRAM, "package"):
        return 1
    tally = Tally("package")
    for name in wanted:
        faults = []
        try:
            faults.extend(CHECKS[name]())
        except Skipped as why:
            if not faults:
                tally.skip(name, why)
                continue
            print(f"{name}: skipped in part, since {why}")
        except EXPECTED as fault:
            faults.append(f"{type(fault).__name__}: {fault}")
        tally.add(name, faults)
    return tally.close()


if __name__ == "__main__":
    sys.exit(main())
