#!/usr/bin/env python3
"""Makes what a release consists of, from the built program, into a directory, or packages/.

    build/packages.py deb [DIRECTORY]        the packages of debian/control, by debhelper: ti, ti-lsp,
                                             ti-doc, libti2, libti-dev, libti-tinfo and python3-ti
    build/packages.py release [DIRECTORY]    ti-VERSION-ARCH-linux.tar.gz with install.sh and
                                             README, the source as ti-VERSION.tar.gz, the module for
                                             Python as ti_terminfo-VERSION-py3-none-PLATFORM.whl if
                                             the C library is built, the extension of Visual Studio Code as
                                             ti-lsp-VERSION-PLATFORM.vsix if the server is built, and
                                             SHA256SUMS of all

What is made depends on the commit and the built program alone: two clones give the same bytes.
Times are SOURCE_DATE_EPOCH, or that of the last commit; owners are numbers, and names are sorted.
"""

import gzip
import hashlib
import io
import os
import re
import shutil
import subprocess
import sys
import tarfile
import tempfile

from extension import extension, platform
from repository import TOP, files_below, text_of
from wheel import LIBRARY, project, wheel, wheel_name

LICENCES = ("LICENSE-MIT", "LICENSE-APACHE")
# how much is shown of what debhelper says, if it fails
LINES_SAID = 40
# what is built is not a file of the repository
BUILT = ("crates/ti/out/ti", "crates/ti_lsp/out/ti_lsp", "crates/ti_everyday/out/ti_everyday")


def output(*words, **how):
    """What a command prints; a failure is an error."""
    return subprocess.run(words, stdout=subprocess.PIPE, text=True, check=True, **how).stdout.strip()


def version():
    return text_of("VERSION").strip()


def epoch():
    """The time of everything that is made, in seconds: the environment's, or the last commit's."""
    said = os.environ.get("SOURCE_DATE_EPOCH")
    return int(said) if said else int(output("git", "log", "-1", "--format=%ct", cwd=TOP))


def install(stage, *words):
    """Installs below a directory what `make install` installs, with the pages of `make docs`."""
    output("make", "-s", "docs", cwd=TOP)
    output("make", "-s", "install", f"DESTDIR={stage}", *words, cwd=TOP)


def write(path, content):
    """Writes a file, which everyone may read, and the directories above it."""
    os.makedirs(os.path.dirname(path), exist_ok=True)
    with open(path, "wb") as file:
        file.write(content)
    os.chmod(path, 0o644)


def compressed(content):
    """Compressed bytes that hold neither a name nor a time."""
    made = io.BytesIO()
    with gzip.GzipFile(filename="", fileobj=made, mode="wb", compresslevel=9, mtime=0) as packed:
        packed.write(content)
    return made.getvalue()


def archive(directory, name, when):
    """A compressed tar archive of a directory: sorted, of one time, with numeric owners."""

    def owned(member):
        member.uid = member.gid = 0
        member.uname = member.gname = ""
        member.mtime = when
        return member

    made = io.BytesIO()
    with tarfile.open(fileobj=made, mode="w", format=tarfile.GNU_FORMAT) as packed:
        packed.add(directory, name, recursive=False, filter=owned)
        for path in sorted([*files_below(directory), *directories_below(directory)]):
            packed.add(os.path.join(directory, path), f"{name}/{path}", recursive=False, filter=owned)
    return compressed(made.getvalue())


def directories_below(directory):
    found = []
    for at, names, _ in os.walk(directory):
        found += [os.path.relpath(os.path.join(at, name), directory) for name in names]
    return found


# Debian's packages


def copy_tree(directory):
    """Copies what is of the repository, and the built programs, to a directory."""
    words = ["git", "ls-files", "-z", "--cached", "--others", "--exclude-standard"]
    names = output(*words, cwd=TOP).split("\0")
    for name in [*names, *BUILT, *library_files()]:
        source = os.path.join(TOP, name)
        if name and os.path.isfile(source):
            os.makedirs(os.path.dirname(os.path.join(directory, name)), exist_ok=True)
            shutil.copy2(source, os.path.join(directory, name), follow_symlinks=False)


def library_files():
    """The files of the C library, which `make library` makes."""
    below = os.path.join("crates", "ti_c", "out", "lib")
    return [os.path.join(below, name) for name in files_below(os.path.join(TOP, below))]


def make_deb(made):
    """Makes the packages for Debian by `debian/rules`, of a copy of the tree. Gives their files."""
    with tempfile.TemporaryDirectory(prefix="ti-deb-") as room:
        tree = os.path.join(room, "ti")
        copy_tree(tree)
        words = ["dpkg-buildpackage", "--build=binary", "--no-sign"]
        env = {**os.environ, "SOURCE_DATE_EPOCH": str(epoch())}
        ran = subprocess.run(words, cwd=tree, env=env, stdout=subprocess.PIPE, stderr=subprocess.STDOUT, errors="replace")
        if ran.returncode:
            raise SystemExit("".join(ran.stdout.splitlines(keepends=True)[-LINES_SAID:]))
        for name in sorted(os.listdir(room)):
            if name.endswith(".deb") and "-dbgsym" not in name:
                shutil.move(os.path.join(room, name), os.path.join(made, name))
                yield os.path.join(made, name)


# The archives of a release


# what README of the archive says before all that an installed one says
BEFORE = """
`./install.sh` installs below `/usr/local`, and `PREFIX=DIR ./install.sh` below another directory.
`./install.sh uninstall` removes all.
"""


def readme_at_top(text):
    """README as it is installed, with links that lead from the top of the archive, and how to install it."""
    head, rest = re.sub(r"\]\((?!\w+:|#)", "](share/doc/ti/", text).split("\n", 1)
    return f"{head}\n{BEFORE}{rest}"


def make_release(made):
    """Makes the archives of a release, and their checksums. Gives the files."""
    when, archives = epoch(), {}
    name = f"ti-{version()}"
    machine = f"{name}-{os.uname().machine}-linux"
    with tempfile.TemporaryDirectory(prefix="ti-release-") as room:
        tree = os.path.join(room, machine)
        install(os.path.join(room, "stage"), "PREFIX=/usr")
        shutil.move(os.path.join(room, "stage", "usr"), tree)
        readme = text_of(tree, "share", "doc", "ti", "README.md")
        write(os.path.join(tree, "README.md"), readme_at_top(readme).encode())
        for licence in LICENCES:
            write(os.path.join(tree, licence), text_of(licence).encode())
        install_script = os.path.join(tree, "install.sh")
        write(install_script, text_of("build", "install.sh").encode())
        os.chmod(install_script, 0o755)
        archives[f"{machine}.tar.gz"] = archive(tree, machine, when)
        # the tracked files of the last commit, as `git archive` has them
        source = subprocess.run(
            ["git", "archive", "--format=tar", f"--prefix={name}/", "HEAD"],
            cwd=TOP, stdout=subprocess.PIPE, check=True,
        ).stdout
        archives[f"{name}.tar.gz"] = compressed(source)
    if os.path.exists(LIBRARY):
        archives[wheel_name(project())] = wheel(when)
    if os.path.exists(os.path.join(TOP, BUILT[1])):
        archives[f"ti-lsp-{version()}-{platform()}.vsix"] = extension(when)
    sums = [f"{hashlib.sha256(archives[file]).hexdigest()}  {file}\n" for file in sorted(archives)]
    archives["SHA256SUMS"] = "".join(sums).encode()
    for file, content in archives.items():
        write(os.path.join(made, file), content)
        yield os.path.join(made, file)


def main():
    makers = {"deb": make_deb, "release": make_release}
    if len(sys.argv) not in (2, 3) or sys.argv[1] not in makers:
        print(__doc__, file=sys.stderr)
        return 2
    made = os.path.abspath(sys.argv[2]) if len(sys.argv) == 3 else os.path.join(TOP, "packages")
    os.makedirs(made, exist_ok=True)
    for file in makers[sys.argv[1]](made):
        print(os.path.relpath(file))
    return 0


if __name__ == "__main__":
    sys.exit(main())
