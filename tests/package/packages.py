"""What `make install`, the packages and the archives of a release install, and whether that runs."""

import base64
import filecmp
import hashlib
import json
import os
import re
import shutil
import subprocess
import tempfile
import zipfile

from pages import markdown_pages
from shared import (
    EVERYDAY_TOOLS, HAS_LSP, INSTALLED_PAGES, PAGES_OF_TI, TOP, Skipped, files_below, install_command,
    need, output, text_of, ti,
)

MAKER = os.path.join(TOP, "build", "packages.py")
# what a user does with the programs of a package, and what that prints
SCRIPT = """ti tic -o out dumb.ti && ti-tic -o again dumb.ti && cmp out/d/dumb again/d/dumb &&
TERMINFO=out ti infocmp dumb | head -n 1 && TERMINFO=out ti tput -T dumb cols &&
TERMINFO=out ti-infocmp dumb | head -n 1 && TERMINFO=out ti-tput -T dumb cols &&
printf 'user,Tc,use=dumb,\\n' | TERMINFO=out ti-tic -x - && TERMINFO=out ti-tput -T user Tc &&
printf 'i 0\\nx,\\n.\\nf\\n' | ti session"""
PRINTED = "dumb|80-column dumb tty,\n80\n" * 2 + "ok\n.\n"
if HAS_LSP:
    SCRIPT += " && ti-lsp --version"
    PRINTED += f"ti-lsp {text_of('VERSION').strip()}\n"
# a program in C that takes the library
SOURCE = """#include <stdio.h>
#include <ti.h>
int main(void) {
    struct ti_place place = { 0, 0 };
    bool found = ti_capability((const uint8_t *)"cup", 3, &place);
    return printf("%s %d %u\\n", TI_VERSION, found, (unsigned)place.index) < 0;
}
"""
OF_LIBRARY = (
    "/include/ti.h", "/include/ti.hpp", "/include/ti_names.h", "/libti.a", "/libti.so", "/pkgconfig/ti.pc", "/man3/ti.3.gz",
    "/man3/ti_open.3.gz",
)
# the packages of debian/control, sorted
PACKAGES = ["libti-dev", "libti-tinfo", "libti2", "python3-ti", "ti", "ti-doc", "ti-lsp"]
# the pages that `make docs` makes, which are of ti-doc
MADE = ("docs/CONTRACTS.md", "docs/DEFINITIONS.md")
# how many kilobytes the package for users may have installed
KILOBYTES_OF_TI = 2500
LIBRARY = os.path.join(TOP, "crates", "ti_c", "out", "lib")
HAS_LIBRARY = os.path.exists(os.path.join(LIBRARY, "libti.a"))
HAS_TINFO = os.path.exists(os.path.join(LIBRARY, "ti", "libtinfo.so.6"))


def version():
    return text_of("VERSION").strip()


def library_version():
    """The version of libti and of its module for Python."""
    return re.search(r'^#define TI_VERSION "(.*)"', text_of("include", "ti.h"), re.M)[1]


def check_version():
    """Whether help, pages, changes and the extension have the version in VERSION, and what is of the
    C library that of its header."""
    if f" {version()}" not in ti("--help").split("\n", 1)[0]:
        yield f"the first line of help is {ti('--help').split(chr(10), 1)[0]!r}"
    for page in sorted(os.listdir(os.path.join(TOP, "man"))):
        if f".Os ti {version()}\n" not in text_of("man", page):
            yield f"{page} has no line .Os ti {version()}"
    newest = re.search(r"^## \[?(\d[\w.]*)", text_of("CHANGELOG.md"), re.M)
    if not newest or newest[1] != version():
        yield f"the newest version of CHANGELOG.md is {newest and newest[1]}"
    if not text_of("debian", "changelog").startswith(f"ti ({version()}-"):
        yield f"debian/changelog is not of {version()}"
    if f'"{version()}"' not in text_of("editors/vscode/package.json"):
        yield f'editors/vscode/package.json does not have "{version()}"'
    of_library = {
        "include/ti.pc.in": f"Version: {library_version()}\n", "python/pyproject.toml": f'version = "{library_version()}"\n',
        "python/ti/__init__.py": f'__version__ = "{library_version()}"\n', "CHANGELOG.md": f"libti {library_version()}",
        "docs/LIBRARY.md": f"/ti_terminfo-{library_version()}-py3-",
    }
    for path, line in of_library.items():
        if line not in text_of(path):
            yield f"{path} does not have {line!r}"
    yield from version_faults()


def version_faults():
    """Versions of packages, archives and revisions in pages that are not the one of VERSION."""
    naming = re.compile(r"packages/(?:[\w-]+_|ti-)(\d[\d.]*)-|\brev: v(\d[\d.]*)")
    for page in markdown_pages():
        for named in map("".join, naming.findall(text_of(page))):
            if named != version():
                yield f"{page} names version {named}"


def check_install():
    """Whether `make install` installs all of it, and `make uninstall` removes it again."""
    need("make")
    with tempfile.TemporaryDirectory(prefix="ti-package-") as directory:
        words = ["make", "-s", f"DESTDIR={directory}", "PREFIX=/usr"]
        said = output([*words, "install"], cwd=TOP)
        if said:
            yield f"make install says {said!r}"
        here = lambda *parts: os.path.join(directory, "usr", *parts)
        installed = files_below(directory)
        wanted = [f"usr/bin/{name}" for name in ("ti", "ti-everyday", *EVERYDAY_TOOLS)]
        wanted += [f"usr/share/bash-completion/completions/{name}" for name in ("ti", *EVERYDAY_TOOLS)]
        wanted += [f"usr/share/fish/vendor_completions.d/{name}.fish" for name in ("ti", *EVERYDAY_TOOLS)]
        wanted += ["usr/share/zsh/site-functions/_ti", "usr/share/man/man7/ti-report.7", "usr/share/man/man7/ti-hints.7"]
        wanted += [f"usr/share/man/man1/{page}" for page in INSTALLED_PAGES if page.endswith(".1")]
        wanted += [f"usr/share/{place}/syntax/terminfo.vim" for place in ("vim/vimfiles", "nvim/site")]
        wanted += ["usr/share/emacs/site-lisp/terminfo-mode.el"]
        wanted += ["usr/bin/ti-lsp"] if HAS_LSP else []
        wanted += ["usr/share/ti-lsp/ti-lsp.vsix"] if HAS_LSP else []
        editors = files_below(os.path.join(TOP, "editors"))
        wanted += [f"usr/share/doc/ti/examples/editors/{name}" for name in editors]
        wanted += [f"usr/share/doc/ti/examples/{name}" for name in os.listdir(os.path.join(TOP, "examples"))]
        for name in sorted(set(wanted) - set(installed)):
            yield f"make install puts no {name}"
        for name in EVERYDAY_TOOLS:
            if os.readlink(here("bin", name)) != "ti-everyday":
                yield f"{name} is no link to ti-everyday"
        env = {"PATH": here("bin") + ":/usr/bin:/bin", "TERMINFO": os.path.join(directory, "out")}
        script = "ti tic dumb.ti && ti-tic -o again dumb.ti && cmp $TERMINFO/d/dumb again/d/dumb &&"
        script += " ti-tput -T dumb cols && ti-infocmp dumb | head -n 1; ti-tput -T dumb bw; echo $?;"
        # a link of another name in another directory
        script += " ln -s usr/bin/ti-tput tput && ./tput -T dumb cols"
        shutil.copy(os.path.join(TOP, "examples", "dumb.ti"), directory)
        got = output(["sh", "-c", script], cwd=directory, env=env)
        if got != "80\ndumb|80-column dumb tty,\n1\n80\n":
            yield f"the installed program gives {got!r}"
        before = set(files_below(directory)) - set(installed)
        output([*words, "uninstall"], cwd=TOP)
        for name in sorted(set(files_below(directory)) - before):
            yield f"make uninstall leaves {name}"
    yield from readme_faults()


def dead_links(directory):
    """The links of the pages of Markdown below a directory that lead to nothing below it."""
    top = os.path.realpath(directory)
    for page in files_below(directory):
        if not page.endswith(".md"):
            continue
        at = os.path.join(top, os.path.dirname(page))
        for link in re.findall(r"\]\(([^)#:]+)(?:#[^)]*)?\)", text_of(directory, page)):
            target = os.path.normpath(os.path.join(at, link))
            if not target.startswith(f"{top}/") or not os.path.exists(target):
                yield f"{page}: the link {link} leads nowhere"


def check_links():
    """Whether README and docs are installed, and the links of installed pages lead to what is
    installed with them. Any program takes the place of ti: the pages do not depend on it."""
    need("make")
    with tempfile.TemporaryDirectory(prefix="ti-package-") as directory:
        words = ["PROGRAM=/bin/true", f"DESTDIR={directory}", "PREFIX="]
        said = output(["make", "-s", "docs"], cwd=TOP) + output(["make", "-s", "install", *words], cwd=TOP)
        if said:
            yield f"make install says {said!r}"
        doc = os.path.join(directory, "share", "doc", "ti")
        pages = [name for name in os.listdir(os.path.join(TOP, "docs")) if name.endswith(".md")]
        for name in ["README.md", "SECURITY.md", *(os.path.join("docs", page) for page in pages), *MADE]:
            if not os.path.exists(os.path.join(doc, name)):
                yield f"make install puts no {name}"
        yield from dead_links(doc)


def readme_faults():
    """What is wrong with what README's command for installing from source installs."""
    command = install_command("make install")
    with tempfile.TemporaryDirectory(prefix="ti-package-") as directory:
        said = output(["sh", "-c", command], cwd=TOP, env={**os.environ, "DESTDIR": directory})
        version = output([os.path.join(directory, "usr", "local", "bin", "ti"), "--help"]).split("\n")[0]
        if version != ti("--help").split("\n")[0]:
            yield f"{command}: installs a program that says {version!r}; make says {said[-300:]!r}"


def make(what, directory):
    """Makes packages or archives of the built program into a directory. Gives their names."""
    done = subprocess.run(
        [MAKER, what, directory], stdin=subprocess.DEVNULL, stdout=subprocess.PIPE,
        stderr=subprocess.STDOUT, text=True, check=False,
    )
    if done.returncode:
        raise OSError(f"{what}: {done.stdout}")
    return sorted(os.listdir(directory))


def made_twice(what, room):
    """Makes packages or archives twice. Gives one directory, its files, and what differs."""
    first, second = os.path.join(room, "first"), os.path.join(room, "second")
    names = make(what, first)
    if make(what, second) != names:
        return first, names, [f"{what}: other files the second time"]
    differ = filecmp.cmpfiles(first, second, names, shallow=False)
    return first, names, [f"{name} is not the same the second time" for name in [*differ[1], *differ[2]]]


def program_faults(what, directory, path):
    """What is wrong with the program of an unpacked package or archive, run by a user's script."""
    room = os.path.join(directory, "room")
    os.mkdir(room)
    shutil.copy(os.path.join(TOP, "examples", "dumb.ti"), room)
    got = output(["sh", "-c", SCRIPT], cwd=room, env={"PATH": f"{path}:/usr/bin:/bin"})
    if got != PRINTED:
        yield f"the program of {what} prints {got!r}"


def library_faults(shared, unpacked):
    """What is wrong with the unpacked C library: its files, and programs that take it, the shared
    one and the static one."""
    names = [f"/{name}" for name in files_below(unpacked)]
    for wanted in OF_LIBRARY:
        if not any(name.endswith(wanted) for name in names):
            yield f"libti-dev has no {wanted}"
            return
    need("cc")
    source = os.path.join(unpacked, "program.c")
    with open(source, "w", encoding="utf-8") as file:
        file.write(SOURCE)
    headers = os.path.join(unpacked, "usr", "include")
    libraries = {"libti-dev": unpacked, "libti2": shared}
    for package, ending in (("libti-dev", "/libti.a"), ("libti2", "/libti.so.2")):
        place = libraries[package]
        library = next(os.path.join(place, name) for name in files_below(place) if name.endswith(ending))
        program = os.path.join(unpacked, f"program-of-{package}")
        output(["cc", "-std=c99", "-I", headers, source, library, "-o", program])
        got = output([program], env={"LD_LIBRARY_PATH": os.path.dirname(library)})
        if got != f"{library_version()} 1 10\n":
            yield f"a program that takes {package} prints {got!r}"


def python_faults(what, place, library):
    """What is wrong with the module for Python in a directory, over a shared library."""
    need("python3")
    script = "import ti; print(ti.Entry.find('xterm')['cup'](4, 9)); print(ti.__file__)"
    env = {"PYTHONPATH": place, "PYTHONDONTWRITEBYTECODE": "1", "LD_LIBRARY_PATH": library, "PATH": "/usr/bin:/bin"}
    got = output(["python3", "-c", script], env=env)
    if got != f"b'\\x1b[5;10H'\n{place}/ti/__init__.py\n":
        yield f"the module of {what} prints {got!r}"


def wheel_faults(path, room):
    """What is wrong with the wheel: files that differ from those of its list, or a module that does
    not run."""
    with zipfile.ZipFile(path) as packed:
        files = {name: packed.read(name) for name in packed.namelist()}
    record = next(name for name in files if name.endswith("/RECORD"))
    for line in files[record].decode().splitlines():
        name, said, size = line.split(",")
        digest = base64.urlsafe_b64encode(hashlib.sha256(files[name]).digest()).rstrip(b"=").decode()
        if name != record and (said, size) != (f"sha256={digest}", str(len(files[name]))):
            yield f"the wheel's {name} is not as its list says"
    if not any(f"\nVersion: {library_version()}\n" in text.decode() for name, text in files.items() if name.endswith("/METADATA")):
        yield f"the wheel is not of {library_version()}"
    if subprocess.run(["python3", "-m", "pip", "--version"], stdout=subprocess.DEVNULL, check=False).returncode == 0:
        output(["python3", "-m", "pip", "install", "-q", "--no-index", "--no-deps", "--target", room, path])
    else:
        output(["python3", "-m", "zipfile", "-e", path, room])
    # the module takes the library that is next to it
    yield from python_faults("the wheel", room, "/no-such")


def tinfo_faults(made, names, unpacked):
    """What is wrong with ti-run of the unpacked packages: which libraries it has a program take."""
    for name in names:
        if name.startswith(("libti-tinfo_", "libti2_")):
            output(["dpkg-deb", "-x", os.path.join(made, name), unpacked])
    got = output([os.path.join(unpacked, "usr", "bin", "ti-run"), "bash", "-c", "cat /proc/$$/maps; true"])
    for library in ("ti/libtinfo.so.6", "libti.so.2"):
        if not re.search(rf" {re.escape(unpacked)}/\S*/{library}\n", got):
            yield f"bash by ti-run has loaded {got!r}"


def check_deb():
    """Whether the Debian packages are the same each time, run unpacked, and please lintian."""
    need("dh")
    need("git")
    if not HAS_LIBRARY or not HAS_LSP or not HAS_TINFO:
        raise Skipped("not all is made: make lsp tinfo")
    with tempfile.TemporaryDirectory(prefix="ti-package-") as room:
        made, names, faults = made_twice("deb", room)
        yield from faults
        for name in names:
            unpacked = os.path.join(room, name.split("_")[0])
            output(["dpkg-deb", "-x", os.path.join(made, name), unpacked])
            if name.startswith("ti"):
                output(["dpkg-deb", "-x", os.path.join(made, name), os.path.join(room, "all")])
            if name.startswith("ti_"):
                yield from faults_of_ti(os.path.join(made, name), unpacked)
            for page in MADE:
                is_there = os.path.exists(os.path.join(unpacked, "usr", "share", "doc", "ti", page))
                if is_there != name.startswith("ti-doc_"):
                    yield f"{name} has {'a' if is_there else 'no'} page {page}"
        # ti, ti-lsp and ti-doc together: a script of all programs, and links between their pages
        yield from program_faults("the packages", os.path.join(room, "all"), os.path.join(room, "all", "usr", "bin"))
        yield from dead_links(os.path.join(room, "all", "usr", "share", "doc", "ti"))
        need("lintian")
        for name in names:
            words = ["lintian", "--allow-root", "--no-tag-display-limit", os.path.join(made, name)]
            for line in output(words).split("\n"):
                if re.match("[EW]: ", line):
                    yield line
        if sorted(name.split("_")[0] for name in names) != PACKAGES:
            yield f"the packages are {names}"
            return
        yield from library_faults(os.path.join(room, "libti2"), os.path.join(room, "libti-dev"))
        yield from tinfo_faults(made, names, os.path.join(room, "with-tinfo"))
        modules = os.path.join(room, "python3-ti", "usr", "lib", "python3", "dist-packages")
        libraries = os.path.join(room, "libti2", "usr", "lib")
        shared = next(name for name in files_below(libraries) if name.endswith("libti.so.2"))
        yield from python_faults("python3-ti", modules, os.path.dirname(os.path.join(libraries, shared)))


def faults_of_ti(package, unpacked):
    """What is wrong with the pages and the size of the package ti."""
    pages = [name for name in files_below(unpacked) if "/man/man" in name]
    if len(pages) != len(PAGES_OF_TI):
        yield f"ti has the pages {pages}"
    size = int(output(["dpkg-deb", "-f", package, "Installed-Size"]))
    if size > KILOBYTES_OF_TI:
        yield f"ti takes {size} KB installed, over {KILOBYTES_OF_TI}"


def extension_faults(path, room):
    """What is wrong with the extension of Visual Studio Code: files that are named and not there, of
    no type, or a server that does not run."""
    with zipfile.ZipFile(path) as packed:
        names = packed.namelist()
        types, manifest = (packed.read(name).decode() for name in ("[Content_Types].xml", "extension.vsixmanifest"))
        about = json.loads(packed.read("extension/package.json"))
    language, = about["contributes"]["languages"]
    paths = [about["main"], language["configuration"], *(part["path"] for part in about["contributes"]["grammars"])]
    wanted = [os.path.normpath(os.path.join("extension", part)) for part in paths]
    wanted += re.findall(r'Path="([^"]*)"', manifest)
    yield from (f"the extension has no {name}" for name in sorted(set(wanted) - set(names)))
    for name in names:
        ending = name.rpartition(".")[2]
        if f'Extension=".{ending}"' not in types and f'PartName="/{name}"' not in types:
            yield f"the extension says of no type of {name}"
    output(["python3", "-m", "zipfile", "-e", path, room])
    for name in (name for name in names if name.endswith(".js") and shutil.which("node")):
        said = output(["node", "--check", os.path.join(room, name)])
        if said:
            yield f"{name}: {said}"
    server = os.path.join(room, "extension", "bin", "ti-lsp")
    os.chmod(server, 0o755)
    if output([server, "--version"]) != f"ti-lsp {version()}\n":
        yield "the server of the extension does not run"


def check_release():
    """Whether the archives are the same each time, and have README and docs; install.sh installs and
    removes a program that runs; the extension of Visual Studio Code has what it names; the wheel's
    module runs."""
    need("git")
    with tempfile.TemporaryDirectory(prefix="ti-package-") as room:
        made, names, faults = made_twice("release", room)
        yield from faults
        said = output(["sha256sum", "-c", "SHA256SUMS"], cwd=made)
        if said.count(": OK\n") != len(names) - 1:
            yield f"SHA256SUMS: {said!r}"
        archive = next(name for name in names if name.endswith("-linux.tar.gz"))
        os.rename(made, os.path.join(room, "packages"))
        env = {"PATH": "/usr/bin:/bin", "DESTDIR": os.path.join(room, "stage"), "PREFIX": "/opt/ti"}
        command = install_command("install.sh")
        said = output(["sh", "-c", command], cwd=room, env=env)
        if said:
            yield f"{command}: {said!r}"
        tree = os.path.join(room, archive.removesuffix(".tar.gz"))
        if not os.path.exists(os.path.join(tree, "README.md")):
            yield f"{archive} has no README.md"
        yield from dead_links(tree)
        script = os.path.join(tree, "install.sh")
        installed = os.path.join(room, "stage", "opt", "ti")
        yield from program_faults(archive, room, os.path.join(installed, "bin"))
        for path in files_below(installed):
            if path.endswith(".pc") and "/usr" in text_of(installed, path):
                yield f"{path} names a directory in which the library is not"
        output([script, "uninstall"], env=env)
        if files_below(os.path.join(room, "stage")):
            yield f"install.sh uninstall leaves {files_below(os.path.join(room, 'stage'))[:5]}"
        for name in (name for name in names if name.endswith(".vsix")):
            yield from extension_faults(os.path.join(room, "packages", name), os.path.join(room, "extension"))
        wheels = [name for name in names if name.endswith(".whl")]
        if len(wheels) != HAS_LIBRARY:
            yield f"there are the wheels {wheels}, and the library is {'' if HAS_LIBRARY else 'not '}built"
        for wheel in wheels:
            yield from wheel_faults(os.path.join(room, "packages", wheel), os.path.join(room, "wheel"))
