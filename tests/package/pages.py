"""The manual pages, the pages of Markdown, and the commands that README shows."""

import os
import re
import subprocess
import sys
import tempfile

from shared import PAGES_OF_ALL, TOP, bytes_of, commands_of, files_below, need, output, text_of

SECTIONS = [
    "NAME", "SYNOPSIS", "DESCRIPTION", "ENVIRONMENT", "FILES", "EXIT STATUS", "EXAMPLES", "COMPATIBILITY",
    "SEE ALSO", "HISTORY", "AUTHORS", "BUGS",
]
# what pages about no command do not have
OF_COMMANDS = ("SYNOPSIS", "ENVIRONMENT", "FILES", "EXIT STATUS")
WIDTH = 100
# words for which the pages have plainer ones: after, next to or compared with, directory, fix, is,
# out of memory, CPU time
AVOIDED = re.compile(
    r"\b(behind|besides?|folders?|mend(?:s|ed)?|stands?|want of memory|processor time|by the clock)\b", re.I
)
# lines of Markdown that may be longer: rows of tables, and what a tool reports of a source
FREE = re.compile(r"\||\S+:\d+:\d+: (error|warning|note): ")
# turns of phrase that pages say more plainly, over lines: "is no number" for "is not a number", "tells"
# and "is answered" of programs, "so is the other"
IDIOMS = re.compile(
    r"(?<!there\s)\b(?:is|are|was|were) no (?!longer\b|more\b|less\b)\w+|\b(?:tells|told|telling)\b"
    r"|\b(?:is|are|was|were|be|been) answered\b|\banswers (?:an?|the|it|each|every|by)\b|\bby means of\b"
    r"|\b(?:gives?|gave|given|giving) back\b|\bthe one\b[^.,;:|]{1,60}\bthe other\b(?!\s+\w)"
    r"|\bso (?:is|are|does|do|has|have) (?:an?|the|what|its|it|each|every|one|they)\b"
    r"|\b(?:that|which|it|they) (?:is|are) none\b|\b(?:is|are|be) had\b|\b(?:says?|said) of\b|\bof what\b"
    r"|\btak(?:es?|en|ing) the place of\b|\btaken (?:for|as)\b|\bpassed over\b|\bcut down\b|\bsaid again\b"
    r"|\btook no more\b|\bgoes on on\b|\bstays as it is\b|\bwhoever\b".replace(" ", r"\s+"),
    re.I,
)
# what every tool calls an error or a warning, but for the messages of ours, and the words of the promise
FAULT = re.compile(r"(?<!read )(?<!write )\bfault(?:s|y)?\b(?! report)", re.I)
# pages that `make docs` makes: no link of the repository leads to them
MADE = {"CONTRACTS.md", "DEFINITIONS.md"}
# what is read for these, apart from pages
PLAIN = (
    "debian/control", "debian/ti.README.Debian", "editors/vscode/README.md", "editors/vscode/package.json",
    "include/ti.h", "include/ti.hpp", "include/ti_names.h", "include/ti.c", "python/ti/__init__.py",
)
# files with comments, and how a line of a comment alone begins
COMMENTED = (".bash", ".c", ".fish", ".h", ".py", ".sh", ".ti", ".lua", ".vim", ".el", ".js", "Makefile", "_ti", "/run")
# what is spelled, apart from pages at the top and doc comments; and the words that are right here
SPELLED = (
    "bench", "build", "completions", "debian", "docs", "editors", "examples", "include", "man", "python", "tests",
    "tinfo",
)
WORDS = os.path.join(os.path.dirname(os.path.abspath(__file__)), "words.txt")
COMMENT = re.compile(r"\s*(#|/\*|\*|//|--|;;|\"(?!\")) ")
# whether ncurses's own pages are installed here is no fault of ours
FOREIGN = re.compile(r"mandoc\.db|referenced manual not found: Xr (tic|infocmp|tput|clear|toe|tabs|tset|reset|stty|errno|termios|term|terminfo|user_caps) \d")
# W5 is of user-defined capabilities
CODES = [f"E{digit}" for digit in range(1, 10)] + [f"W{digit}" for digit in range(1, 6)]


def check_pages():
    codes = re.findall(r"^\.Ss ([EW]\d) (\w+)$", text_of("man", "ti-report.7"), re.M)
    if [code for code, _ in codes] != CODES:
        yield f"ti-report.7 has the codes {codes}"
    for name in PAGES_OF_ALL:
        lacking = [section for section in SECTIONS if f".Sh {section}\n" not in text_of("man", name)]
        if name.endswith(".7"):
            lacking = [section for section in lacking if section not in OF_COMMANDS]
        if lacking:
            yield f"{name}: no section {', '.join(lacking)}"
    every = sorted(os.listdir(os.path.join(TOP, "man")))
    for name in every:
        yield from (f"{name}: the word {word}" for word in AVOIDED.findall(text_of("man", name)))
        yield from idiom_faults(f"man/{name}")
    need("mandoc")
    for name in every:
        # without the conventions of BSD's base systems, in which .Os names nothing
        said = output(["mandoc", "-T", "lint", "-W", "style", name], cwd=os.path.join(TOP, "man"))
        for line in said.split("\n"):
            if line and not FOREIGN.search(line):
                yield line


def markdown_pages():
    """The pages of Markdown, by their paths in the repository."""
    found = [name for name in os.listdir(TOP) if name.endswith(".md")]
    for directory in ("docs", "examples"):
        names = os.listdir(os.path.join(TOP, directory))
        found += [os.path.join(directory, name) for name in names if name.endswith(".md")]
    return sorted(found)


def link_faults(page):
    """Links of a page that lead nowhere, and pages that it names and has no link to."""
    text = text_of(page)
    links = re.findall(r"\]\(([^)#:]+)\)", text)
    for link in links:
        if not os.path.exists(os.path.join(TOP, os.path.dirname(page), link)):
            yield f"{page}: the link {link} leads nowhere"
    named = set(re.findall(r"\b[A-Z]+\.md\b", text))
    named |= {f"{name}.{section}" for name, section in re.findall(r"\b(ti(?:-\w+)?)\((\d)\)", text)}
    for name in sorted(named - MADE - {os.path.basename(link) for link in [*links, page]}):
        yield f"{page} names {name} and has no link to it"


def line_faults(path, is_free):
    """Lines of a file that are too long, unless they are free, and words that are avoided."""
    for number, line in enumerate(text_of(path).split("\n"), 1):
        if len(line) > WIDTH and not is_free(line):
            yield f"{path}:{number}: {len(line)} columns"
        yield from (f"{path}:{number}: the word {word}" for word in AVOIDED.findall(line))


def idiom_faults(path):
    """Turns of phrase of a file that pages say more plainly, but for what is code."""
    text = text_of(path)
    if path.endswith(".md"):
        text = re.sub(r"^```.*?^```|`[^`]*`", lambda code: "\n" * code[0].count("\n"), text, flags=re.M | re.S)
    for words in (IDIOMS, FAULT):
        for found in words.finditer(text):
            yield f"{path}:{text.count(chr(10), 0, found.start()) + 1}: the words {' '.join(found[0].split())}"


def check_markdown():
    """Whether pages have the links that they need, which lead to files; lines keep to the width,
    but for rows of tables and reports; words are plain; the pictures are drawn from what they show."""
    for page in markdown_pages():
        yield from link_faults(page)
        yield from line_faults(page, FREE.match)
        yield from idiom_faults(page)
    for path in PLAIN:
        yield from idiom_faults(path)
    for script in ("build/crates_picture.py", "bench/picture.py"):
        said = output([sys.executable, os.path.join(TOP, script), "--check"])
        if said:
            yield said.strip()


def check_scripts():
    """Whether comments of scripts, of the header and of examples keep to the width, in plain words."""
    found = ["Makefile"]
    for directory in ("build", "bench", "completions", "docs", "editors", "examples", "include", "tests", "tinfo"):
        found += [os.path.join(directory, name) for name in files_below(os.path.join(TOP, directory))]
    for path in found:
        # this file has the words that are avoided; cases have data
        if path.endswith(COMMENTED) and "/cases/" not in path and not path.endswith("pages.py"):
            yield from line_faults(path, lambda line: not COMMENT.match(line))


def doc_comments(path):
    """A file of Rattle with each line empty that is not of a doc comment, so that lines keep their
    numbers."""
    return "\n".join(line if re.match(r"\s*//[/!]", line) else "" for line in text_of(path).split("\n"))


def check_spelling():
    """Whether codespell knows the words of pages, scripts, headers and examples, and of the doc
    comments of the crates, or they are in tests/package/words.txt."""
    need("codespell")
    with tempfile.TemporaryDirectory(prefix="ti-package-") as room:
        for directory in SPELLED:
            for name in files_below(os.path.join(TOP, directory)):
                path = os.path.join(directory, name)
                if not name.endswith((".svg", ".pyc")) and "/cases/" not in path:
                    put(os.path.join(room, path), bytes_of(os.path.join(TOP, path)))
        for name in os.listdir(TOP):
            if name.endswith(".md") or name == "Makefile":
                put(os.path.join(room, name), bytes_of(os.path.join(TOP, name)))
        for crate in os.listdir(os.path.join(TOP, "crates")):
            source = os.path.join("crates", crate, "src")
            for name in files_below(os.path.join(TOP, source)):
                put(os.path.join(room, source, name), doc_comments(os.path.join(source, name)).encode())
        said = subprocess.run(
            ["codespell", "--ignore-words", WORDS, "."], cwd=room, stdout=subprocess.PIPE,
            stderr=subprocess.STDOUT, text=True, timeout=100, check=False,
        )
    if said.returncode or said.stdout:
        yield from said.stdout.replace("./", "").split("\n")[:-1] or [f"codespell: status {said.returncode}"]


def put(path, content):
    """Writes a file, and makes the directories above it."""
    os.makedirs(os.path.dirname(path), exist_ok=True)
    with open(path, "wb") as file:
        file.write(content)


def check_tables():
    """Whether the lists of capabilities are those that follow from build/capabilities.tsv."""
    said = output([sys.executable, os.path.join(TOP, "build", "capabilities.py"), "--check"])
    if said:
        yield said.strip()


def check_readme():
    """Whether README's first command, on the built program, writes what is said after it; the
    second is what CI runs."""
    first, second = commands_of("README.md", "## Build and test")
    name, size = re.search(r"writes (\S+), (\d+) bytes", text_of("README.md")).groups()
    with tempfile.TemporaryDirectory(prefix="ti-package-") as directory:
        for part in ("ti", "examples"):
            os.symlink(os.path.join(TOP, part), os.path.join(directory, part))
        printed = output(["sh", "-c", first], cwd=directory)
        if printed:
            yield f"{first}: printed {printed!r}"
        made = files_below(os.path.join(directory, "out"))
        if made != [os.path.relpath(name, "out")]:
            yield f"{first}: made {made}"
        elif os.path.getsize(os.path.join(directory, name)) != int(size):
            yield f"{first}: {name} has {os.path.getsize(os.path.join(directory, name))} bytes"
    if second != "make test" or "exec make -s test" not in text_of(".ci", "run").split("\n"):
        yield f"{second} is not what .ci/run runs"
