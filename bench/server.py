"""How much CPU time the language server takes to open a source, for a key in the middle of it, and to
answer questions about a place there, compared with the time in which ncurses's `tic -c` reads the
whole source.
"""

import json
import os
import shutil
import subprocess

from repository import program_of

SERVER = program_of("ti_lsp")
RUNS = 5
KEYS = 40
ASKED = 20
# what is timed: the method, and what is before the place that it is about, in a line in the middle
QUESTIONS = {
    "complete a capability": ("completion", "\t"),
    "complete a name": ("completion", "use="),
    "definition": ("definition", "use="),
    "references": ("references", "use="),
    "outline": ("documentSymbol", ""),
    "hover on a capability": ("hover", "\t"),
    "hover on a name": ("hover", "use="),
    "rename a name": ("rename", "use="),
    "fixes of an item": ("codeAction", "use="),
}
SECONDS = 600


def framed(method, params, **more):
    body = json.dumps({"jsonrpc": "2.0", "method": method, "params": params, **more}).encode()
    return b"Content-Length: %d\r\n\r\n" % len(body) + body


def opened(text):
    """The messages of an editor that opens a text."""
    document = {"uri": "file:///bench.ti", "languageId": "terminfo", "version": 0, "text": text}
    return framed("initialize", {}, id=0) + framed("textDocument/didOpen", {"textDocument": document})


def keys(text, count):
    """The messages of `count` keys, each in a line in the middle of the text. The request after a key
    has its diagnostics published, since those of changes that wait are published together."""
    lines = text.split("\n")
    line = next(at for at in range(len(lines) // 2, len(lines)) if lines[at].startswith("\t"))
    messages = b""
    for version in range(1, count + 1):
        place = {"line": line, "character": 1}
        change = {"range": {"start": place, "end": place}, "text": "x"}
        document = {"uri": "file:///bench.ti", "version": version}
        messages += framed("textDocument/didChange", {"textDocument": document, "contentChanges": [change]})
        messages += framed("unknown", {}, id=version)
    return messages


def questions(text, count, method, before):
    """The messages of `count` equal questions about a line in the middle of the text that has a use."""
    lines = text.split("\n")
    line = next(at for at in range(len(lines) // 2, len(lines)) if "use=" in lines[at])
    place = {"line": line, "character": lines[line].index(before) + len(before)}
    params = {
        "textDocument": {"uri": "file:///bench.ti"}, "position": place, "context": {"includeDeclaration": True},
        "newName": "new-name", "range": {"start": place, "end": place},
    }
    return b"".join(framed(f"textDocument/{method}", params, id=number) for number in range(count))


def cpu_time(words, path):
    """The least CPU time of several runs, in milliseconds, with a file on standard input."""
    least = None
    for _ in range(RUNS):
        with open(path, "rb") as given:
            run = subprocess.Popen(words, stdin=given, stdout=subprocess.DEVNULL, stderr=subprocess.DEVNULL)
            _, _, used = os.wait4(run.pid, 0)
            run.returncode = 0
        took = (used.ru_utime + used.ru_stime) * 1000
        least = took if least is None else min(least, took)
    return least


def measured(room, what, source):
    """A row: what was opened; milliseconds of CPU time for opening, a key, and `tic -c`."""
    text = source.decode("utf-8", "replace")
    nothing, whole = room.write("nothing", b""), room.write("opened", opened(text))
    edited = room.write("edited", opened(text) + keys(text, KEYS))
    start, opening, editing = (cpu_time([SERVER], path) for path in (nothing, whole, edited))
    checked = "-"
    if shutil.which("tic"):
        checked = f"{cpu_time(['tic', '-c', room.write('source.ti', source)], nothing):.0f}"
    return f"| {what}, {len(source):,} bytes | {opening - start:.1f} | {(editing - opening) / KEYS:.2f} | {checked} |"


def answered(room, what, source):
    """Rows: what was opened; what is asked of it, and the milliseconds of CPU time for an answer."""
    text = source.decode("utf-8")
    opening, rows = cpu_time([SERVER], room.write("opened", opened(text))), []
    for name, question in QUESTIONS.items():
        asking = cpu_time([SERVER], room.write("asked", opened(text) + questions(text, ASKED, *question)))
        rows.append(f"| {what}, {len(source):,} bytes | {name} | {(asking - opening) / ASKED:.2f} |")
    return rows
