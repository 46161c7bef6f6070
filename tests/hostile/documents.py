"""Documents edited at random, and messages in any order: what the language server sends must be
what the model says, and its diagnostics those that `ti tic -c` reports of the same text.
"""

import copy
import itertools
import random
import re
import subprocess
import tempfile

from generate import Source
from limits import LSP, SECONDS_MAX, quick
from lsp import body_of, framed, frames_in, notification
from model.server import QUESTIONS, Server, agree, seen

EDITS_A_RUN = 20
# how many bytes the server asks for at a time
PIECE = 65_536
LETTERS = [
    "é", "\u20ac", "\U0001d11e", "\U0001f600", "a", "\r", "\r\n", "\n", "\t", "", "x,", "use=a,", "\u2028", "\x85",
    "colr#8,", "kf64=x,", "amm,", "Cols@,", "use=aa,", "cols=80,", "bel#^G,", "am=,", "bel=a\\q\\072,", "li\n\tne#2,",
]
URIS = ["file:///a.ti", "file:///b%20c.ti", "u\U0001d11e"]
METHODS = [
    "initialize", "shutdown", "exit", "initialized", "textDocument/rename", "$/cancelRequest", "textDocument/didOpen",
    "textDocument/didChange", "textDocument/didClose", "textDocument/didSave", "", "textDocument/didOpen\0", "Initialize",
]
# of code actions, which are asked for
KINDS = [
    ["quickfix"], [""], [], ["refactor"], ["source", "quickfix"], ["quickfix.a"], ["Quickfix"], "quickfix", None, [1, None],
]
# some of which no entry can have
NEW_NAMES = [
    "new", "new", "a", "vt-1+2", "#a", "a#", "a\\", "a\\\\", "a^", "^\\", "%^\\", "a b", "a ", "a,b", "a|b", "a/b", "", ".", "..",
    "...", "use=a", "a\n", "\ta", "é", "x" * 130,
]
ODD_VALUES = [
    None, True, 0, -1, 2**31 - 1, 2**31, 2**32, 2**63, 2**64 - 1, 1.5, "", "file:///a.ti", "am", [], [1], {},
    {"uri": "file:///a.ti"},
]
ODD_BODIES = [
    b"", b" ", b"{", b"nul", b"[]", b"1", b'"\\ud800"', b'{"id":1,"method":"\\udc00\\ud834"}', b"\xff", b"{}{}",
    b"[" * 128 + b"]" * 128, b"[" * 127 + b"]" * 127, b"NaN", b'{"a":1,}', b"\xef\xbb\xbf{}", b'{"id":"\\ud834\\udd1e"}',
    b'"\x00"', b"[1", b"{}", b"tru", b"01", b"-",
]


# the model is of the profile, and of errors and warnings alone
PROFILE = {"ti": {"userDefined": False, "hints": False}}
INITIALIZE = {"jsonrpc": "2.0", "id": 0, "method": "initialize", "params": {"capabilities": {}, "initializationOptions": PROFILE}}
# of a client that takes symbols as a hierarchy
NESTED = {"documentSymbol": {"hierarchicalDocumentSymbolSupport": True}}
NESTING = {**INITIALIZE, "params": {"capabilities": {"textDocument": NESTED}, "initializationOptions": PROFILE}}


class Editor:
    """Makes the messages of an editor, with random numbers from a seed."""

    def __init__(self, seed):
        self.random, self.source = random.Random(seed), Source(seed)
        self.texts, self.version, self.number = {}, 0, 0

    def one(self, choices):
        return copy.deepcopy(self.random.choice(choices))

    def text(self):
        """A source, with its bytes over 127 as letters of Latin-1, and other letters in it."""
        text = self.source.source().decode("latin-1")
        for _ in range(self.one([0, 0, 1, 3])):
            at = self.random.randint(0, len(text))
            text = text[:at] + self.one(LETTERS) + text[at:]
        return text.replace("\n", "\r\n") if self.random.random() < 0.1 else text

    def piece(self):
        """A text for a part of a document."""
        return self.one([lambda: "", lambda: self.one(LETTERS), lambda: self.source.block().decode("latin-1"),
                         lambda: self.source.item().decode("latin-1") + ",", self.text])()

    def place(self, text):
        """A place in a text, or past an end."""
        lines = text.split("\n")
        line = self.random.randrange(len(lines))
        column = self.random.randint(0, len(lines[line]) + 1)
        if self.random.random() < 0.05:
            line, column = self.one([line, len(lines), 2**31 - 1]), self.one([column, 2**31 - 1, 0])
        return {"line": line, "character": column}

    def place_in_use(self, text):
        """A place after a `use=` of a text, or any other."""
        ends = [found.end() for found in re.finditer("use=", text)]
        if not ends:
            return self.place(text)
        front = text[: self.one(ends) + self.one([0, 0, 1, 2])]
        return {"line": front.count("\n"), "character": len(front.rpartition("\n")[2])}

    def change(self, text):
        if self.random.random() < 0.1:
            return {"text": self.text()}
        start = self.place(text)
        near = {
            "line": start["line"] + self.one([0, 0, 0, 1, 2]),
            "character": start["character"] + self.one([0, 0, 1, 2, 5]),
        }
        end = near if self.random.random() < 0.7 else self.place(text)
        return {"range": {"start": start, "end": end}, "rangeLength": self.one([0, 1, 99]), "text": self.piece()}

    def edit(self):
        """A message that opens, changes or closes a document."""
        uri = self.one(URIS)
        self.version += self.one([1, 1, 1, 0, 7])
        document = {"uri": uri, "version": self.version}
        kind = self.random.random()
        if uri not in self.texts or kind < 0.05:
            self.texts[uri] = self.text()
            document |= {"languageId": "terminfo", "text": self.texts[uri]}
            return notification("textDocument/didOpen", {"textDocument": document})
        if kind < 0.1:
            self.texts.pop(uri)
            return notification("textDocument/didClose", {"textDocument": {"uri": uri}})
        changes = [self.change(self.texts[uri]) for _ in range(self.one([1, 1, 1, 2, 3, 0]))]
        return notification("textDocument/didChange", {"textDocument": document, "contentChanges": changes})

    def question(self):
        """A request about a document that is open, or about another."""
        uri, method = self.one(URIS), self.one([*QUESTIONS, "workspace/symbol"])
        self.number += 1
        if method == "workspace/symbol":
            params = {"query": self.one(["", "A", "b", "x-", "\u00e9", *NEW_NAMES])}
            return {"jsonrpc": "2.0", "id": self.number, "method": method, "params": params}
        place = self.place if self.random.random() < 0.7 else self.place_in_use
        params = {"textDocument": {"uri": uri}, "position": place(self.texts.get(uri, "a,b"))}
        if method == "textDocument/references":
            params["context"] = {"includeDeclaration": self.one([True, False])}
        if method == "textDocument/rangeFormatting":
            params["range"] = self.part(params.pop("position"))
        if method == "textDocument/codeAction":
            params |= {"range": self.part(params.pop("position")), "context": {"diagnostics": []}}
            if self.random.random() < 0.3:
                params["context"]["only"] = self.one(KINDS)
        if method == "textDocument/rename":
            names = re.findall(r"[^\s,|=]+", self.texts.get(uri, "")) + NEW_NAMES
            params["newName"] = self.one(names if self.random.random() < 0.5 else NEW_NAMES)
        return {"jsonrpc": "2.0", "id": self.number, "method": method, "params": params}

    def part(self, start):
        """A range from a place on, often over some lines, at times to a place before it."""
        end = {"line": start["line"] + self.one([0, 0, 1, 5, 2**30]), "character": self.one([0, 3, 9, 2**31 - 1])}
        return self.one([{"start": start, "end": start}, {"start": start, "end": end}, {"start": end, "end": start},
                         {"start": {**start, "character": 0}, "end": {**start, "character": 2**31 - 1}}])

    def oddity(self):
        """A body of no sense, or a message with parts that are not what they should be."""
        if self.random.random() < 0.3:
            return self.one(ODD_BODIES)
        message = {"method": self.one(METHODS), "params": self.one(ODD_VALUES)}
        if self.random.random() < 0.5:
            message = self.one([self.edit, self.question])()
        if self.random.random() < 0.6:
            message["id"] = self.one(ODD_VALUES)
        for _ in range(self.one([0, 1, 2])):
            self.damage(message)
        if message.get("method") == "initialize":
            params = message.get("params")
            message["params"] = {**(params if isinstance(params, dict) else {}), "initializationOptions": PROFILE}
        return body_of(message)

    def damage(self, value):
        """Exchanges or takes out a part of a value at any depth."""
        while value:
            keys = list(value) if isinstance(value, dict) else list(range(len(value)))
            key = self.one(keys)
            if isinstance(value[key], (dict, list)) and value[key] and self.random.random() < 0.7:
                value = value[key]
            elif self.random.random() < 0.3:
                del value[key]
                return
            else:
                value[key] = self.one(ODD_VALUES)
                return


def waits_after(bodies):
    """Of each body whether a whole frame waits after it, if the input is a file: a read brings 65,536
    bytes of it, or the rest."""
    ends = list(itertools.accumulate(len(framed(body)) for body in bodies))
    read = [-(-end // PIECE) * PIECE for end in ends]
    return [following <= come for come, following in zip(read, ends[1:])] + [False]


def wanted_of(bodies):
    """What the model sends for bodies, with what it then shows of each text, and the status."""
    server, answers, shown = Server(), [], []
    for body, waits in zip(bodies, waits_after(bodies)):
        for answer in server.answer(body, waits):
            answers.append(answer)
            text = server.texts.get(answer.get("uri")) if answer.get("shown") is not None else None
            if text is not None:
                shown.append((len(answers) - 1, text))
        if server.status is not None:
            return answers, shown, server.status
    return answers, shown, 1


def served(bodies):
    """A run of the server with the frames of bodies in a file: its status, what it wrote, and its errors."""
    with tempfile.TemporaryFile() as given:
        given.write(b"".join(map(framed, bodies)))
        given.seek(0)
        done = subprocess.run(
            [LSP], stdin=given, env={}, stdout=subprocess.PIPE, stderr=subprocess.PIPE, timeout=SECONDS_MAX, check=False,
        )
    return done.returncode, done.stdout, done.stderr


def run_fault(bodies):
    """What is wrong with what the server sends for bodies."""
    wanted, shown, status = wanted_of(bodies)
    code, out, err = served(bodies)
    got = [seen(answer) for answer in frames_in(out)]
    for at, (one, other) in enumerate(zip(got, wanted)):
        if not agree(one, other):
            return f"answer {at} is {str(one)[:300]}, wanted {str(other)[:300]}"
    if (len(got), code, err) != (len(wanted), status, b""):
        return f"{len(got)} answers, status {code}, errors {err[:80]!r}, wanted {len(wanted)} and {status}"
    for at, text in shown:
        fault = report_fault(got[at]["shown"], text)
        if fault is not None:
            return f"answer {at}: {fault}"
    return None


def report_fault(shown, text):
    """What is wrong with diagnostics, compared with the report of `ti tic -c` of the text."""
    _, out, err = quick(["tic", "-c"], text.encode("utf-8"))
    if err.startswith(b"tic: "):
        refused = [fault[4] in ("BlockTooLong", "TooManyBlocks") for fault in shown]
        return None if refused == [True] else f"{shown}, but {err!r}"
    lines = "".join(f"{fault[0] + 1}: {fault[4]} {fault[5].split(': ')[0]}\n" for fault in shown).encode()
    return None if (out, err) == (b"", lines) else f"shown are {lines[:200]!r}, but tic reports {err[:200]!r}"


def edited(seed):
    """A run of an editor with some documents."""
    editor = Editor(seed)
    bodies = [body_of(editor.one([INITIALIZE, NESTING]))]
    for _ in range(EDITS_A_RUN):
        bodies += [body_of(editor.edit())] + [body_of(editor.question()) for _ in range(editor.one([0, 1, 2]))]
    return run_fault(bodies)


def disordered(seed):
    """A run of messages in any order, many of them of no sense."""
    editor = Editor(seed)
    bodies = [body_of(editor.one([INITIALIZE, NESTING]))] if editor.random.random() < 0.8 else []
    for _ in range(editor.one([3, 10, 20])):
        odd = editor.random.random()
        if odd < 0.5:
            bodies.append(editor.oddity())
        else:
            bodies.append(body_of(editor.one([editor.edit, editor.edit, editor.question])()))
        if editor.random.random() < 0.02:
            bodies.append(body_of({"id": 1, "method": "shutdown"}))
    return run_fault(bodies)
