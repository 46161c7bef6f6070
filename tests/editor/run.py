#!/usr/bin/env python3
"""What an editor shows: sources with marks, run through `ti-lsp` and `ti-lint`. The files `*.marks`
here hold them, and README.md says how to write one.

With words as arguments only the sources whose file or name has one of them are run. Each mark is a
row, and so is the comparison of a text with `ti-lint`. The last line is `editor: N passed, M failed`.
"""

import glob
import itertools
import json
import os
import subprocess
import sys
import tempfile

HERE = os.path.dirname(os.path.abspath(__file__))
sys.path[:0] = [os.path.dirname(HERE), os.path.join(os.path.dirname(HERE), "hostile")]
from common import EVERYDAY, LSP, TOP, Tally, is_missing  # noqa: E402
from lsp import body_of, frames_in, framed, notification, request  # noqa: E402
from marks import sources_in  # noqa: E402
from said import BadAnswer, answer_faults, are_wanted, mark_line, mark_of, said  # noqa: E402

SECONDS = 300
SHOWN = 400
# of a client that takes all that the server has
FULL = {"textDocument": {
    "codeAction": {"codeActionLiteralSupport": {}}, "documentSymbol": {"hierarchicalDocumentSymbolSupport": True},
    "rename": {"prepareSupport": True},
}}


def params_of(uri, asked):
    """The parameters of a request."""
    if asked.method == "symbol":
        return {"query": asked.argument}
    params = {"textDocument": {"uri": uri}}
    if asked.method == "codeAction":
        only = {"only": asked.argument.split()} if asked.argument else {}
        return {**params, "range": asked.range.value(), "context": {"diagnostics": [], **only}}
    if asked.method in ("formatting", "rangeFormatting"):
        part = {"range": asked.range.value()} if asked.range is not None else {}
        return {**params, **part, "options": {"tabSize": 8, "insertSpaces": False}}
    if asked.range is not None:
        params["position"] = asked.range.value()["start"]
    if asked.method == "references":
        params["context"] = {"includeDeclaration": asked.argument == "declared"}
    if asked.method == "rename":
        params["newName"] = asked.argument
    return params


def method_of(asked):
    return "workspace/symbol" if asked.method == "symbol" else f"textDocument/{asked.method}"


class Session:
    """What a server is sent of sources that have the same settings, and what it answered."""

    def __init__(self, settings):
        self.settings, self.values, self.number = settings, [], itertools.count(1)
        self.answers, self.published, self.fault = {}, {}, None
        options = {"ti": {name: settings[name] == "on" for name in ("hints", "userDefined")}}
        capabilities = FULL if settings["client"] == "full" else {}
        self.values.append(request(0, "initialize", {"capabilities": capabilities, "initializationOptions": options}))

    def ask(self, method, params):
        number = next(self.number)
        self.values.append(request(number, method, params))
        return number

    def tell(self, method, **params):
        self.values.append(notification(f"textDocument/{method}", params))

    def add(self, uri, source):
        """Opens the document of a source, exchanges its texts, and asks of each. Gives the numbers of
        its requests by their rows."""
        numbers = {}
        for version, text in enumerate(source.texts):
            document = {"uri": uri, "version": version}
            if version == 0:
                self.tell("didOpen", textDocument={**document, "languageId": "terminfo", "text": text.text})
            elif text.change:
                change = {"range": text.change[0].value(), "text": text.change[1]}
                self.tell("didChange", textDocument=document, contentChanges=[change])
            else:
                self.tell("didChange", textDocument=document, contentChanges=[{"text": text.text}])
            # diagnostics come before the answer to a request, and are else taken together
            self.ask("textDocument/documentSymbol", {"textDocument": {"uri": uri}})
            for asked in text.asked:
                numbers[asked.row] = self.ask(method_of(asked), params_of(uri, asked))
        self.tell("didClose", textDocument={"uri": uri})
        return numbers

    def run(self, room):
        """Runs the server with all of it."""
        self.ask("shutdown", None)
        self.values.append({"jsonrpc": "2.0", "method": "exit"})
        with tempfile.TemporaryDirectory(dir=room) as entries:
            for name in self.settings["installed"].split():
                path = os.path.join(entries, name if "/" in name else os.path.join(name[0], name))
                os.makedirs(os.path.dirname(path), exist_ok=True)
                with open(path, "wb"):
                    pass
            try:
                self.take(subprocess.run(
                    [LSP], input=b"".join(framed(body_of(value)) for value in self.values), env={"TERMINFO": entries},
                    stdout=subprocess.PIPE, stderr=subprocess.PIPE, timeout=SECONDS, check=False,
                ))
            except (ValueError, subprocess.TimeoutExpired) as error:
                self.fault = f"ti-lsp: {error}"[:SHOWN]

    def take(self, done):
        """Takes what the server sent."""
        if (done.returncode, done.stderr) != (0, b""):
            self.fault = f"ti-lsp ended with status {done.returncode}, errors {done.stderr[:SHOWN]!r}"
        for answer in frames_in(done.stdout):
            if "id" in answer:
                self.answers[answer["id"]] = answer
            elif "version" in answer["params"]:
                params = answer["params"]
                self.published.setdefault((params["uri"], params["version"]), []).append(params["diagnostics"])


def shown_faults(came, shown):
    """What is wrong with a diagnostic, and with the mark of it."""
    if came is None or shown is None:
        return [f"came: {came and mark_line(came)}"[:SHOWN], f"wanted: {shown and wanted_line(shown)}"[:SHOWN]]
    same = came[:3] == (shown.range, shown.code, shown.severity)
    if same and are_wanted([came[3]], [shown.message]):
        return []
    return [f"came: {mark_line(came)}"[:SHOWN], f"wanted: {wanted_line(shown)}"[:SHOWN]]


def wanted_line(shown):
    return mark_line((shown.range, shown.code, shown.severity, shown.message))


class Judge:
    """Compares what was answered about the sources of a file with their marks."""

    def __init__(self, tally, path):
        self.tally, self.path = tally, os.path.relpath(path, TOP)

    def add(self, row, name, faults):
        self.tally.add(f"{self.path}:{row}: {name}", faults)

    def diagnostics(self, source, text, marks):
        """Compares the diagnostics of a text, one by one."""
        pairs = list(itertools.zip_longest(marks, text.shown)) or [(None, None)]
        for came, shown in pairs:
            row = shown.row if shown else text.row
            faults = shown_faults(came, shown) if came or shown else []
            self.add(row, source.name, faults)

    def text(self, source, uri, version, numbers, session):
        """Compares the diagnostics of a text and the answers about it. Gives its diagnostics."""
        text = source.texts[version]
        published = session.published.get((uri, version), [])
        if len(published) != 1:
            self.add(text.row, source.name, [f"the diagnostics came {len(published)} times"])
        marks = [mark_of(shown) for shown in published[0]] if published else []
        if not source.settings["unmarked"]:
            self.diagnostics(source, text, marks)
        elif text.shown:
            self.add(text.row, source.name, ["it has marks, and is unmarked"])
        for asked in text.asked:
            answer = session.answers.get(numbers[asked.row])
            try:
                came = None if answer is None else said(asked.method, uri, text.text, answer)
                faults = ["no answer came"] if came is None else answer_faults(asked.method, came, asked.wanted)
            except BadAnswer as error:
                faults = [str(error)]
            self.add(asked.row, f"{source.name}: {asked.method}", faults)
        return marks


def is_linted(source, text):
    """Whether `ti-lint` has the same diagnostics of a text: it searches no installed entries, and
    takes a byte order mark and the CR of CR LF away."""
    apart = source.settings["unlinted"] or source.settings["installed"] or "\r" in text.text or text.text.startswith("\ufeff")
    return not apart


def linted(texts, words, room):
    """The diagnostics that `ti-lint` has of each of some texts."""
    with tempfile.TemporaryDirectory(dir=room) as here:
        os.symlink(EVERYDAY, os.path.join(here, "ti-lint"))
        for at, text in enumerate(texts):
            with open(os.path.join(here, f"{at}.ti"), "w", encoding="utf-8", newline="") as file:
                file.write(text)
        done = subprocess.run(
            ["./ti-lint", *words, "--format", "json", *(f"{at}.ti" for at in range(len(texts)))], cwd=here, env={},
            stdout=subprocess.PIPE, stderr=subprocess.PIPE, timeout=SECONDS, check=False,
        )
    marks = [[] for _ in texts]
    for shown in json.loads(done.stdout):
        marks[int(shown["file"].partition(".")[0])].append(mark_of(shown))
    status = int(any(mark[2] == "error" for each in marks for mark in each))
    if done.returncode != status:
        raise ValueError(f"its status is {done.returncode}, wanted {status}")
    return marks


def lint_faults(marks, others, has_hints):
    """What is wrong with the diagnostics of `ti-lint`, which always has the hints."""
    kept = [mark for mark in others if has_hints or mark[1][0] != "N"]
    if kept == marks:
        return []
    extra = [f"ti-lint alone: {mark_line(mark)}"[:SHOWN] for mark in kept if mark not in marks]
    fewer = [f"ti-lsp alone: {mark_line(mark)}"[:SHOWN] for mark in marks if mark not in kept]
    return extra + fewer or ["they are in another order"]


def run_lint(judge, found, room):
    """Compares the diagnostics of texts with those of `ti-lint`."""
    for user_defined, words in (("on", ["-x"]), ("off", [])):
        these = [one for one in found if one[0].settings["userDefined"] == user_defined and is_linted(*one[:2])]
        try:
            all_linted = linted([text.text for _, text, _ in these], words, room) if these else []
        except (ValueError, subprocess.TimeoutExpired) as error:
            judge.add(1, "ti-lint", [str(error)[:SHOWN]])
            continue
        for (source, text, marks), others in zip(these, all_linted):
            faults = lint_faults(marks, others, source.settings["hints"] == "on")
            judge.add(text.row, f"{source.name}: ti-lint", faults)


def run_file(tally, path, words, room, has_lint):
    """Runs the sources of a file, those with the same settings by one server."""
    sources, faults = sources_in(path)
    judge, sessions, found = Judge(tally, path), {}, []
    for row, fault in faults:
        judge.add(row, "the line", [fault])
    if not sources:
        judge.add(1, "the file", ["it has no rows"])
    sources = [one for one in sources if not words or any(word in one.name or word in judge.path for word in words)]
    asked = []
    for number, source in enumerate(sources):
        key = tuple(source.settings[name] for name in ("hints", "userDefined", "client", "installed"))
        session = sessions.setdefault(key, Session(source.settings))
        uri = f"file:///{number}.ti"
        asked.append((source, uri, session.add(uri, source), session))
    for session in sessions.values():
        session.run(room)
        if session.fault:
            judge.add(1, "the server", [session.fault])
    for source, uri, numbers, session in asked:
        for version, text in enumerate(source.texts):
            found.append((source, text, judge.text(source, uri, version, numbers, session)))
    if has_lint:
        run_lint(judge, found, room)


def main():
    if is_missing(LSP, "editor"):
        return 1
    tally, words = Tally("editor"), sys.argv[1:]
    has_lint = os.access(EVERYDAY, os.X_OK)
    if not has_lint:
        tally.skip("ti-lint", "ti-everyday is not built")
    with tempfile.TemporaryDirectory(prefix="ti-editor-") as room:
        for path in sorted(glob.glob(os.path.join(HERE, "*.marks"))):
            run_file(tally, path, words, room, has_lint)
    if not tally.passed and not tally.failed:
        print("no source has one of these words")
        return 1
    return tally.close()


if __name__ == "__main__":
    sys.exit(main())
