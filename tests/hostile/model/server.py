"""What a language server for terminfo source answers, written from the protocol alone: a state of
the life of the server, and the texts of the open documents as Python strings.
"""

import json
import re

from .answers import (
    Refused, completion_of, definition_of, hover_of, message_of, part_of, place_in, prepared_of, references_of,
    renamed_of, signature_of, symbols_of,
)
from .base import Meaning
from .fixes import fixes_of
from .layout import folds_of, layout_of, part_layout_of
from .texts import blocks_of, lines_of, offset_of, refused_line, width

SMALL = 2**31
BODY_MAX = 67_108_864
DEPTH_MAX = 127
NO_JSON, NO_REQUEST, NO_METHOD, BAD_PARAMETERS, FRESH, FAILED = -32700, -32600, -32601, -32602, -32002, -32803
# the methods that ask about a document, and whether about a place in it
QUESTIONS = {
    "textDocument/completion": True, "textDocument/hover": True, "textDocument/definition": True,
    "textDocument/references": True, "textDocument/documentSymbol": False, "textDocument/rename": True,
    "textDocument/prepareRename": True, "textDocument/codeAction": False, "textDocument/documentHighlight": True,
    "textDocument/foldingRange": False, "textDocument/formatting": False, "textDocument/rangeFormatting": False, "textDocument/signatureHelp": True,
}
# the methods that tell of a document
TELLING = ["textDocument/didOpen", "textDocument/didChange", "textDocument/didClose"]


class NoJson(Exception):
    """A text is no JSON that is read."""


def refuse_constant(_):
    raise NoJson


def depth_of(value):
    """How deep lists and objects nest in a value, counted without recursion."""
    deepest, todo = 0, [(value, 0)]
    while todo:
        part, depth = todo.pop()
        deepest = max(deepest, depth)
        if isinstance(part, (list, dict)):
            deepest = max(deepest, depth + 1)
            todo += [(inner, depth + 1) for inner in (part.values() if isinstance(part, dict) else part)]
    return deepest


def mended_text(text):
    """A text with U+FFFD in place of each surrogate that is alone."""
    return re.sub("[\ud800-\udfff]", "\ufffd", text)


def mended_object(pairs):
    """An object whose keys are repaired; the last value of a key stays."""
    return {mended_text(key): value for key, value in pairs}


def mended_value(value):
    """A value whose texts are repaired."""
    if isinstance(value, str):
        return mended_text(value)
    if isinstance(value, list):
        return [mended_value(inner) for inner in value]
    return {key: mended_value(inner) for key, inner in value.items()} if isinstance(value, dict) else value


def value_of(body):
    """The JSON value of a body."""
    if len(body) > BODY_MAX:
        raise NoJson
    try:
        text = body.decode("utf-8")
        value = json.loads(text, parse_constant=refuse_constant, object_pairs_hook=mended_object)
        value = mended_value(value)
    except (ValueError, RecursionError) as error:
        raise NoJson from error
    if depth_of(value) > DEPTH_MAX:
        raise NoJson
    return value


def is_integer(value):
    return isinstance(value, int) and not isinstance(value, bool) and -(2**63) <= value < 2**64


def is_small(value):
    return is_integer(value) and 0 <= value < SMALL


def id_of(message):
    """The id of a message, or None."""
    value = message.get("id") if isinstance(message, dict) else None
    return value if isinstance(value, str) or is_integer(value) else None


def refusal(number, code):
    return {"id": number, "error": code}


def place_of(value):
    """A place of the protocol, or None."""
    if isinstance(value, dict) and is_small(value.get("line")) and is_small(value.get("character")):
        return value["line"], value["character"]
    return None


def is_change(value):
    """Whether a value is a change: a text, and a range if there is one."""
    return isinstance(member(value, "text"), str) and (value.get("range") is None or range_of(value["range"]) is not None)


def with_change(text, change):
    """The text after a change."""
    if change.get("range") is None:
        return change["text"]
    start, end = range_of(change["range"])
    at = offset_of(text, *start)
    return text[:at] + change["text"] + text[max(at, offset_of(text, *end)) :]


def unreadable(uri):
    """What is told of a message about a document that cannot be read."""
    which, close = ("a document", "the documents, and open them") if uri is None else (uri, "the document, and open it")
    return {"error": f"A message about {which} could not be read. Close {close} again."}


def nests_of(params):
    """Whether a client takes symbols as a hierarchy."""
    abilities = member(member(member(params, "capabilities"), "textDocument"), "documentSymbol")
    return member(abilities, "hierarchicalDocumentSymbolSupport") is True


def mark(line, columns, code, message):
    """A diagnostic: its line, the columns, its code, and its message."""
    return line, *columns, 1 if code[0] != "W" else 2, code, message


def columns_of_line(lines, line):
    """The columns of a line without the white space before it."""
    characters = lines[line][1]
    # white space is the two bytes of terminfo(5)
    return len(characters) - len(characters.lstrip(" \t")), width(characters)


def columns_of_part(block, first, line, part):
    """The columns of a part of a block that begins on the line `first`, as far as it is on the line
    `line`; None if it does not begin there."""
    start = None if part is None else place_in(block, first, part[0])
    if start is None or start["line"] != line:
        return None
    end = part[0] + len(block[slice(*part)].partition(b"\n")[0])
    return start["character"], place_in(block, first, end)["character"]


def diagnostics_of(text):
    """The diagnostics of a text."""
    preface, blocks = blocks_of(text)
    lines = lines_of(text if text.endswith("\n") else text + "\n")
    refused = refused_line(preface, blocks)
    if refused is not None:
        line, code = refused
        return [mark(line, columns_of_line(lines, line), code, "")]
    meaning, found, first = Meaning(blocks), [], preface.count(b"\n")
    for at, block in enumerate(blocks):
        for what, fault in meaning.placed_faults(at):
            line = first + fault.line - 1
            columns = columns_of_part(block, first, line, part_of(block, what)) or columns_of_line(lines, line)
            found.append(mark(line, columns, fault.code, message_of(fault)))
        first += block.count(b"\n")
    return found


def member(value, key):
    """A member of an object, or None."""
    return value.get(key) if isinstance(value, dict) else None


def range_of(value):
    """A range of the protocol, or None."""
    start, end = place_of(member(value, "start")), place_of(member(value, "end"))
    return None if start is None or end is None else (start, end)


def wanted_of(params):
    """Whether quick fixes are asked for; None if that is not said as it should be."""
    if not isinstance(params, dict) or "context" not in params:
        return None
    context = params["context"]
    if not isinstance(context, dict) or "only" not in context:
        return True
    kinds = context["only"]
    return any(kind in ("quickfix", "") for kind in kinds if isinstance(kind, str)) if isinstance(kinds, list) else None


def question_of(method, params):
    """What is asked of which document: its URI, the place or None, and of references whether the
    definition is asked for too, of a rename the new name; None if the parameters are not those of the
    method."""
    uri, place = member(member(params, "textDocument"), "uri"), place_of(member(params, "position"))
    if not isinstance(uri, str) or (QUESTIONS[method] and place is None):
        return None
    if method == "textDocument/codeAction":
        part, wanted = range_of(member(params, "range")), wanted_of(params)
        return None if part is None or wanted is None else (uri, part, wanted)
    if method == "textDocument/rangeFormatting":
        part = range_of(member(params, "range"))
        return None if part is None else (uri, part, None)
    if method == "textDocument/references":
        declared = member(member(params, "context"), "includeDeclaration")
        return (uri, place, declared) if isinstance(declared, bool) else None
    if method == "textDocument/rename":
        new = member(params, "newName")
        return (uri, place, new) if isinstance(new, str) else None
    return uri, place, None


def answer_of(nests, method, text, uri, place, more):
    """The answer to a question about a text."""
    if method == "textDocument/completion":
        return completion_of(text, place)
    if method == "textDocument/definition":
        return definition_of(text, uri, place)
    if method == "textDocument/references":
        return references_of(text, uri, place, more)
    if method == "textDocument/documentHighlight":
        return [{"range": each["range"]} for each in references_of(text, uri, place, True)]
    if method == "textDocument/rename":
        return renamed_of(text, uri, place, more)
    if method == "textDocument/prepareRename":
        return prepared_of(text, place)
    if method == "textDocument/hover":
        return hover_of(text, place)
    if method == "textDocument/signatureHelp":
        return signature_of(text, place)
    if method == "textDocument/codeAction":
        return fixes_of(text, uri, *place, diagnostics_of(text)) if more else []
    if method == "textDocument/foldingRange":
        return folds_of(text)
    if method == "textDocument/formatting":
        return layout_of(text)
    if method == "textDocument/rangeFormatting":
        return part_layout_of(text, *place)
    symbols = symbols_of(text)
    return symbols if nests else [
        {"kind": each["kind"], "name": each["name"], "location": {"uri": uri, "range": each["range"]}} for each in symbols
    ]


class Server:
    """The life of a server, and its open documents."""

    def __init__(self):
        self.phase, self.texts, self.status = "fresh", {}, None
        # whether the client takes a hierarchy, and which documents are out of date
        self.nests, self.outdated = False, set()
        # the versions of the documents whose faults are due
        self.due = {}

    def answer(self, body, waits):
        """What is sent back for a body, after which a whole frame waits or not."""
        answers = self.answers(body)
        return answers if waits else answers + self.published()

    def published(self):
        """What is sent of the documents whose faults are due."""
        due, self.due = self.due, {}
        return [
            {"uri": uri, "version": due[uri], "shown": diagnostics_of(text)} for uri, text in self.texts.items() if uri in due
        ]

    def answers(self, body):
        """What is sent back for a body before it is looked whether a frame waits."""
        try:
            message = value_of(body)
        except NoJson:
            return [refusal(None, NO_JSON)]
        method = message.get("method") if isinstance(message, dict) else None
        if not isinstance(message, dict) or (method is None and "method" not in message):
            is_answer = isinstance(message, dict) and ("result" in message or "error" in message)
            return [] if is_answer else [refusal(id_of(message), NO_REQUEST)]
        if not isinstance(method, str):
            return [refusal(id_of(message), NO_REQUEST)]
        if "id" not in message:
            return self.tell(method, message.get("params"))
        if id_of(message) is None:
            return [refusal(None, NO_REQUEST)]
        return self.published() + [self.ask(id_of(message), method, message.get("params"))]

    def ask(self, number, method, params):
        """The answer to a request."""
        if self.phase == "fresh" and method != "initialize":
            return refusal(number, FRESH)
        if self.phase == "fresh":
            self.phase, self.nests = "running", nests_of(params)
            return {"id": number, "ready": True}
        if self.phase == "running" and method == "shutdown":
            self.phase = "finished"
            return {"id": number, "result": None}
        if self.phase == "running" and method in QUESTIONS:
            return self.answered(number, method, params)
        if self.phase == "running" and method == "workspace/symbol":
            return self.found(number, member(params, "query"))
        if self.phase == "running" and method != "initialize":
            return refusal(number, NO_METHOD)
        return refusal(number, NO_REQUEST)

    def answered(self, number, method, params):
        """The answer to a question about a document."""
        asked = question_of(method, params)
        if asked is None or asked[0] not in self.texts or asked[0] in self.outdated:
            return refusal(number, BAD_PARAMETERS)
        try:
            return {"id": number, "result": answer_of(self.nests, method, self.texts[asked[0]], *asked)}
        except Refused:
            return refusal(number, FAILED)

    def found(self, number, query):
        """The entries of all documents whose names hold a text, whatever the case of its letters."""
        if not isinstance(query, str):
            return refusal(number, BAD_PARAMETERS)
        held = query.encode("utf-8").lower()
        result = [
            {"kind": each["kind"], "name": each["name"], "location": {"uri": uri, "range": each["range"]}}
            for uri, text in self.texts.items() if uri not in self.outdated
            for each in symbols_of(text) if held in each["name"].encode("utf-8").lower()
        ]
        return {"id": number, "result": result}

    def tell(self, method, params):
        """What is sent at a notification."""
        if method == "exit":
            self.status = 0 if self.phase == "finished" else 1
            return self.published()
        if self.phase != "running" or method not in TELLING:
            return []
        document = member(params, "textDocument")
        uri = member(document, "uri")
        if not isinstance(uri, str):
            return self.published() + [unreadable(None)]
        if method == "textDocument/didClose":
            self.outdated.discard(uri)
            self.due.pop(uri, None)
            return [] if self.texts.pop(uri, None) is None else [{"uri": uri, "version": None, "shown": []}]
        if method == "textDocument/didOpen":
            return self.take(uri, document, document.get("text"))
        return self.change(uri, document, params.get("contentChanges"))

    def take(self, uri, document, text):
        """What is sent of a document that has this text now: its faults are due."""
        if not isinstance(text, str):
            return self.unreadable(uri)
        self.texts[uri], version = text, document.get("version")
        self.outdated.discard(uri)
        self.due[uri] = version if is_small(version) else None
        return []

    def unreadable(self, uri):
        """What is sent about a document of which a message cannot be read."""
        published = self.published()
        self.outdated.add(uri)
        return published + [unreadable(uri)]

    def change(self, uri, document, changes):
        """What is sent of a document that is changed, if it is open."""
        if not isinstance(changes, list) or not all(map(is_change, changes)):
            return self.unreadable(uri)
        is_whole = any(change.get("range") is None for change in changes)
        if uri not in self.texts or (uri in self.outdated and not is_whole):
            return []
        text = self.texts[uri]
        for change in changes:
            text = with_change(text, change)
        return self.take(uri, document, text)


def seen_diagnostic(shown):
    """A diagnostic that was sent, as `mark` has it."""
    start, end = shown["range"]["start"], shown["range"]["end"]
    if start["line"] != end["line"] or shown["source"] != "ti":
        raise ValueError(f"a diagnostic is {shown}")
    return start["line"], start["character"], end["character"], shown["severity"], shown["code"], shown["message"]


def seen(answer):
    """An answer that was sent, as the model has it."""
    if answer.get("jsonrpc") != "2.0":
        raise ValueError(f"an answer is {answer}")
    if "method" in answer:
        if (answer["method"], answer["params"].get("type")) == ("window/showMessage", 1) and "id" not in answer:
            return {"error": answer["params"]["message"]}
        if answer["method"] != "textDocument/publishDiagnostics" or "id" in answer:
            raise ValueError(f"a notification is {answer}")
        params = answer["params"]
        shown = [seen_diagnostic(diagnostic) for diagnostic in params["diagnostics"]]
        return {"uri": params["uri"], "version": params.get("version"), "shown": shown}
    if "error" in answer:
        return refusal(answer["id"], answer["error"]["code"])
    result = answer["result"]
    if isinstance(result, dict) and "capabilities" in result:
        return {"id": answer["id"], "ready": True}
    return {"id": answer["id"], "result": result}


def agree(got, wanted):
    """Whether an answer is the one that is wanted: of the message of a refusal nothing is known."""
    if "shown" not in got or "shown" not in wanted:
        return got == wanted
    if {**got, "shown": None} != {**wanted, "shown": None} or len(got["shown"]) != len(wanted["shown"]):
        return False
    return all(one[:5] == other[:5] and other[5] in ("", one[5]) for one, other in zip(got["shown"], wanted["shown"]))
