"""What a server answers, in the lines in which the rows of the editor say what they want."""

import re

from marks import SEVERITIES, Range, changed

# what a client may do with a sentence on a capability: at most so many bytes, and a full stop
SENTENCE_MAX = 71
KINDS = ("boolean", "number", "string")


class BadAnswer(Exception):
    """An answer is not in the form of the protocol; the text says why."""


def need(condition, why):
    """Refuses an answer unless a condition holds."""
    if not condition:
        raise BadAnswer(why)


def range_in(value):
    """A range of the protocol."""
    start, end = value["start"], value["end"]
    return Range(start["line"], start["character"], end["line"], end["character"])


def mark_of(shown):
    """A diagnostic as a mark has it: its range, its code, its severity, its message."""
    need(shown["source"] == "ti", f"the source of a diagnostic is {shown['source']}")
    return range_in(shown["range"]), shown["code"], SEVERITIES[shown["severity"] - 1], shown["message"]


def mark_line(mark):
    return " ".join(map(str, mark))


def applied(text, edits):
    """A text after a client has applied edits to it, the last one first; none overlaps another."""
    parts = sorted(((range_in(edit["range"]), edit["newText"]) for edit in edits), reverse=True)
    for (after, _), (before, _) in zip(parts, parts[1:]):
        need((before.last, before.end) <= after[:2], f"the edits at {before} and at {after} overlap")
    for part in parts:
        text = changed(text, part)
    return text


def changed_lines(text, edits):
    """The lines that edits change, each after its number, as they then are."""
    old, new = text.split("\n"), applied(text, edits).split("\n")
    if len(old) != len(new):
        return [f"{at}: {line}" for at, line in enumerate(new)]
    return [f"{at}: {line}" for at, (line, before) in enumerate(zip(new, old)) if line != before]


def edits_of(uri, value):
    """The edits of a change of one document."""
    need(list(value) == ["changes"] and list(value["changes"]) == [uri], f"a change of {value}")
    return value["changes"][uri]


def at_line(ranges):
    return " ".join(["at", *map(str, ranges)])


def said_location(uri, value):
    """The places of locations, which are of the document."""
    places = value if isinstance(value, list) else [value]
    need(all(place["uri"] == uri for place in places), f"a place of another document: {value}")
    return [str(range_in(place["range"])) for place in places]


def said_hover(_, _text, value):
    need(value["contents"]["kind"] == "plaintext", "a hover that is no plain text")
    return [at_line([range_in(value["range"])]), *value["contents"]["value"].split("\n")]


def said_places(uri, _, value):
    return [" ".join(said_location(uri, value))]


def said_highlights(_, _text, value):
    return [" ".join(str(range_in(each["range"])) for each in value)]


def said_prepared(_, _text, value):
    return [str(range_in(value))]


def said_rename(uri, text, value):
    edits = edits_of(uri, value)
    return [at_line(range_in(edit["range"]) for edit in edits), *changed_lines(text, edits)]


def said_action(uri, text, action):
    """An action: its title, whether it is preferred, which diagnostics it resolves; and its edit."""
    need(action["kind"] == "quickfix", f"the kind of an action is {action['kind']}")
    edits, marks = edits_of(uri, action["edit"]), [mark_of(shown) for shown in action["diagnostics"]]
    preferred = " (preferred)" if action.get("isPreferred") else ""
    resolved = ", ".join(f"{mark[1]} {mark[0]}" for mark in marks)
    places = " ".join(str(range_in(edit["range"])) for edit in edits)
    lines = [f"  {line}" for line in changed_lines(text, edits)]
    return [f"{action['title']}{preferred} [{resolved}]", f"  at {places}", *lines]


def said_actions(uri, text, value):
    return [line for action in value for line in said_action(uri, text, action)]


def said_symbol(uri, symbol):
    """An entry of an outline: its name, its range, and that of its names field."""
    need(symbol["kind"] == 23, f"the kind of a symbol is {symbol['kind']}")
    if "location" in symbol:
        return " ".join([symbol["name"], *said_location(uri, symbol["location"])])
    return f"{symbol['name']} {range_in(symbol['range'])} {range_in(symbol['selectionRange'])}"


def said_symbols(uri, _, value):
    return [said_symbol(uri, symbol) for symbol in value]


def said_folds(_, _text, value):
    return [f"{fold['startLine']}-{fold['endLine']} {fold.get('kind', '')}".strip() for fold in value]


def said_layout(_, text, value):
    laid = applied(text, value)
    lines = laid.split("\n")
    return [at_line(range_in(edit["range"]) for edit in value), *(lines[:-1] if lines[-1] == "" else [*lines, "(no newline)"])]


def said_signature(_, _text, value):
    """A name with its parameters, of which the active one is in brackets."""
    need(len(value["signatures"]) == 1 and value["activeSignature"] == 0, "not one signature")
    signature, active = value["signatures"][0], value.get("activeParameter")
    labels = [parameter["label"] for parameter in signature["parameters"]]
    name = signature["label"].partition("(")[0]
    need(signature["label"] == f"{name}({', '.join(labels)})", f"the label is {signature['label']}")
    shown = [f"[{label}]" if at == active else label for at, label in enumerate(labels)]
    return [f"{name}({', '.join(shown)})"]


def is_sentence(text):
    """Whether a text is a sentence of ASCII, with one full stop at its end."""
    return text.isascii() and 1 < len(text) <= SENTENCE_MAX and text.endswith(".") and not text.endswith("..")


def check_item(item):
    """Each item puts its label in the place of what is typed; one of a capability has a sentence."""
    need(item["textEdit"]["newText"] == item["filterText"] == item["label"], f"the label of {item}")
    kind, _, variable = item["detail"].partition(", ")
    if kind in KINDS:
        documentation = item["documentation"]
        need(variable.isascii() and 0 < len(variable) < SENTENCE_MAX and variable[-1] != ".", f"the variable of {item}")
        need(documentation.isascii() and is_sentence(documentation.partition("\n")[0]), f"the sentence of {item}")


def said_completion(_, _text, value):
    """The items of a completion: where they go, and each with its detail and what documents it."""
    items = value["items"]
    need(value["isIncomplete"] is False, "the completion is not whole")
    need(len({item["label"] for item in items}) == len(items), "an item is there twice")
    for item in items:
        check_item(item)
    places = {range_in(item["textEdit"]["range"]) for item in items}
    lines = [at_line(sorted(places))]
    for item in items:
        lines += [f"{item['label']}: {item['detail']}"]
        lines += [f"  {line}" for line in item.get("documentation", "").split("\n") if line]
    return lines


SAYING = {
    "hover": said_hover, "completion": said_completion, "definition": said_places, "references": said_places,
    "documentHighlight": said_highlights, "prepareRename": said_prepared, "rename": said_rename,
    "signatureHelp": said_signature, "codeAction": said_actions, "documentSymbol": said_symbols,
    "foldingRange": said_folds, "formatting": said_layout, "rangeFormatting": said_layout, "symbol": said_symbols,
}


def said(method, uri, text, answer):
    """The lines of an answer to a request about a text."""
    if "error" in answer:
        return [f"refused {answer['error']['code']} {answer['error']['message']}"]
    value = answer["result"]
    if value is None or value == [] or (method == "completion" and not value["items"]):
        return ["nothing"]
    return SAYING[method](uri, text, value)


def line_pattern(line):
    """What matches a line that is wanted: one that ends with ` ..` is the beginning of one, and a
    line `..` is for any lines."""
    if line == "..":
        return r"(?:[^\n]*\n)*"
    front, dots, rest = line.rpartition(" ..")
    return re.escape(front) + r" ?[^\n]*\n" if dots and not rest else re.escape(line + "\n")


def are_wanted(came, wanted):
    """Whether lines are those that are wanted."""
    return re.fullmatch("".join(map(line_pattern, wanted)), "".join(f"{line}\n" for line in came)) is not None


def as_asked(came, wanted):
    """The lines of an answer without what a row leaves out: the places of edits, and where the
    diagnostics are that an action resolves."""
    if not any(re.match(r" *at \d", line) for line in wanted):
        came = [line for line in came if not re.match(r" *at \d", line)]
    if not any(re.search(r"\[\w+ \d.*\]$", line) for line in wanted):
        came = [re.sub(r"(\w+) \d+:\d+-[\d:]+(?=[^\[]*\]$)", r"\1", line) for line in came]
    return came


def grouped(lines):
    """Lines with the indented ones that follow each."""
    groups = []
    for line in lines:
        if line.startswith("  ") and groups:
            groups[-1][1].append(line)
        else:
            groups.append((line, []))
    return groups


def completion_faults(came, wanted):
    """What is wrong with the items of a completion, by lines that speak of some or of all of them."""
    place, items = came[0], grouped(came[1:])
    labels = [line.partition(": ")[0] for line, _ in items]
    kinds = [line.partition(": ")[2].partition(",")[0] for line, _ in items]
    counts = ", ".join(f"{kinds.count(kind)} {kind}" for kind in dict.fromkeys(kinds))
    for line, more in grouped(wanted):
        word, _, rest = line.partition(" ")
        if word == "at" and line != place:
            yield f"the items are {place}, wanted {rest}"
        elif word == "names" and labels != rest.split():
            yield f"the names are {' '.join(labels)[:400]}, wanted {rest}"
        elif word == "count" and counts != rest:
            yield f"the count is {counts}, wanted {rest}"
        elif word == "without" and set(labels) & set(rest.split()):
            yield f"among the names are {sorted(set(labels) & set(rest.split()))}"
        elif word not in ("at", "names", "count", "without"):
            found = [one for one in items if one[0].partition(": ")[0] == line.partition(": ")[0]]
            if not any(one[0] == line and (not more or one[1] == more) for one in found):
                yield f"the item is {found}, wanted {(line, more)}"


def answer_faults(method, came, wanted):
    """What is wrong with the lines of an answer."""
    if method == "completion" and came != ["nothing"] and wanted != ["nothing"]:
        return list(completion_faults(came, wanted))
    if method in ("definition", "references", "documentHighlight"):
        wanted = [" ".join(wanted)]
    came = as_asked(came, wanted)
    if are_wanted(came, wanted):
        return []
    return ["came:", *(f"  {line}" for line in came), "wanted:", *(f"  {line}" for line in wanted)]
