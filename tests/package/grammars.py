"""The grammar of editors that take TextMate's: the scopes that it gives, by its rules in their order,
and that it shows no fault of spelling where `ti tic -c` reports none.

The patterns are looked for by Python's `re`, and by Oniguruma, as in the editors, if it is there.
"""

import contextlib
import ctypes
import json
import os
import random
import re
import subprocess
import tempfile

from shared import PROGRAM, TOP, Skipped

GRAMMAR = os.path.join(TOP, "editors", "textmate", "terminfo.tmLanguage.json")
PIECES = os.path.join(TOP, "tests", "integration", "sources", "pieces.ti")
ONIGURUMA = "libonig.so.5"
# ncurses's own source, if the environment names it, as for bench/run.py
MASTER = os.environ.get("MASTER")
# how many strings are made at random, and of which letters
STRINGS = 2000
LETTERS = "\\\\\\^^^%0123478Eqs:Az \t?"
# what the lines of PIECES have, in the short names of NAMES
WANTED = """\
comment <# a comment, TODO>
name <mine> sign <|> name <my-term> sign <|> about <My terminal> sign <,> cap <am> sign <,> cap <xenl> cancel <@> sign <,>
cap <cols> equals <#> number <80> sign <,> cap <lines> equals <#> number <0x1f> sign <,> cap <it> equals <#> number <010> \
sign <,> cap <pairs> equals <#> bad <8o> sign <,> off <.kf1=\\q\\,^> sign <,> off <.am> sign <,>
cap <bel> equals <=> escape <^G> sign <,> cap <kf2> equals <=> escape <\\E> text <[> escape <\\054\\,> bad <\\q\\777^> sign <,> \
use <use> equals <=> used <base > sign <,> cap <Ss> equals <=> escape <\\E> text <[> code <%p1%d> text < q> sign <,>
cap <cup> equals <=> escape <\\E> text <[> code <%i%p1%:-3d> text <;>
comment <# the rest of cup>
text <\t> code <%p2%'\\s'%+%c> bad <%u> code <%^> text <H> padding <$<5.1*/>> text <$<x>> sign <,> \
cap <u8> equals <=> escape <\\E> text <[?%[;09]c> sign <,>
cap <sgr> equals <=> if <%?> code <%p1%{3}%=> if <%t> text <;1> if <%e> code <%gA> if <%;> text <%>
text <\tp2> bad <%p> text <0> code <%'x'%-> sign <,> cap <am> sign <,>
name <base> sign <,>
bad <# am> sign <,> cap <mc5p> equals <=> code <%p9> text <%>
"""
NAMES = {
    "comment.line": "comment", "entity.name": "name", "punctuation": "sign", "string.unquoted.description": "about",
    "support": "cap", "keyword.operator.cancel": "cancel", "keyword.operator.assignment": "equals",
    "constant.numeric": "number", "invalid": "bad", "comment.block": "off", "constant.character": "escape",
    "string.unquoted.terminfo": "text", "keyword.other.use": "use", "entity.other": "used",
    "constant.other": "code", "keyword.other.padding": "padding", "keyword.control": "if",
}


class Region(ctypes.Structure):
    """What Oniguruma tells of a match."""

    _fields_ = [
        ("allocated", ctypes.c_int), ("count", ctypes.c_int), ("begin", ctypes.POINTER(ctypes.c_int)),
        ("end", ctypes.POINTER(ctypes.c_int)), ("root", ctypes.c_void_p),
    ]


class Oniguruma:
    """The library of regular expressions of the editors, for text of ASCII."""

    def __init__(self):
        self.library = ctypes.CDLL(ONIGURUMA)
        self.library.onig_region_new.restype = ctypes.POINTER(Region)
        self.compiled = {}

    def compile(self, pattern):
        expression, text = ctypes.c_void_p(), pattern.encode()
        start = ctypes.create_string_buffer(text)
        at = ctypes.addressof(start)
        syntax = ctypes.addressof(ctypes.c_char.in_dll(self.library, "OnigSyntaxOniguruma"))
        encoding = ctypes.addressof(ctypes.c_char.in_dll(self.library, "OnigEncodingUTF8"))
        fault = ctypes.create_string_buffer(64)
        status = self.library.onig_new(
            ctypes.byref(expression), ctypes.c_void_p(at), ctypes.c_void_p(at + len(text)), ctypes.c_uint(0),
            ctypes.c_void_p(encoding), ctypes.c_void_p(syntax), fault,
        )
        if status:
            raise ValueError(f"Oniguruma refuses {pattern}: {status}")
        return expression

    def find(self, pattern, line, at):
        """The parts of the first match from a place on, each a pair or None; None if there is none."""
        if pattern not in self.compiled:
            self.compiled[pattern] = self.compile(pattern)
        text = ctypes.create_string_buffer(line.encode())
        place, region = ctypes.addressof(text), self.library.onig_region_new()
        end = place + len(line)
        found = self.library.onig_search(
            self.compiled[pattern], ctypes.c_void_p(place), ctypes.c_void_p(end), ctypes.c_void_p(place + at),
            ctypes.c_void_p(end), region, ctypes.c_uint(0),
        )
        spans = [(region.contents.begin[i], region.contents.end[i]) for i in range(region.contents.count)]
        self.library.onig_region_free(region, 1)
        return None if found < 0 else [None if span[0] < 0 else span for span in spans]


class Expressions:
    """Python's regular expressions, asked as Oniguruma is."""

    def find(self, pattern, line, at):
        found = re.compile(pattern).search(line, at)
        if not found:
            return None
        return [None if found.start(i) < 0 else found.span(i) for i in range(found.re.groups + 1)]


class Reader:
    """Reads lines by a grammar, as TextMate's grammars are defined."""

    def __init__(self, grammar, expressions):
        self.grammar, self.expressions = grammar, expressions
        self.open, self.scopes = [], []

    def rules(self, patterns):
        """The rules of a list, with those that it includes in their place."""
        for rule in patterns:
            name = rule.get("include")
            included = self.grammar["repository"][name[1:]] if name else rule
            if "match" in included or "begin" in included:
                yield included
            else:
                yield from self.rules(included["patterns"])

    def line(self, line):
        """The scope of each letter of a line, the innermost, or an empty one."""
        self.scopes, at = [""] * len(line), 0
        while at <= len(line):
            inner = self.open[-1] if self.open else None
            found = self.first(inner, line, at)
            until = found[1][0][0] if found else len(line)
            if inner:
                self.paint((at, until), inner.get("contentName", ""))
            if not found:
                return self.scopes
            rule, spans = found
            if rule is inner:
                self.open.pop()
            elif "begin" in rule:
                self.open.append(rule)
                self.capture(spans, rule.get("beginCaptures", {}), line)
            else:
                self.paint(spans[0], rule.get("name", inner.get("contentName", "") if inner else ""))
                self.capture(spans, rule.get("captures", {}), line)
            if spans[0][1] == at and rule is not inner and "begin" not in rule:
                raise ValueError(f"{rule} takes nothing of {line!r}")
            at = spans[0][1]
        return self.scopes

    def first(self, inner, line, at):
        """The rule whose match comes first, the end of what is open before all others."""
        best = None
        if inner and (spans := self.expressions.find(inner["end"], line, at)):
            best = inner, spans
        for rule in self.rules((inner or self.grammar)["patterns"]):
            spans = self.expressions.find(rule.get("match") or rule["begin"], line, at)
            if spans and (best is None or spans[0][0] < best[1][0][0]):
                best = rule, spans
        return best

    def paint(self, span, scope):
        self.scopes[span[0] : span[1]] = [scope] * (span[1] - span[0])

    def capture(self, spans, captures, line):
        """Gives what a match captures its scopes."""
        for number, capture in captures.items():
            span = spans[int(number)]
            if not span:
                continue
            self.paint(span, capture.get("name", ""))
            if "patterns" in capture:
                part = Reader({**self.grammar, "patterns": capture["patterns"]}, self.expressions)
                self.scopes[span[0] : span[1]] = part.line(line[span[0] : span[1]])


def shown(line, scopes):
    """The parts of a line that have a scope, in short."""
    parts = []
    for letter, scope in zip(line, scopes):
        name = next((NAMES[begin] for begin in NAMES if scope.startswith(begin)), scope)
        if parts and parts[-1][0] == name:
            parts[-1][1] += letter
        else:
            parts.append([name, letter])
    return " ".join(f"{name} <{text}>" for name, text in parts if name)


def scope_faults(grammar, expressions):
    """Lines of the table whose scopes are not those that are wanted."""
    with open(PIECES, encoding="utf-8") as file:
        lines = file.read().splitlines()
    reader = Reader(grammar, expressions)
    for number, (line, wanted) in enumerate(zip(lines, WANTED.splitlines(), strict=True), 1):
        got = shown(line, reader.line(line))
        if got != wanted:
            yield f"line {number}, by {type(expressions).__name__}: {got}, wanted {wanted}"


def shown_lines(grammar, lines):
    """The numbers of the lines in which the grammar shows a fault."""
    reader = Reader(grammar, Expressions())
    return {n for n, line in enumerate(lines, 1) if any(scope.startswith("invalid") for scope in reader.line(line))}


def reported_lines(path):
    """The numbers of the lines of which `ti tic -c` reports something."""
    said = subprocess.run([PROGRAM, "tic", "-c", path], capture_output=True, check=False).stderr.decode()
    return {int(line.split(":")[0]) for line in said.splitlines()}


def spelling_faults(grammar, path):
    """Lines of a source with a fault of spelling of which `ti tic -c` reports nothing."""
    with open(path, encoding="latin-1") as file:
        lines = file.read().split("\n")
    for number in sorted(shown_lines(grammar, lines) - reported_lines(path)):
        yield f"{os.path.basename(path)}:{number}: {lines[number - 1]}"


def random_faults(grammar):
    """Strings made at random in which the grammar shows another fault than `ti tic -c` reports."""
    made = random.Random(60)
    values = ["".join(made.choices(LETTERS, k=made.randrange(8))) for _ in range(STRINGS)]
    lines = [line for at, value in enumerate(values) for line in (f"e{at},", f"\tkf1={value},")]
    with tempfile.NamedTemporaryFile("w", suffix=".ti") as file:
        file.write("\n".join([*lines, ""]))
        file.flush()
        reported = reported_lines(file.name)
    for number in sorted(shown_lines(grammar, lines) ^ reported):
        yield f"{lines[number - 1]}: {'nothing is shown' if number in reported else 'a fault is shown that is none'}"


def check_grammar():
    """Whether the grammar gives the scopes that are wanted, and shows no fault that is none."""
    with open(GRAMMAR, encoding="utf-8") as file:
        grammar = json.load(file)
    yield from scope_faults(grammar, Expressions())
    with contextlib.suppress(OSError):
        yield from scope_faults(grammar, Oniguruma())
    if not os.access(PROGRAM, os.X_OK):
        raise Skipped("the program is not built")
    examples = os.path.join(TOP, "examples")
    sources = [os.path.join(examples, name) for name in sorted(os.listdir(examples)) if name.endswith(".ti")]
    for path in [*sources, *([MASTER] if MASTER else [])]:
        yield from spelling_faults(grammar, path)
    yield from random_faults(grammar)
