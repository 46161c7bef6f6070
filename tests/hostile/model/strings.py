"""What a language server says of a string that takes parameters: its pieces in words, and an example."""

import re

from .listing import written

EXPLAINED_MAX, OPEN_MAX, STACK_SIZE, SIZE_MAX, NUMBER_MAX = 4096, 64, 20, 999, 2**31 - 1
FORM = rb"(?P<flags>:[-+# ]*|[# ]*)(?P<width>[0-9]*)(?:\.(?P<precision>[0-9]*))?(?P<conversion>[doxXs])"
CODE = re.compile(
    rb"%(?:(?P<simple>[%clti?e;!~+*/m&|^=><AO-])|p(?P<parameter>[1-9])|P(?P<store>[a-zA-Z])|g(?P<fetch>[a-zA-Z])"
    rb"|'(?P<byte>.)'|\{(?P<number>[0-9]+)\}|" + FORM + rb")",
    re.S,
)
PADDING = re.compile(rb"\$<[0-9]{1,5}(?:\.[0-9])?(?:\*/?|/\*?)?>")
SIMPLE = {
    "%": "write a %",
    "c": "pop a number, write the character with this code",
    "l": "pop a string, push how many bytes it has",
    "i": "add 1 to parameters 1 and 2",
    "!": "pop x, push 1 if x is 0, else 0",
    "~": "pop x, push x with each bit inverted",
    "?": "begin a conditional, whose test follows",
    "t": "pop a number: what follows is done if it is not 0",
    "e": "what follows is done, or tested, if it is 0",
    ";": "end the conditional",
    "+": "pop y, pop x, push x + y",
    "-": "pop y, pop x, push x - y",
    "*": "pop y, pop x, push x * y",
    "/": "pop y, pop x, push x / y without its fraction",
    "m": "pop y, pop x, push the remainder of x / y",
    "&": "pop y, pop x, push the bits that are set in both",
    "|": "pop y, pop x, push the bits that are set in one or both",
    "^": "pop y, pop x, push the bits that are set in one alone",
    "=": "pop y, pop x, push 1 if x = y, else 0",
    ">": "pop y, pop x, push 1 if x > y, else 0",
    "<": "pop y, pop x, push 1 if x < y, else 0",
    "A": "pop y, pop x, push 1 if neither is 0, else 0",
    "O": "pop y, pop x, push 0 if both are 0, else 1",
}
CONVERSIONS = {
    "d": "pop a number, write it in decimal",
    "o": "pop a number, write it in octal",
    "x": "pop a number, write it in hexadecimal",
    "X": "pop a number, write it in hexadecimal with capitals",
    "s": "pop a string, write it",
}
SAMPLES = {
    "row, column": (4, 9),
    "row": (4,),
    "column": (9,),
    "count": (5,),
    "first row, last row": (4, 9),
    "character, count": (97, 5),
    "key, text": (1, b"abc"),
    "label, text": (1, b"abc"),
    "number": (b"abc",),
}


class StackFull(Exception):
    """A value was pushed on a full stack."""


def code_at(text, at):
    """The code that begins at a `%`, or None."""
    found = CODE.match(text, at)
    if found is None or (found["number"] is not None and int(found["number"]) > NUMBER_MAX):
        return None
    if found["conversion"] is not None and max(int(found["width"] or 0), int(found["precision"] or 0)) > SIZE_MAX:
        return None
    return found


def tokens_of(text):
    """The tokens of a string, each with where it begins and ends, and where it is no format or ends."""
    tokens, at, phases = [], 0, []
    while at < len(text):
        code, end = None, at + 1
        if text[at] == 0x25:
            code = code_at(text, at)
            if code is None:
                break
            simple, end = code["simple"], code.end()
            if simple == b"?" and len(phases) == OPEN_MAX or simple in (b"t", b"e", b";") and not phases:
                break
            if simple == b"t" and phases[-1] != "test" or simple == b"e" and phases[-1] != "taken":
                break
            if simple == b"?":
                phases.append("test")
            elif simple in (b"t", b"e"):
                phases[-1] = "taken" if simple == b"t" else "test"
            elif simple == b";":
                phases.pop()
        tokens.append((at, end, code))
        at = end
    return tokens, at


def last_pushed(text, place):
    """The last parameter, from 0, that a string pushes by a code which begins at a place or before it, or None."""
    codes = [code for at, _, code in tokens_of(text)[0] if at <= place and code is not None]
    pushed = [int(code["parameter"]) - 1 for code in codes if code["parameter"] is not None]
    return pushed[-1] if pushed else None


def form_words(code):
    """What a printf form writes."""
    letter, flags, width = code["conversion"].decode(), code["flags"], code["width"]
    words = CONVERSIONS[letter]
    if int(width or 0) > 0:
        words += f", at least {int(width)} wide"
    if code["precision"] is not None:
        count = int(code["precision"] or 0)
        words += f", at most {count} bytes of it" if letter == "s" else f", at least {count} digits"
    told = [(b"-" in flags, ", blanks after it"), (width.startswith(b"0"), ", zeros before it")]
    told += [(b"+" in flags, ", with a + if it is not negative"), (b" " in flags, ", with a blank if it is not negative")]
    told += [(b"#" in flags, ", with the mark of its base")]
    return words + "".join(each for applies, each in told if applies)


def words_of(code, text):
    """What a piece of this text does."""
    if code is None:
        return "write this as it is" + (", and wait where it has $<..>" if PADDING.search(text) else "")
    if code["simple"] is not None:
        return SIMPLE[code["simple"].decode()]
    if code["conversion"] is not None:
        return form_words(code)
    if code["parameter"] is not None:
        return f"push parameter {int(code['parameter'])}"
    if code["store"] is not None:
        return f"pop a value, keep it in this variable {'up to the end' if code['store'].islower() else 'for later strings too'}"
    if code["fetch"] is not None:
        return "push this variable"
    return f"push {code['byte'][0] if code['number'] is None else int(code['number'])}"


def pieces_of(tokens):
    """The pieces of tokens: bytes that follow one another are one."""
    pieces = []
    for start, end, code in tokens:
        if code is None and pieces and pieces[-1][2] is None:
            start = pieces.pop()[0]
        pieces.append((start, end, code))
    return pieces


def wrapped(number):
    """A number of 32 bits with a sign."""
    return (number + 2**31) % 2**32 - 2**31


def operation(operator, x, y):
    """What an operator on two numbers gives."""
    if operator in "/m":
        if y == 0:
            return 0
        quotient = abs(x) // abs(y) * (1 if (x < 0) == (y < 0) else -1)
        return quotient if operator == "/" else x - y * quotient
    return {
        "+": lambda: x + y, "-": lambda: x - y, "*": lambda: x * y, "&": lambda: x & y, "|": lambda: x | y,
        "^": lambda: x ^ y, "=": lambda: int(x == y), ">": lambda: int(x > y), "<": lambda: int(x < y),
        "A": lambda: int(x != 0 and y != 0), "O": lambda: int(x != 0 or y != 0),
    }[operator]()


def printed(code, value):
    """What a printf form writes."""
    letter, flags, width = code["conversion"].decode(), code["flags"], int(code["width"] or 0)
    precision = None if code["precision"] is None else int(code["precision"] or 0)
    number, text = (0, value) if isinstance(value, bytes) else (value, b"")
    if letter == "s":
        front, digits, zeros = b"", text if precision is None else text[:precision], False
    else:
        digits = {"d": b"%d" % abs(number), "o": b"%o" % (number % 2**32)}.get(letter, b"%x" % (number % 2**32))
        digits = (b"" if number == 0 else digits).rjust(1 if precision is None else precision, b"0")
        digits = digits.upper() if letter == "X" else digits
        front = b""
        if letter == "d":
            front = b"-" if number < 0 else b"+" if b"+" in flags else b" " if b" " in flags else b""
        elif b"#" in flags and letter == "o":
            digits = digits if digits.startswith(b"0") else b"0" + digits
        elif b"#" in flags and number != 0:
            front = b"0" + letter.encode()
        zeros = code["width"].startswith(b"0") and precision is None
    if b"-" in flags:
        return (front + digits).ljust(width)
    return front + digits.rjust(width - len(front), b"0") if zeros else (front + digits).rjust(width)


class Machine:
    """The stack, the variables and the output of a string that is run."""

    def __init__(self, parameters):
        self.parameters = list(parameters) + [0] * (9 - len(parameters))
        self.stack, self.variables, self.output = [], {}, b""

    def pop(self):
        """The value on the top, or 0."""
        return self.stack.pop() if self.stack else 0

    def pop_number(self):
        """The value on the top as a number."""
        value = self.pop()
        return 0 if isinstance(value, bytes) else value

    def push(self, value):
        """Puts a value on the stack."""
        if len(self.stack) == STACK_SIZE:
            raise StackFull
        self.stack.append(value if isinstance(value, bytes) else wrapped(value))

    def perform_simple(self, simple):
        """Does what a code of one letter does."""
        if simple == "%":
            self.output += b"%"
        elif simple == "c":
            self.output += bytes([self.pop_number() % 256 or 0x80])
        elif simple == "l":
            value = self.pop()
            self.push(len(value) if isinstance(value, bytes) else 0)
        elif simple == "i":
            front = [each if isinstance(each, bytes) else wrapped(each + 1) for each in self.parameters[:2]]
            self.parameters[:2] = front
        elif simple == "!":
            self.push(int(self.pop_number() == 0))
        elif simple == "~":
            self.push(~self.pop_number())
        else:
            second = self.pop_number()
            self.push(operation(simple, self.pop_number(), second))

    def perform(self, code):
        """Does what a code by itself does."""
        if code["simple"] is not None:
            self.perform_simple(code["simple"].decode())
        elif code["conversion"] is not None:
            self.output += printed(code, self.pop())
        elif code["parameter"] is not None:
            self.push(self.parameters[int(code["parameter"]) - 1])
        elif code["store"] is not None:
            self.variables[code["store"]] = self.pop_number()
        elif code["fetch"] is not None:
            self.push(self.variables.get(code["fetch"], 0))
        else:
            self.push(code["byte"][0] if code["number"] is None else int(code["number"]))


def after_part(tokens, at, to_else):
    """Where a part that is not done ends."""
    level = 0
    while at < len(tokens):
        simple = None if tokens[at][2] is None else tokens[at][2]["simple"]
        at += 1
        if simple == b"?":
            level += 1
        elif level == 0 and (simple == b";" or simple == b"e" and to_else):
            break
        elif simple == b";":
            level -= 1
    return at


def given_by(text, tokens, parameters):
    """What a string gives for parameters."""
    machine, at = Machine(parameters), 0
    while at < len(tokens):
        start, end, code = tokens[at]
        at += 1
        simple = None if code is None else code["simple"]
        if code is None:
            machine.output += text[start:end]
        elif simple == b"t":
            at = at if machine.pop_number() != 0 else after_part(tokens, at, True)
        elif simple == b"e":
            at = after_part(tokens, at, False)
        elif simple not in (b"?", b";"):
            machine.perform(code)
    return machine.output


def sample_words(value):
    """A parameter as it is shown."""
    return value.decode() if isinstance(value, bytes) else f"{value}"


def explained(name, parameters, text, at):
    """What is said of a string, with the code at a place of it, or None."""
    if len(text) > EXPLAINED_MAX:
        return ""
    tokens, stop = tokens_of(text)
    pieces = pieces_of(tokens)
    told = [f"{written(text[start:end]).decode()}: {words_of(code, text[start:end])}" for start, end, code in pieces]
    here = [each for each, piece in zip(told, pieces) if at is not None and piece[0] <= at < piece[1] and piece[2] is not None]
    lines = "".join(f"\nHere: {each}" for each in here) + "\nPieces:" + "".join(f"\n  {each}" for each in told)
    if stop < len(text):
        return lines + f"\n  {written(text[stop:]).decode()}: invalid from here on"
    samples, count = SAMPLES.get(parameters, (1,) * 9), parameters.count(",") + 1
    shown = ", ".join(sample_words(each) for each in samples[:count])
    try:
        given = written(given_by(text, tokens, samples)).decode()
    except StackFull:
        given = "nothing, since the stack is full"
    return lines + f"\nExample: {name} of {shown}: {given}"
