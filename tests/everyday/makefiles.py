"""The commands that a Makefile of a package has for a target, without make: as the shell gets them."""

import re

BREAK = "\\\n"
# lines that end no rule
WITHIN = re.compile(r"$|#|ifeq\b|ifneq\b|else\b|endif\b")


def configured(text, values):
    """A text with what configure puts in place of words."""
    for name, value in values.items():
        text = text.replace(f"@{name}@", value)
    return text


def commands_of(text, target, variables, word=""):
    """The commands of all rules for a target, with its variables replaced; only those that have a word, if one is
    given. Each is run in a shell of its own."""
    found, needed = [], None
    for line in text.replace(BREAK, "\0").split("\n"):
        head = re.match(rf"(?:[^\t]*\0)?{re.escape(target)}[ \t]*::?(?!=)([^;]*)(?:;(.*))?$", line)
        if head:
            needed = head[1].split() or [""]
            line = "\t" + (head[2] or "")
        elif not line.startswith("\t") and not WITHIN.match(line):
            needed = None
        if needed and line.startswith("\t") and line.strip() and line.strip()[0] != "#" and word in line:
            found.append(replaced(line, {**variables, "@": target, "<": needed[0]}))
    assert found, f"no commands for {target}"
    return "\n".join(f"( {command}\n)" for command in found)


def replaced(line, variables):
    """A command of make as the shell gets it."""
    def value(found):
        return "$" if found[0] == "$$" else variables[found[1] or found[2]]

    return re.sub(r"\$\$|\$[({](\w+)[)}]|\$([@<])", value, line.lstrip("\t @")).replace("\0", BREAK)


def assigned(text, name):
    """The value of a variable of a Makefile."""
    return re.search(rf"^{name} ?= ?(.*)", text.replace(BREAK, " "), re.M)[1]
