"""The replies of a session."""

import re

from .base import Database

LINE_MAX = 65_536


def replies(script):
    """What a session writes for a script, its status, and the texts that it then holds."""
    database, out = Database(), []
    lines = script.split(b"\n")
    if lines[-1] == b"":
        lines.pop()
    edit = None
    for line in lines:
        if len(line) > LINE_MAX:
            return b"".join(out), 1, database.texts
        if edit is not None:
            if line == b".":
                out.append(outcome(database, (*edit[:2], b"".join(edit[2]))))
                edit = None
            else:
                edit[2].append(line + b"\n")
        elif match := re.fullmatch(rb"([ir]) ([0-9]{1,9})", line):
            edit = (match[1].decode(), int(match[2]), [])
        elif line != b"":
            out.append(reply(database, line))
    if edit is not None:
        out.append(b"unfinished\n")
    return b"".join(out), 0, database.texts


def outcome(database, edit):
    cause = database.apply(edit)
    return b"ok\n" if cause is None else b"refused %s\n" % cause.encode()


def reply(database, line):
    """The reply to a command of one line."""
    if match := re.fullmatch(rb"d ([0-9]{1,9})", line):
        return outcome(database, ("d", int(match[1])))
    if match := re.fullmatch(rb"m ([0-9]{1,9}) ([0-9]{1,9})", line):
        return outcome(database, ("m", int(match[1]), int(match[2])))
    if match := re.fullmatch(rb"p ([0-9]{1,9})", line):
        at = int(match[1])
        if at >= len(database.texts):
            return b"refused Position\n"
        image = database.meaning.images[at]
        return (b"none" if image is None else image.hex().encode()) + b"\n"
    if line == b"f":
        return database.meaning.report() + b".\n"
    if line == b"w":
        return (" ".join(map(str, database.rebuilt)) or "-").encode() + b"\n"
    return b"unknown\n"
