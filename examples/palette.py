"""Writes in color 200 of the terminal, by libti.so.2: python3 palette.py"""

from ctypes import CDLL, Structure, byref, create_string_buffer
from ctypes import c_char_p, c_int32, c_int64, c_size_t, c_uint32, c_void_p
from typing import Optional


class Text(Structure):
    """struct ti_text"""

    _fields_ = [("bytes", c_char_p), ("size", c_size_t)]


class Parameter(Structure):
    """struct ti_parameter"""

    _fields_ = [("kind", c_uint32), ("number", c_int32), ("text", Text)]


class Outcome(Structure):
    """struct ti_outcome"""

    _fields_ = [("status", c_uint32), ("size", c_size_t)]


Variables = c_int32 * 26  # struct ti_variables
ROOM = 256


def opened(ti: CDLL) -> c_void_p:
    """The entry of the terminal that TERM names; the program ends if there is none."""
    entry = c_void_p()
    refusal = ti.ti_open(None, byref(entry))
    if refusal:
        raise SystemExit(f"palette.py: {ti.ti_strerror(refusal).decode()}")
    return entry


def color(ti: CDLL, entry: c_void_p, number: int) -> Optional[bytes]:
    """The bytes that choose a color, or None if the terminal does not have it."""
    text = Text(b"", 0)
    if ti.ti_number_named(entry, b"colors") <= number:
        return None
    if ti.ti_string_named(entry, b"setaf", byref(text)) != 1:
        return None
    given, out = Parameter(0, number, Text(b"", 0)), create_string_buffer(ROOM)
    sent = ti.ti_expand(
        text.bytes, c_size_t(text.size), byref(given), c_size_t(1), Variables(), out, c_size_t(ROOM)
    )
    return None if sent.status else out.raw[: sent.size]


library = CDLL("libti.so.2")
library.ti_expand.restype = Outcome
library.ti_number_named.restype = c_int64
library.ti_strerror.restype = c_char_p
terminal = opened(library)
bytes_sent = color(library, terminal, 200)
library.ti_entry_free(terminal)
if bytes_sent is None:
    raise SystemExit("palette.py: the terminal does not have color 200")
print(bytes_sent.decode() + "color 200")
