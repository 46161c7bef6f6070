"""Terminfo entries by libti: look-ups, parameter strings and padding.

    >>> import ti
    >>> entry = ti.Entry.find("xterm-256color")
    >>> entry.number("colors")
    256
    >>> entry["setaf"](2)
    b'\\x1b[32m'
    >>> entry.flag("am"), "am" in entry.flags
    (True, True)
    >>> list(entry["flash"].timed())
    [(b'\\x1b[?5h', 0.1), (b'\\x1b[?5l', 0.0)]
    >>> entry.string("XM")
    b'\\x1b[?1006;1000%?%p1%{1}%=%th%el%;'
    >>> entry.long_name
    'xterm with 256 colors'
    >>> changed = entry.changed({"Smulx": b"\\x1b[4:%p1%dm", "colors": 1 << 24, "smcup": None})
    >>> changed["Smulx"](3), changed.number("colors"), "smcup" in changed
    (b'\\x1b[4:3m', 16777216, False)

It calls the shared library `libti.so.2` by ctypes: the file next to this one, or else the installed
one; the variable LIBTI of the environment names another file. The library does all work on entries:
see ti(3). An entry holds its bytes and its values as objects of Python and no memory of
the library, so it can be copied, pickled and used by several threads.
"""

from __future__ import annotations

import ctypes
import os
from collections.abc import Callable, Iterator, Mapping
from typing import Any, NoReturn, Optional, Union

__all__ = [
    "FLAG", "FLAG_NAMES", "NUMBER", "NUMBER_NAMES", "STRING", "STRING_NAMES", "BadChange", "BadEntry", "BadString",
    "Entry", "Error", "NoTerminal", "String", "name_of_code", "name_of_variable",
]
__version__ = "2.0.0"

FLAG, NUMBER, STRING = 0, 1, 2
# enum ti_status of ti.h
_OK, _NO_MEMORY, _NO_TERMINAL, _READ_FAILED = 0, 9, 10, 11
_BAD_FORMAT, _STACK_FULL, _NO_ROOM = 13, 14, 15
_BAD_NAME, _TERM_UNSET, _EMPTY_NAME, _PATH_NAME = 17, 21, 22, 23
_BAD_CAPABILITY, _BAD_VALUE = 25, 26
_NAMELESS = (_NO_TERMINAL, _BAD_NAME, _TERM_UNSET, _EMPTY_NAME, _PATH_NAME)
_VARIABLES = 26
_ROOM = 256
# the most bytes of an entry that is written
_ENTRY_MAX = 32768


class Error(Exception):
    """What this module raises, but for MemoryError, OSError, KeyError, TypeError and
    OverflowError."""


class NoTerminal(Error, LookupError):
    """No terminal has the name, or none is given."""


class BadEntry(Error, ValueError):
    """The bytes are not a compiled entry."""


class BadString(Error, ValueError):
    """The string cannot be expanded or padded."""


class BadChange(Error, ValueError):
    """An entry cannot have the change."""


class _Text(ctypes.Structure):
    _fields_ = [("bytes", ctypes.c_void_p), ("size", ctypes.c_size_t)]

    def value(self) -> bytes:
        return ctypes.string_at(self.bytes, self.size) if self.size else b""


class _Place(ctypes.Structure):
    _fields_ = [("kind", ctypes.c_uint32), ("index", ctypes.c_uint32)]


class _Entry(ctypes.Structure):
    """An entry of the library: the last section is all of its bytes."""

    _fields_ = [("wide", ctypes.c_bool), ("sections", _Text * 6)]
    kept: bytes


class _Extension(ctypes.Structure):
    """The user-defined capabilities of an entry: the library alone looks into it."""

    _fields_ = [("wide", ctypes.c_bool), ("sections", _Text * 6)]


class _Found(ctypes.Structure):
    _fields_ = [
        ("kind", ctypes.c_uint32),
        ("is_present", ctypes.c_bool),
        ("number", ctypes.c_uint32),
        ("text", _Text),
    ]


class _Change(ctypes.Structure):
    _fields_ = [("name", _Text), ("value", _Found)]


class _Parameter(ctypes.Structure):
    _fields_ = [("kind", ctypes.c_uint32), ("number", ctypes.c_int32), ("text", _Text)]


class _Parameters(ctypes.Structure):
    _fields_ = [
        ("named", ctypes.c_size_t),
        ("popped", ctypes.c_size_t),
        ("strings", ctypes.c_bool * 9),
    ]


class _Variables(ctypes.Structure):
    _fields_ = [("values", ctypes.c_int32 * _VARIABLES)]


class _Outcome(ctypes.Structure):
    _fields_ = [("status", ctypes.c_uint32), ("size", ctypes.c_size_t)]


class _Line(ctypes.Structure):
    _fields_ = [
        ("rate", ctypes.c_uint32),
        ("pad_from", ctypes.c_uint32),
        ("xon", ctypes.c_bool),
        ("has_pad_byte", ctypes.c_bool),
        ("pad_byte", ctypes.c_uint8),
    ]


class _Delay(ctypes.Structure):
    _fields_ = [("before", _Text), ("after", _Text), ("tenths", ctypes.c_uint64)]


def _types() -> dict[str, tuple[Any, list[Any]]]:
    """The type of each call's result, and those of its arguments."""
    size, text, place = ctypes.c_size_t, ctypes.POINTER(_Text), ctypes.POINTER(_Place)
    u32, data, entry = ctypes.c_uint32, ctypes.c_char_p, ctypes.POINTER(_Entry)
    extension, found = ctypes.POINTER(_Extension), ctypes.POINTER(_Found)
    line, pointers = ctypes.POINTER(_Line), ctypes.POINTER(ctypes.c_void_p)
    return {
        "ti_capability": (ctypes.c_bool, [data, size, place]),
        "ti_name": (ctypes.c_bool, [u32, u32, text]),
        "ti_capability_by_variable": (ctypes.c_bool, [data, size, place]),
        "ti_capability_by_code": (ctypes.c_bool, [u32, data, size, place]),
        "ti_entry_read": (u32, [data, size, entry]),
        "ti_open_path": (u32, [data, ctypes.POINTER(entry), pointers]),
        "ti_entry_free": (None, [entry]),
        "ti_names": (None, [entry, text]),
        "ti_flag": (ctypes.c_int32, [entry, u32]),
        "ti_number": (ctypes.c_int64, [entry, u32]),
        "ti_string": (ctypes.c_int32, [entry, u32, text]),
        "ti_extension_read": (u32, [entry, extension]),
        "ti_user_defined": (ctypes.c_bool, [extension, size, text, found]),
        "ti_entry_write": (
            _Outcome, [entry, extension, data, size, ctypes.POINTER(_Change), size, data, size],
        ),
        "ti_line_of": (None, [entry, u32, line]),
        "ti_parameters_of": (ctypes.c_bool, [data, size, ctypes.POINTER(_Parameters)]),
        "ti_named_format": (_Outcome, [data, size, data, size]),
        "ti_expand": (
            _Outcome,
            [data, size, ctypes.POINTER(_Parameter), size, ctypes.POINTER(_Variables), data, size],
        ),
        "ti_pad": (_Outcome, [data, size, u32, line, data, size]),
        "ti_first_delay": (ctypes.c_bool, [ctypes.c_void_p, size, u32, line, ctypes.POINTER(_Delay)]),
        "ti_strerror": (ctypes.c_char_p, [u32]),
    }


def _library_name() -> str:
    """The file of the library, or its name for the loader."""
    beside = os.path.join(os.path.dirname(os.path.abspath(__file__)), "libti.so.2")
    return os.environ.get("LIBTI") or (beside if os.path.exists(beside) else "libti.so.2")


def _library() -> ctypes.CDLL:
    """The library, with the types of its calls."""
    name = _library_name()
    library = ctypes.CDLL(name, use_errno=True)
    library.ti_version.restype = ctypes.c_char_p
    version = library.ti_version().decode()
    if version.partition(".")[0] != __version__.partition(".")[0]:
        raise ImportError(f"{name} has version {version} of libti, and this module needs {__version__}")
    for call, (result, arguments) in _types().items():
        function = getattr(library, call)
        function.restype, function.argtypes = result, arguments
    return library


_ti = _library()
_free = ctypes.CDLL(None).free
_free.restype, _free.argtypes = None, [ctypes.c_void_p]


def _sentence(status: int) -> str:
    """The library's sentence for a status."""
    return str(_ti.ti_strerror(status), "ascii")


def _number(value: int, least: int, most: int, what: str) -> int:
    """A number that C has room for."""
    if not isinstance(value, int):
        raise TypeError(f"{what} is an int, not {type(value).__name__}")
    if not least <= value <= most:
        raise OverflowError(f"{what} is {value}, and has to be from {least} to {most}")
    return value


def _unsigned(value: int, what: str) -> int:
    return _number(value, 0, 2**32 - 1, what)


def _exact(value: bytes) -> bytes:
    """The same bytes, of no subclass: one may give another length than it has."""
    return b"".join((value,))


def _bytes_of_name(name: str, what: str) -> bytes:
    """The bytes of a name. A text that is not valid has bytes that no name has."""
    if not isinstance(name, str):
        raise TypeError(f"{what} is a str, not {type(name).__name__}")
    return str.encode(name, errors="surrogatepass")


def _names_of(kind: int) -> list[str]:
    """The names of the capabilities of a kind, by index."""
    names: list[str] = []
    text = _Text()
    while _ti.ti_name(kind, len(names), ctypes.byref(text)):
        names.append(text.value().decode("ascii"))
    return names


FLAG_NAMES, NUMBER_NAMES, STRING_NAMES = (_names_of(kind) for kind in (FLAG, NUMBER, STRING))
_KINDS = {
    **dict.fromkeys(FLAG_NAMES, FLAG), **dict.fromkeys(NUMBER_NAMES, NUMBER), **dict.fromkeys(STRING_NAMES, STRING),
}


def _name_at(place: _Place) -> str:
    kind: int = place.kind
    index: int = place.index
    return (FLAG_NAMES, NUMBER_NAMES, STRING_NAMES)[kind][index]


def name_of_variable(variable: str) -> Optional[str]:
    """The name of the capability with a variable of terminfo(5): "cup" for "cursor_address"."""
    place, key = _Place(), _bytes_of_name(variable, "a variable")
    is_found = _ti.ti_capability_by_variable(key, len(key), ctypes.byref(place))
    return _name_at(place) if is_found else None


def name_of_code(kind: int, code: str) -> Optional[str]:
    """The name of the last capability of a kind with a code of termcap: "cup" for STRING, "cm"."""
    place, key = _Place(), _bytes_of_name(code, "a code")
    is_found = _ti.ti_capability_by_code(_unsigned(kind, "a kind"), key, len(key), ctypes.byref(place))
    return _name_at(place) if is_found else None


def _written(what: bytes, call: Callable[[ctypes.Array[ctypes.c_char], int], Any]) -> bytes:
    """The bytes that a call writes, in the room that it needs."""
    room = _ROOM
    while True:
        buffer = ctypes.create_string_buffer(room)
        outcome = call(buffer, room)
        if outcome.status == _OK:
            return buffer.raw[: outcome.size]
        if outcome.status == _NO_MEMORY:
            raise MemoryError
        if outcome.status == _BAD_FORMAT:
            raise BadString(f"{what!r}: no code of a format begins at byte {outcome.size}")
        if outcome.status == _STACK_FULL:
            raise BadString(f"{what!r}: the stack is full at byte {outcome.size}")
        if outcome.status != _NO_ROOM:
            raise BadString(f"{what!r}: {_sentence(outcome.status)}")
        room = outcome.size


Given = Union[int, bytes, str]


class String(bytes):
    """A string of an entry: its bytes, which a call expands with parameters.

    A string without a parameter is to be sent as it is, padded: see `padded`.
    """

    _entry: Entry

    def __new__(cls, value: bytes, entry: Entry) -> String:
        if not isinstance(entry, Entry):
            raise TypeError(f"a string is of an Entry, not of {type(entry).__name__}")
        made = super().__new__(cls, value)
        made._entry = entry
        return made

    def __reduce__(self) -> tuple[Any, ...]:
        return type(self), (bytes(self), self._entry)

    def __call__(self, *parameters: Given, lines: int = 1, rate: int = 0) -> bytes:
        """The bytes that drive the terminal for these parameters, padded: see `expanded`."""
        return self.expanded(*parameters).padded(lines, rate)

    def _taken(self) -> _Parameters:
        taken, data = _Parameters(), _exact(self)
        _ti.ti_parameters_of(data, len(data), ctypes.byref(taken))
        return taken

    @property
    def parameters(self) -> tuple[type, ...]:
        """The type of each parameter that the string takes, `int` or `bytes`; none for a string
        that is not a format, as one with a plain `%`."""
        taken = self._taken()
        count = taken.named or taken.popped
        return tuple(bytes if taken.strings[at] else int for at in range(count))

    def _format(self) -> bytes:
        """The format that takes each parameter by its number."""
        data = _exact(self)
        return _written(data, lambda out, room: _ti.ti_named_format(data, len(data), out, room))

    def _check(self, parameters: tuple[Given, ...]) -> None:
        """Whether each parameter is of the type that the string takes."""
        taken = self._taken()
        for at in range(taken.named):
            is_text = at < len(parameters) and not isinstance(parameters[at], int)
            if is_text != taken.strings[at]:
                wanted = "a string" if taken.strings[at] else "a number"
                raise TypeError(f"{_exact(self)!r}: parameter {at + 1} has to be {wanted}")

    def expanded(self, *parameters: Given) -> String:
        """The bytes that drive the terminal for these parameters, with their delays as they are. A
        number that is not given is 0, and parameters after the ninth are not looked at."""
        self._check(parameters)
        given = (_Parameter * max(len(parameters), 1))()
        kept = [_fill(given[at], value) for at, value in enumerate(parameters)]
        entry, data = self._entry, self._format()
        variables = entry._expansion_variables()
        expanded = _written(
            _exact(self),
            lambda out, room: _ti.ti_expand(
                data, len(data), given, len(parameters), ctypes.byref(variables), out, room
            ),
        )
        del kept
        entry._variables = tuple(variables.values)
        return type(self)(expanded, entry)

    def padded(self, lines: int = 1, rate: int = 0) -> bytes:
        """The bytes with each padding as pad bytes, if it takes effect on `lines` lines and the
        line to the terminal has `rate` bits per second."""
        line, data, affected = self._entry._line(rate), _exact(self), _unsigned(lines, "lines")
        return _written(data, lambda out, room: _ti.ti_pad(data, len(data), affected, ctypes.byref(line), out, room))

    def timed(self, lines: int = 1, rate: int = 0) -> Iterator[tuple[bytes, float]]:
        """The bytes up to each delay, with its seconds, and the last bytes with 0.0: for programs
        that sleep where the terminal has no pad byte."""
        line, delay, affected = self._entry._line(rate), _Delay(), _unsigned(lines, "lines")
        rest = _Text()
        kept = _point(rest, _exact(self))
        while _ti.ti_first_delay(rest.bytes, rest.size, affected, ctypes.byref(line), ctypes.byref(delay)):
            yield delay.before.value(), delay.tenths / 10000
            rest = _Text(delay.after.bytes, delay.after.size)
        yield rest.value(), 0.0
        del kept


def _point(text: _Text, value: bytes) -> Any:
    """Points to bytes. What is returned has to be kept as long as the text."""
    kept = ctypes.create_string_buffer(value, max(len(value), 1))
    text.bytes, text.size = ctypes.addressof(kept), len(value)
    return kept


def _bytes_of(value: Union[str, bytes], what: str) -> bytes:
    """The bytes of a string that is given."""
    if not isinstance(value, (str, bytes)):
        raise TypeError(f"{what} is an int, bytes or a str, not {type(value).__name__}")
    return str.encode(value, errors="surrogateescape") if isinstance(value, str) else _exact(value)


def _fill(given: Any, value: Given) -> Any:
    """Fills in one parameter. What is returned has to be kept as long as the parameter."""
    if isinstance(value, int):
        given.kind, given.number = 0, _number(value, -(2**31), 2**31 - 1, "a parameter")
        return None
    given.kind = 1
    return _point(given.text, _bytes_of(value, "a parameter"))


NewValue = Union[bool, int, bytes, str, None]


def _fill_change(change: Any, name: str, new: NewValue) -> Any:
    """Fills in one change. What is returned has to be kept as long as the change."""
    kept, value = [_point(change.name, _bytes_of_name(name, "the name of a capability"))], change.value
    if new is None or new is False:
        return kept
    value.is_present = True
    if new is True:
        value.kind, value.number = FLAG, 1
    elif isinstance(new, int):
        value.kind, value.number = NUMBER, _number(new, 0, 2**31 - 1, "a number")
    else:
        value.kind = STRING
        kept.append(_point(value.text, _bytes_of(new, "a value")))
    return kept


Value = Union[bool, int, String]
# what an entry holds of a capability
_Held = Union[bool, int, bytes]


def _read(data: bytes) -> _Entry:
    """The entry that bytes are, which points into them and keeps them."""
    if not isinstance(data, bytes):
        raise TypeError(f"an entry is read from bytes, not from {type(data).__name__}")
    entry = _Entry()
    entry.kept = kept = _exact(data)
    refusal = _ti.ti_entry_read(kept, len(kept), ctypes.byref(entry))
    if refusal:
        raise BadEntry(_sentence(refusal))
    return entry


def _table_values(entry: _Entry) -> Iterator[tuple[str, _Held]]:
    """The capabilities of the tables that an entry has."""
    at, text = ctypes.byref(entry), _Text()
    for index, name in enumerate(FLAG_NAMES):
        if _ti.ti_flag(at, index) == 1:
            yield name, True
    for index, name in enumerate(NUMBER_NAMES):
        number = _ti.ti_number(at, index)
        if number >= 0:
            yield name, number
    for index, name in enumerate(STRING_NAMES):
        if _ti.ti_string(at, index, ctypes.byref(text)) == 1:
            yield name, text.value()


def _user_values(entry: _Entry) -> Iterator[tuple[str, _Held]]:
    """The user-defined capabilities that an entry has; none if what follows it is malformed."""
    extension, name, found = _Extension(), _Text(), _Found()
    if _ti.ti_extension_read(ctypes.byref(entry), ctypes.byref(extension)):
        return
    index = 0
    while _ti.ti_user_defined(ctypes.byref(extension), index, ctypes.byref(name), ctypes.byref(found)):
        if found.is_present:
            value = (True, found.number, found.text.value())[found.kind]
            yield name.value().decode("ascii"), value
        index += 1


class Entry(Mapping[str, Value]):
    """A compiled entry: the capabilities that it has, by their names.

    A boolean is there if it is set; a number or a string if it is neither absent nor cancelled.
    User-defined capabilities, as `Tc`, come after those of the tables.
    """

    __slots__ = ("_data", "_names", "_values", "_variables", "_path", "__weakref__")

    _data: bytes
    _names: bytes
    _values: dict[str, _Held]
    _variables: tuple[int, ...]
    _path: Optional[str]

    def __init__(self, data: bytes) -> None:
        """Reads a compiled entry. Raises BadEntry with the reason if the bytes are not one."""
        entry, text = _read(data), _Text()
        _ti.ti_names(ctypes.byref(entry), ctypes.byref(text))
        self._names = text.value()
        self._values = {**dict(_table_values(entry)), **dict(_user_values(entry))}
        self._data, self._variables, self._path = entry.kept, (0,) * _VARIABLES, None

    @classmethod
    def find(cls, name: Optional[str] = None) -> Entry:
        """The entry of a terminal, or of TERM, from the first directory that has one. Raises
        NoTerminal if there is none, BadEntry or OSError if that is due to a file."""
        wanted = None if name is None else _bytes_of_name(name, "the name of a terminal")
        if wanted is not None and b"\0" in wanted:
            raise NoTerminal(f"{name!r}: {_sentence(_BAD_NAME)}")
        handle, path = ctypes.POINTER(_Entry)(), ctypes.c_void_p()
        status = _ti.ti_open_path(wanted, ctypes.byref(handle), ctypes.byref(path))
        number = ctypes.get_errno()
        where = os.fsdecode(ctypes.string_at(path.value)) if path.value else None
        _free(path)
        if status:
            _refuse(status, os.environ.get("TERM") if name is None else name, where, number)
        data = handle.contents.sections[5].value()
        _ti.ti_entry_free(handle)
        return _restored(cls, data, where, (0,) * _VARIABLES)

    def __reduce__(self) -> tuple[Any, ...]:
        state = getattr(self, "__dict__", None) or None
        return _restored, (type(self), self._data, self._path, self._variables), state

    def changed(self, changes: Mapping[str, NewValue]) -> Entry:
        """The entry with other values, by the names of terminfo or user-defined names: True, a
        number, bytes or a str; None or False takes away what it has. What is not named is as
        before. Raises BadChange if no capability can have a name or a value, or if the entry would
        be too large. Its `data` is the compiled entry."""
        items = list(dict(changes).items())
        given = (_Change * max(len(items), 1))()
        kept = [_fill_change(given[at], name, value) for at, (name, value) in enumerate(items)]
        names = _exact(self._names)
        entry, extension, room = _read(self._data), _Extension(), ctypes.create_string_buffer(_ENTRY_MAX)
        refusal = _ti.ti_extension_read(ctypes.byref(entry), ctypes.byref(extension))
        if refusal:
            raise BadEntry(_sentence(refusal))
        outcome = _ti.ti_entry_write(
            ctypes.byref(entry), ctypes.byref(extension), names, len(names), given, len(items), room, _ENTRY_MAX
        )
        del kept
        if outcome.status == _NO_MEMORY:
            raise MemoryError
        if outcome.status in (_BAD_CAPABILITY, _BAD_VALUE):
            raise BadChange(f"{items[outcome.size][0]}: {_sentence(outcome.status)}")
        if outcome.status != _OK:
            raise BadChange(_sentence(outcome.status))
        return _restored(type(self), room.raw[: outcome.size], None, self._variables)

    def _expansion_variables(self) -> _Variables:
        """The static variables, as the library takes them."""
        variables = _Variables()
        variables.values[:] = self._variables
        return variables

    def _line(self, rate: int) -> _Line:
        """The line to the terminal of the entry."""
        line, entry = _Line(), _read(self._data)
        _ti.ti_line_of(ctypes.byref(entry), _unsigned(rate, "a rate"), ctypes.byref(line))
        return line

    @property
    def data(self) -> bytes:
        """The bytes of the compiled entry."""
        return self._data

    @property
    def path(self) -> Optional[str]:
        """The path of the file in which `find` found the entry."""
        return self._path

    @property
    def names(self) -> list[str]:
        """The names, the description last."""
        return self._names.decode(errors="surrogateescape").split("|")

    @property
    def long_name(self) -> str:
        """The description: the last of the names."""
        return self.names[-1]

    @property
    def flags(self) -> frozenset[str]:
        """The names of the booleans that are set."""
        return frozenset(name for name, value in self._values.items() if value is True)

    def _named(self, kind: int, name: str) -> Optional[_Held]:
        """The value of a capability of a kind, by its name, its variable or its code of termcap."""
        _bytes_of_name(name, "the name of a capability")
        value = self._values.get(name)
        if value is not None and _kind_of(value) == kind:
            return value
        if value is not None or _KINDS.get(name, kind) != kind:
            raise KeyError(f"{name} is not {('a boolean', 'a number', 'a string')[kind]}")
        if name in _KINDS:
            return None
        other = name_of_variable(name)
        if other is None or _KINDS[other] != kind:
            other = name_of_code(kind, name)
        return None if other is None else self._values.get(other)

    def flag(self, name: str) -> bool:
        """Whether a boolean is set. It is given by its name, its variable or its code of termcap.
        Raises KeyError for the name of a capability of another kind."""
        return self._named(FLAG, name) is True

    def number(self, name: str) -> Optional[int]:
        """A number, or None if the entry does not have it; see `flag`."""
        value = self._named(NUMBER, name)
        return value if isinstance(value, int) else None

    def string(self, name: str) -> Optional[String]:
        """A string, or None if the entry does not have it; see `flag`."""
        value = self._named(STRING, name)
        return String(value, self) if isinstance(value, bytes) else None

    def __getitem__(self, name: str) -> Value:
        value = self._values[name]
        return String(value, self) if isinstance(value, bytes) else value

    def __iter__(self) -> Iterator[str]:
        return iter(list(self._values))

    def __len__(self) -> int:
        return len(self._values)

    def __repr__(self) -> str:
        return f"<ti.Entry {self.names[0]!r}>"


def _kind_of(value: _Held) -> int:
    if value is True:
        return FLAG
    return NUMBER if isinstance(value, int) else STRING


def _restored(cls: type[Entry], data: bytes, path: Optional[str], variables: tuple[int, ...]) -> Entry:
    """An entry that was found, copied or pickled."""
    entry = cls.__new__(cls)
    Entry.__init__(entry, data)
    entry._path, entry._variables = path, variables
    return entry


def _refuse(status: int, name: Optional[str], path: Optional[str], number: int) -> NoReturn:
    """Raises what a status of a search means, of a name or of the file at a path."""
    if status == _NO_MEMORY:
        raise MemoryError
    if status == _READ_FAILED:
        raise OSError(number, os.strerror(number), path)
    if status in _NAMELESS:
        raise NoTerminal(f"{name}: {_sentence(status)}" if name else _sentence(status))
    raise BadEntry(f"{path}: {_sentence(status)}")
