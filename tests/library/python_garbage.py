"""Gives the module `ti` what no program should: copies, pickles, objects that were never made,
attributes set from outside, numbers out of range, and threads.

Each attempt runs in a process of its own. It fails if the process is killed by a signal, as by a
block that is freed twice, or if the attempt is to be refused or to give a value, and does not. The
last line counts the attempts and those that failed. TERMINFO names a directory with `dumb`.
"""

import copy
import gc
import os
import pickle
import sys
import threading

import ti

class LongBytes(bytes):
    """Bytes that claim to be 16 megabytes."""

    def __len__(self):
        return 2**24

    def __bytes__(self):
        return self


class LongText(str):
    """A text that claims to be 16 megabytes."""

    def encode(self, *_, **__):
        return LongBytes(b"x")


# an object of each type that an argument or an attribute is not to be
GARBAGE = (
    None, -1, 2**80, 1.5, "x", b"x", b"\x1a\x01", [], {}, object(), ti.Entry, lambda: None, LongBytes(b"x"), LongText("x"),
    LongBytes(ti.Entry.find("dumb").data),
)


def entry():
    return ti.Entry.find("dumb")


def string():
    return ti.String(b"%p1%d;%p2%s$<5>", entry())


def used(made):
    """Uses an entry in each way. Gives what it says."""
    values = [bytes(value) if isinstance(value, ti.String) else value for value in made.values()]
    sent = [made[name].padded(24, 9600) for name in made if isinstance(made[name], ti.String)]
    called = ti.String(b"%p1%PA%gA%d", made)(7)
    return repr(made), made.names, made.long_name, made.path, made.flags, values, sent, called, list(made), len(made)


def refused(*errors):
    """An attempt that has to raise one of these errors."""
    def wrap(attempt):
        def run():
            try:
                attempt()
            except errors as error:
                return bool(str(error))
            return False
        run.__name__ = attempt.__name__
        return run
    return wrap


def copied_entries():
    made = entry()
    made["cup" if "cup" in made else "bel"]
    others = [copy.copy(made), copy.deepcopy(made), pickle.loads(pickle.dumps(made))]
    others += [pickle.loads(pickle.dumps(made, protocol)) for protocol in range(pickle.HIGHEST_PROTOCOL + 1)]
    wanted = used(made)
    return all(used(other) == wanted and other is not made and other == made for other in others)


def copies_outlive_the_entry():
    made = entry()
    wanted, others = used(made), [copy.copy(made), copy.deepcopy(made)]
    del made
    gc.collect()
    return all(used(other) == wanted for other in others)


def copied_strings():
    text = string()
    others = [copy.copy(text), copy.deepcopy(text)]
    others += [pickle.loads(pickle.dumps(text, protocol)) for protocol in range(pickle.HIGHEST_PROTOCOL + 1)]
    return all(other == text and other.expanded(1, "a") == b"1;a$<5>" and other.parameters == (int, bytes) for other in others)


def copies_keep_variables():
    made = entry()
    ti.String(b"%p1%PA", made)(42)
    other = copy.copy(made)
    ti.String(b"%p1%PA", other)(7)
    return ti.String(b"%gA%d", made).expanded() == b"42" and ti.String(b"%gA%d", other).expanded() == b"7"


def entry_made_twice():
    made = entry()
    text = made["bel"]
    made.__init__(made.data)
    try:
        made.__init__(b"no entry")
    except ti.BadEntry:
        pass
    return used(made) and text.padded() == b"\a"


@refused(AttributeError)
def entry_never_made():
    used(ti.Entry.__new__(ti.Entry))


@refused(AttributeError, TypeError)
def string_of_an_entry_never_made():
    ti.String(b"%p1%d", ti.Entry.__new__(ti.Entry))(1)


def entry_changed():
    made = entry()
    ti.String(b"%p1%PA", made)(42)
    changed = made.changed({"Smulx": "<%p1%d>", "XX": b"", "colors": 1 << 24, "am": False, "bel": None, "Tc": True})
    again = pickle.loads(pickle.dumps(changed)).changed({})
    is_same = again == changed and again.data == changed.data and used(again) and changed.path is None
    values = [changed["Smulx"](3), changed["XX"], changed.number("colors"), changed.flag("Tc"), changed.string("bel")]
    kept = ti.String(b"%gA%d", changed).expanded() == b"42" and made.string("bel") == b"\a"
    return is_same and kept and values == [b"<3>", b"", 1 << 24, True, None] and "am" not in changed and changed.names == made.names


def refused_changes_say_which():
    wanted = {"a b": "a b: No capability can have the name", "cup": "cup: The capability cannot have the value",
              "XX": "The entry would have more bytes than its limit", "X\0": "X\0: No capability can have the name"}
    for name, value in (("a b", True), ("cup", 1), ("XX", b"x" * 40000), ("X\0", 1)):
        try:
            entry().changed({"Tc": True, name: value})
        except ti.BadChange as error:
            if str(error) == wanted[name]:
                continue
        return False
    return True


@refused(TypeError)
def changed_to_a_float():
    entry().changed({"cols": 1.5})


@refused(OverflowError)
def changed_to_a_number_over_31_bits():
    entry().changed({"cols": 2**31})


def bytes_with_another_length():
    """A subclass is taken for the bytes that it has."""
    data = entry().data
    wanted = used(ti.Entry(data))
    made = ti.Entry(LongBytes(data))
    text = ti.String(LongBytes(b"%p1%d;%p2%s"), made)
    changed = made.changed({LongText("XX"): LongBytes(b"y"), "YY": LongText("z")})
    values = [text(1, LongBytes(b"a")), text(1, LongText("b")), changed["XX"], changed["YY"], made.flag(LongText("am"))]
    return used(made) == wanted and type(made.data) is bytes and values == [b"1;a", b"1;b", b"y", b"z", True]


class LongString(ti.String):
    """A string that claims to be 16 megabytes."""

    def __len__(self):
        return 2**24

    def __bytes__(self):
        return LongBytes(b"x")


def string_with_another_length():
    text = LongString(b"%p1%d$<5>", entry())
    return text.parameters == (int,) and text(7) == b"7" and list(text.expanded(7).timed()) == [(b"7", 0.005), (b"", 0.0)]


@refused(TypeError)
def string_of_no_entry():
    ti.String(b"x", None)


@refused(AttributeError)
def string_never_made():
    bytes.__new__(ti.String, b"%p1%d")(1)


def deleted_twice():
    made = entry()
    for _ in range(2):
        getattr(made, "__del__", lambda: None)()
    return used(made)


def each_attribute_set():
    """Each attribute of an entry and of a string set to garbage, and the object used then."""
    names = [name for name in dir(ti.Entry) if not name.startswith("__")]
    for name in [*names, "_handle", "_extension", "_entry"]:
        for value in (*GARBAGE, (0,) * 5, ("x",) * 26, (2**40,) * 26):
            made = entry()
            text = made["bel"]
            for changed in (made, text):
                try:
                    setattr(changed, name, value)
                except (AttributeError, TypeError):
                    continue
            for use in (used, copy.copy, copy.deepcopy, pickle.dumps, lambda made, text=text: text(1, lines=2, rate=9600)):
                try:
                    use(made)
                except Exception:
                    pass
    return True


def each_attribute_deleted():
    for name in [name for name in dir(ti.Entry) if not name.startswith("__")]:
        made = entry()
        try:
            delattr(made, name)
            used(made)
        except Exception:
            pass
    return True


def each_argument_garbage():
    """Each call with garbage: what comes of it is a value or an exception."""
    made = entry()
    text = string()
    calls = (
        ti.Entry, ti.Entry.find, ti.name_of_variable, lambda value: ti.name_of_code(value, "cm"),
        lambda value: ti.name_of_code(ti.STRING, value), made.flag, made.number, made.string, made.get, text.expanded,
        text.padded, lambda value: text.padded(1, value), lambda value: list(text.timed(value)), lambda value: text(1, value),
        lambda value: list(text.timed(1, value)), lambda value: ti.String(value, made)(1), lambda value: ti.String(b"", value),
        made.changed, lambda value: made.changed({value: True}), lambda value: made.changed({"XX": value}),
        lambda value: made.changed({"bel": value}), lambda value: made.changed({"cols": value}),
    )
    for call in calls:
        for value in GARBAGE:
            try:
                call(value)
            except Exception:
                pass
    return True


def subclasses():
    class Own(ti.Entry):
        def __init__(self, data, note="none"):
            super().__init__(data)
            self.note = note

    class Unmade(ti.Entry):
        def __init__(self):
            pass

    globals()["Own"] = Own
    Own.__qualname__ = "Own"
    made = Own(entry().data, "mine")
    other = copy.copy(made)
    found = Own.find("dumb")
    try:
        used(Unmade())
    except AttributeError:
        pass
    return other.note == "mine" and used(other) == used(made) and type(found) is Own and used(found)


@refused(TypeError, pickle.UnpicklingError, AttributeError, ti.BadEntry)
def pickle_of_other_arguments():
    restore, (kind, _, path, _), *_ = entry().__reduce__()
    restore(kind, b"no entry", path, "x")


@refused(OverflowError)
def number_over_32_bits():
    string()(2**31, "a")


@refused(OverflowError)
def number_below_32_bits():
    string()(-(2**31) - 1, "a")


@refused(OverflowError)
def lines_below_0():
    string().padded(-1)


@refused(OverflowError)
def rate_over_32_bits():
    string().padded(1, 2**32)


@refused(OverflowError)
def kind_below_0():
    ti.name_of_code(-1, "cm")


@refused(TypeError)
def number_for_a_string():
    string()(1, 2)


@refused(TypeError)
def string_not_given():
    string()(1)


@refused(TypeError)
def string_for_a_number():
    string()("1", "a")


@refused(ti.NoTerminal)
def name_with_a_nul():
    ti.Entry.find("dumb\0")


@refused(ti.NoTerminal)
def name_that_is_no_text():
    ti.Entry.find("\udcff\ud800")


def refused_names_say_why():
    said = []
    for name in ("", "a/b", "no-such", "a b"):
        try:
            ti.Entry.find(name)
        except ti.NoTerminal as error:
            said.append(str(error))
    os.environ.pop("TERM", None)
    try:
        ti.Entry.find()
    except ti.NoTerminal as error:
        said.append(str(error))
    return len(set(said)) == 5 and "is not set" in said[4]


def entry_freed_while_its_delays_are_read():
    delays = string().timed(1, 0)
    next(delays)
    gc.collect()
    return next(delays) == (b"", 0.0)


def threads():
    made, faults = entry(), []
    wanted = used(made)

    def work():
        for _ in range(50):
            if used(copy.copy(made)) != wanted or made["bel"].padded() != b"\a":
                faults.append("differs")

    workers = [threading.Thread(target=work) for _ in range(8)]
    for worker in workers:
        worker.start()
    for worker in workers:
        worker.join()
    return not faults


def values_by_kind():
    made = entry()
    kinds = (made.flag("am"), made.flag("auto_right_margin"), made.flag("bw"), made.number("cols"), made.number("co"))
    return kinds == (True, True, False, 80, 80) and made.number("lines") is None and made.string("bl") == b"\a"


@refused(KeyError)
def number_asked_as_a_boolean():
    entry().flag("cols")


def library_of_another_version():
    """The module refuses a library whose structs may differ."""
    version, ti.__version__ = ti.__version__, "1.9.0"
    try:
        ti._library()
    except ImportError:
        return True
    finally:
        ti.__version__ = version
    return False


ATTEMPTS = [
    entry_changed, refused_changes_say_which, changed_to_a_float, changed_to_a_number_over_31_bits,
    copied_entries, copies_outlive_the_entry, copied_strings, copies_keep_variables, entry_made_twice, entry_never_made,
    string_of_an_entry_never_made, string_of_no_entry, string_never_made, deleted_twice, each_attribute_set,
    each_attribute_deleted, each_argument_garbage, subclasses, pickle_of_other_arguments, number_over_32_bits,
    number_below_32_bits, lines_below_0, rate_over_32_bits, kind_below_0, number_for_a_string, string_not_given,
    string_for_a_number, bytes_with_another_length, string_with_another_length, name_with_a_nul, name_that_is_no_text, refused_names_say_why,
    entry_freed_while_its_delays_are_read, threads, values_by_kind, number_asked_as_a_boolean, library_of_another_version,
]


def outcome(attempt):
    """The status of a process that makes an attempt; negative if a signal ends it."""
    sys.stdout.flush()
    child = os.fork()
    if child == 0:
        status = 1
        try:
            status = 0 if attempt() else 1
            # what is freed at the end is freed here
            gc.collect()
        except BaseException as error:
            print(f"{attempt.__name__}: {error!r}", flush=True)
        os._exit(status)
    return os.waitstatus_to_exitcode(os.waitpid(child, 0)[1])


def main():
    failed = 0
    for attempt in ATTEMPTS:
        status = outcome(attempt)
        if status:
            failed += 1
            print(f"{attempt.__name__}: status {status}")
    print(f"{len(ATTEMPTS)} attempts, {failed} failed")
    return 1 if failed else 0


if __name__ == "__main__":
    sys.exit(main())
