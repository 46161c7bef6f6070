"""The bytes of a compiled entry, written and read."""

import struct

from .caps import COUNTS, FLAG, NUMBER, TEXT

PLAIN_MAGIC, EXTENDED_MAGIC = 0x011A, 0x021E
PLAIN_MAX, EXTENDED_MAX = 4_096, 32_768
SHORT_MAX = 32_767
FILE_MAX = 65_536


def image(names, values):
    """The image of the names field and of the values by capability; None if it is too large."""
    last = {kind: 0 for kind in COUNTS}
    for kind, at in values:
        last[kind] = max(last[kind], at + 1)
    extended = any(kind == NUMBER and value > SHORT_MAX for (kind, _), value in values.items())
    flags = bytes(int((FLAG, at) in values) for at in range(last[FLAG]))
    absent = -1 if extended else 0xFFFF
    numbers = [values.get((NUMBER, at), absent) for at in range(last[NUMBER])]
    offsets, table = [], b""
    for at in range(last[TEXT]):
        text = values.get((TEXT, at))
        offsets.append(0xFFFF if text is None else len(table) & 0xFFFF)
        table += b"" if text is None else text + b"\0"
    sizes = (len(names) + 1, last[FLAG], last[NUMBER], last[TEXT], len(table))
    found = struct.pack("<6H", EXTENDED_MAGIC if extended else PLAIN_MAGIC, *(number & 0xFFFF for number in sizes))
    found += names + b"\0" + flags
    found += b"\0" if (len(names) + 1 + last[FLAG]) % 2 else b""
    found += struct.pack(f"<{len(numbers)}{'i' if extended else 'H'}", *numbers)
    found += struct.pack(f"<{len(offsets)}H", *offsets) + table
    return found if len(found) <= (EXTENDED_MAX if extended else PLAIN_MAX) else None


def read_file(content):
    """As `read`, of a file: of one over the limit only so many bytes are seen, and one more."""
    if len(content) <= FILE_MAX:
        return read(content)
    _, refusal = read(content[: FILE_MAX + 1])
    return None, refusal or "Counts"


def read(content):
    """The names and the values of an entry, and None; or None and the first refusal."""
    if len(content) < 12:
        return None, "Short"
    magic, = struct.unpack_from("<H", content)
    if magic not in (PLAIN_MAGIC, EXTENDED_MAGIC):
        return None, "Magic"
    sizes = struct.unpack_from("<5h", content, 2)
    names_len, flag_count, number_count, text_count, table_len = sizes
    counts = (flag_count, number_count, text_count)
    if min(sizes) < 0 or any(count > most for count, most in zip(counts, COUNTS.values())):
        return None, "Counts"
    number_len = 4 if magic == EXTENDED_MAGIC else 2
    flags_at = 12 + names_len
    numbers_at = flags_at + flag_count + (names_len + flag_count) % 2
    offsets_at = numbers_at + number_len * number_count
    table_at = offsets_at + 2 * text_count
    if len(content) < table_at + table_len:
        return None, "Truncated"
    names = content[12:flags_at]
    if names_len < 2 or names.find(b"\0") != names_len - 1:
        return None, "BadNames"
    flags = content[flags_at : flags_at + flag_count]
    if any(byte not in (0, 1, 0xFE, 0xFF) for byte in flags):
        return None, "BadFlag"
    numbers = struct.unpack_from(f"<{number_count}{'i' if number_len == 4 else 'h'}", content, numbers_at)
    if any(number < -2 for number in numbers):
        return None, "BadNumber"
    table = content[table_at : table_at + table_len]
    offsets = struct.unpack_from(f"<{text_count}h", content, offsets_at)
    if any(offset < -2 or (offset >= 0 and (offset >= table_len or table.find(b"\0", offset) < 0)) for offset in offsets):
        return None, "BadOffset"
    values = {(FLAG, at): True for at, byte in enumerate(flags) if byte == 1}
    values |= {(NUMBER, at): number for at, number in enumerate(numbers) if number >= 0}
    values |= {(TEXT, at): table[offset : table.find(b"\0", offset)] for at, offset in enumerate(offsets) if offset >= 0}
    return (names[:-1], values), None
