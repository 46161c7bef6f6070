"""Clears the screen and writes a word in color, by the module of python/ti: python3 screen.py"""

import sys

import ti

try:
    entry = ti.Entry.find()
except ti.NoTerminal as error:
    raise SystemExit(f"screen.py: {error}")
out = sys.stdout.buffer
clear, cup, setaf, sgr0 = (entry.string(name) for name in ("clear", "cup", "setaf", "sgr0"))
if clear is not None:
    out.write(clear.padded())
if cup is not None:
    out.write(cup(2, 4))
if setaf is not None and (entry.number("colors") or 0) >= 8:
    out.write(setaf(2))
out.write(entry.long_name.encode())
if sgr0 is not None:
    out.write(sgr0.padded())
out.write(b"\n")
