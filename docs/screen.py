#!/usr/bin/env python3
"""Draws docs/editor.svg: Neovim's screen with a source, and the errors and warnings of `ti-lsp`.

    docs/screen.py

It runs Neovim in tmux, with the files of editors/ as they are and the built `ti-lsp`, takes the pane
with its colors, and has the library `rich` (Debian's python3-rich) draw it. Nothing of the picture
is written by hand.
"""

import importlib.util
import os
import re
import shlex
import shutil
import subprocess
import sys
import tempfile
import time

sys.path.append(os.path.join(os.path.dirname(os.path.dirname(os.path.abspath(__file__))), "build"))
from repository import TOP, program_of  # noqa: E402

SERVER = program_of("ti_lsp")
EDITORS = os.path.join(TOP, "editors")
PICTURE = os.path.join(TOP, "docs", "editor.svg")
TITLE = "Neovim with a terminfo source: its errors and warnings, what a capability is, and the fixes that ti-lsp offers"
COLUMNS, LINES = 100, 34
SECONDS = 60
SOURCE = r"""# a terminal with some mistakes in it
base|what mine begins with,
	cr=\r, kf1=\q,
mine|my terminal,
	am, cols#8o, bel=^G, kf2=\400,
	clear=\E[H\E[2J, colo-r#8,
	use=base,
	lines=24,
"""
# how many errors and warnings it has
FAULTS = 5
# The errors and warnings are listed below the source, each with its whole message. The cursor goes
# to the last of them, so that its hover information covers none: it is shown, and then the fixes
# that are offered.
SETTINGS = """
vim.o.background, vim.o.ruler, vim.o.showcmd, vim.o.showmode, vim.o.laststatus = 'light', false, false, false, 0
vim.o.fillchars, vim.o.number, vim.o.cmdheight = 'eob: ', true, 4
vim.cmd('highlight NormalFloat ctermbg=255 | highlight FloatBorder ctermfg=8 ctermbg=255')
vim.cmd('highlight SignColumn ctermbg=none | highlight VertSplit cterm=none | highlight QuickFixLine ctermbg=none')
vim.cmd('highlight StatusLineNC cterm=underline | highlight StatusLine cterm=underline')
vim.diagnostic.config({ virtual_text = false, severity_sort = false })
vim.wait(60000, function() return #vim.diagnostic.get(0) >= COUNT end, 20)
local source = vim.api.nvim_get_current_win()
vim.diagnostic.setloclist({ open = true })
vim.wo.wrap, vim.wo.linebreak, vim.wo.number = true, true, false
vim.api.nvim_set_current_win(source)
vim.api.nvim_win_set_height(source, 15)
vim.api.nvim_win_set_cursor(source, { 8, 3 })
vim.lsp.handlers['textDocument/hover'] = vim.lsp.with(vim.lsp.handlers.hover, { border = 'single' })
vim.lsp.buf.hover()
vim.wait(60000, function() return #vim.api.nvim_list_wins() == 3 end, 20)
vim.cmd('redraw')
vim.lsp.buf.code_action()
""".replace("COUNT", str(FAULTS))
SHOWN_LAST = "Type number and"
# the colors of the terminal: paper, ink, eight colors, and their bright ones
PAPER, INK = (255, 255, 255), (36, 41, 47)
COLORS = [
    (36, 41, 47), (194, 24, 43), (26, 127, 55), (154, 103, 0), (5, 80, 174), (130, 80, 223), (27, 124, 131), (208, 215, 222),
]
BRIGHT = [(87, 96, 106), *COLORS[1:7], (243, 245, 247)]
# rich's own form of a picture, without its frame and without fonts of the network
FORM = """<svg xmlns="http://www.w3.org/2000/svg" viewBox="0 0 {width} {height}">
<title>TITLE</title>
<style>
.{unique_id}-matrix {{ font-family: ui-monospace, "DejaVu Sans Mono", monospace; font-size: {char_height}px; }}
{styles}
</style>
<defs>
<clipPath id="{unique_id}-clip-terminal">
<rect x="0" y="0" width="{terminal_width}" height="{terminal_height}"/>
</clipPath>
{lines}
</defs>
<rect width="100%" height="100%" rx="8" fill="PAPER" stroke="#d0d7de"/>
<g transform="translate({terminal_x}, {terminal_y})" clip-path="url(#{unique_id}-clip-terminal)">
{backgrounds}
<g class="{unique_id}-matrix">
{matrix}
</g>
</g>
</svg>
""".replace("TITLE", TITLE).replace("PAPER", f"#{bytes(PAPER).hex()}")


def drawn(lines):
    """The SVG of the lines of a pane."""
    from rich.console import Console
    from rich.terminal_theme import TerminalTheme
    from rich.text import Text

    while lines and not lines[-1].strip():
        lines.pop()
    # rich does not know the color of the line below letters
    lines = [re.sub(r"\x1b\[58[;:][0-9;:]*m", "", line) for line in lines]
    with open(os.devnull, "w", encoding="utf-8") as nowhere:
        console = Console(record=True, width=COLUMNS, file=nowhere, color_system="truecolor", force_terminal=True)
        console.print(Text.from_ansi("\n".join(lines)), no_wrap=True, crop=True, highlight=False)
    theme = TerminalTheme(PAPER, INK, COLORS, BRIGHT)
    picture = console.export_svg(theme=theme, code_format=FORM, unique_id="screen")
    return "\n".join(line.rstrip() for line in picture.split("\n"))


def captured(room):
    """The lines of the pane, with their colors, once all is shown."""
    for name, text in (("mine.ti", SOURCE), ("settings.lua", SETTINGS)):
        with open(os.path.join(room, name), "w", encoding="utf-8") as file:
            file.write(text)
    shutil.copy(os.path.join(EDITORS, "neovim.lua"), room)
    shutil.copytree(os.path.join(EDITORS, "vim"), os.path.join(room, "vim"))
    os.symlink(SERVER, os.path.join(room, "ti-lsp"))
    words = "nvim -u NONE -i NONE -n --cmd 'set rtp^=vim' -c 'syntax on' -c 'luafile neovim.lua'"
    words += " -c 'edit mine.ti' -c 'luafile settings.lua'"
    environment = f"cd {shlex.quote(room)} && HOME=$PWD PATH=$PWD:$PATH LANG=C.UTF-8 "
    tmux = ["tmux", "-L", f"screen{os.getpid()}", "-f", "/dev/null"]
    size = ["-x", str(COLUMNS), "-y", str(LINES)]
    subprocess.run(
        [*tmux, "new-session", "-d", *size, environment + words], check=True, env={**os.environ, "LANG": "C.UTF-8"},
    )
    try:
        until = time.monotonic() + SECONDS
        while time.monotonic() < until:
            time.sleep(0.3)
            plain = subprocess.run([*tmux, "capture-pane", "-p"], stdout=subprocess.PIPE, check=True).stdout
            if SHOWN_LAST in plain.decode():
                break
        else:
            sys.exit(f"the editor does not show what it should:\n{plain.decode()}")
        done = subprocess.run([*tmux, "capture-pane", "-e", "-p"], stdout=subprocess.PIPE, check=True)
        return done.stdout.decode().split("\n")
    finally:
        subprocess.run([*tmux, "kill-server"], check=False)


def main():
    for program in ("tmux", "nvim"):
        if not shutil.which(program):
            sys.exit(f"{program} is not installed")
    if not importlib.util.find_spec("rich"):
        sys.exit(f"{sys.executable} has no library rich: install python3-rich, and run this by /usr/bin/python3")
    if not os.access(SERVER, os.X_OK):
        sys.exit("ti-lsp is not built: make lsp")
    with tempfile.TemporaryDirectory(prefix="ti-screen-") as room:
        picture = drawn(captured(room))
    with open(PICTURE, "w", encoding="utf-8") as file:
        file.write(picture)
    print(f"{os.path.relpath(PICTURE, TOP)}: {len(picture.encode()):,} bytes")


if __name__ == "__main__":
    main()
