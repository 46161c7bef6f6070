/*
 * What else programs link to libtinfo.so.6 for: variables of curses that its windows use, its
 * version, and the end of a program.
 */
#include "tinfo.h"

#include <stdlib.h>

/* The screen, its windows and its line-drawing characters: newterm would set them. */
EXPORTED SCREEN *SP;
EXPORTED WINDOW *stdscr, *curscr, *newscr;
EXPORTED chtype acs_map[128];

/* The version of ncurses as whose library this one answers. */
EXPORTED const char *curses_version(void) { return "ncurses 6.4.20221231"; }

/* Nothing is traced, as in ncurses unless it is built for that. */
EXPORTED unsigned curses_trace(unsigned what) {
    (void)what;
    return 0;
}

EXPORTED void exit_terminfo(int status) { exit(status); }
