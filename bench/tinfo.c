/*
 * Calls of libtinfo on the entry xterm-256color, as often as the second word says: a program for
 * bench/tinfo.py, which runs it with each of two libraries.
 */
#include <curses.h>
#include <stdlib.h>
#include <string.h>
#include <term.h>
#include <termcap.h>

static int put(int byte) { return byte; }

static long call(const char *what, char *cup, char *setaf, const char *color) {
    if (!strcmp(what, "tigetstr")) return (long)tigetstr("setaf");
    if (!strcmp(what, "tgetstr")) return (long)tgetstr("AF", NULL);
    if (!strcmp(what, "setaf")) return (long)tparm(setaf, 200L);
    if (!strcmp(what, "cup")) return (long)tparm(cup, 4L, 9L);
    if (!strcmp(what, "tgoto")) return (long)tgoto(cup, 9, 4);
    if (!strcmp(what, "tputs")) return tputs(color, 1, put);
    return setupterm("xterm-256color", 1, NULL) + del_curterm(cur_term);
}

int main(int count, char **words) {
    volatile long seen = 0;
    if (count != 3) return 2;
    setupterm("xterm-256color", 1, NULL);
    TERMINAL *first = cur_term;
    char *cup = tigetstr("cup"), *setaf = tigetstr("setaf");
    char *color = strdup(tparm(setaf, 200L));
    for (int left = atoi(words[2]); left > 0; left--) seen += call(words[1], cup, setaf, color);
    free(color);
    return del_curterm(first) != OK;
}
