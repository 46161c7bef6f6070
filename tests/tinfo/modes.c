/*
 * Prints what libtinfo answers of the line to a terminal, of keys and of screens: a program that is
 * run on a terminal of its own, once with ncurses's library and once with that of libti, so that
 * the answers can be compared. The word is the name of the terminal. Standard output is the
 * terminal; the answers go to standard error. With a second word it only waits so many milliseconds
 * by delay_output, and looks for keys of a screen.
 */
#define NCURSES_SP_FUNCS 1
#include <curses.h>
#include <fcntl.h>
#include <stdio.h>
#include <stdlib.h>
#include <string.h>
#include <sys/ioctl.h>
#include <term.h>
#include <termcap.h>
#include <termios.h>
#include <unistd.h>

#define SAY(...) fprintf(stderr, __VA_ARGS__)

static void say_text(const char *what, const char *text) {
    SAY("%s", what);
    if (!text || text == (char *)-1) SAY(" %s", text ? "-1" : "0");
    else for (; *text; text++) SAY(*text > 32 && *text < 127 ? "%c" : "\\%03o", *text & 255);
    SAY("\n");
}

/* The modes of the terminal as they are. */
static void say_modes(const char *after, int answer) {
    struct termios modes;
    tcgetattr(STDOUT_FILENO, &modes);
    SAY("%s %d: %x %x %x min %d time %d\n", after, answer, modes.c_iflag, modes.c_oflag,
        modes.c_lflag, modes.c_cc[VMIN], modes.c_cc[VTIME]);
}

/* What is answered without a screen, and before there is a terminal. */
static void say_modes_without_screen(void) {
    say_modes("def_shell_mode", def_shell_mode());
    say_modes("def_prog_mode", def_prog_mode());
    say_modes("savetty", savetty());
    say_modes("raw", raw());
    say_modes("noraw", noraw());
    say_modes("cbreak", cbreak());
    say_modes("nocbreak", nocbreak());
    say_modes("halfdelay", halfdelay(3));
    say_modes("intrflush", intrflush(NULL, TRUE));
    noqiflush(), qiflush();
    say_modes("resetty", resetty());
    say_modes("reset_prog_mode", reset_prog_mode());
    say_modes("reset_shell_mode", reset_shell_mode());
    SAY("baudrate %d, ospeed %d\n", baudrate(), ospeed);
    SAY("erasechar %d, killchar %d\n", erasechar(), killchar());
    SAY("has_ic %d, has_il %d\n", has_ic(), has_il());
    SAY("flushinp %d, typeahead %d, curs_set %d\n", flushinp(), typeahead(0), curs_set(0));
    SAY("napms %d %d\n", napms(1), napms(-5));
    SAY("keypad %d, meta %d, nodelay %d, notimeout %d, idlok %d\n", keypad(NULL, TRUE),
        meta(NULL, TRUE), nodelay(NULL, TRUE), notimeout(NULL, TRUE), idlok(NULL, TRUE));
    idcok(NULL, TRUE), wtimeout(NULL, 5);
    SAY("LINES %d, COLS %d, TABSIZE %d\n", LINES, COLS, TABSIZE);
    say_text("termname", termname());
    say_text("longname", longname());
    say_text("ttytype", ttytype);
}

static void say_keys_without_screen(void) {
    char what[24];
    for (int code = -2; code < 1100; code++) {
        snprintf(what, sizeof what, "keyname %d", code);
        say_text(what, keyname(code));
    }
    for (chtype byte = 0; byte < 512; byte++) {
        snprintf(what, sizeof what, "unctrl %u", (unsigned)byte);
        say_text(what, unctrl(byte));
    }
    SAY("define_key %d %d, key_defined %d, has_key %d, keyok %d\n", define_key("x", 300),
        define_key(NULL, 300), key_defined("x"), has_key(300), keyok(300, FALSE));
    say_text("keybound", keybound(300, 0));
}

/* Modes are set for a screen. */
static void say_modes_of(SCREEN *screen) {
    say_modes("def_shell_mode_sp", def_shell_mode_sp(screen));
    say_modes("def_prog_mode_sp", def_prog_mode_sp(screen));
    say_modes("savetty_sp", savetty_sp(screen));
    say_modes("raw_sp", raw_sp(screen));
    say_modes("noraw_sp", noraw_sp(screen));
    say_modes("cbreak_sp", cbreak_sp(screen));
    say_modes("nocbreak_sp", nocbreak_sp(screen));
    say_modes("halfdelay_sp", halfdelay_sp(screen, 3));
    say_modes("halfdelay_sp", halfdelay_sp(screen, 0));
    say_modes("reset_prog_mode_sp", reset_prog_mode_sp(screen));
    say_modes("intrflush_sp", intrflush_sp(screen, NULL, FALSE));
    say_modes("intrflush_sp", intrflush_sp(screen, NULL, TRUE));
    noqiflush_sp(screen);
    say_modes("noqiflush_sp", 0);
    qiflush_sp(screen);
    say_modes("qiflush_sp", 0);
    say_modes("reset_shell_mode_sp", reset_shell_mode_sp(screen));
    say_modes("raw_sp", raw_sp(screen));
    say_modes("resetty_sp", resetty_sp(screen));
    SAY("typeahead_sp %d, flushinp_sp %d\n", typeahead_sp(screen, 0), flushinp_sp(screen));
    SAY("baudrate_sp %d, erasechar_sp %d, killchar_sp %d\n", baudrate_sp(screen),
        erasechar_sp(screen), killchar_sp(screen));
    SAY("has_ic_sp %d, has_il_sp %d\n", has_ic_sp(screen), has_il_sp(screen));
    say_text("termname_sp", termname_sp(screen));
    say_text("longname_sp", longname_sp(screen));
}

static int put_for(SCREEN *screen, int byte) {
    SAY("%s%d ", screen ? "" : "no screen ", byte);
    return byte;
}

/* What is written, also by curs_set, is on the terminal. */
static void say_writing_of(SCREEN *screen) {
    for (int i = 0; i < 8; i++) SAY("curs_set_sp %d\n", curs_set_sp(screen, i % 4));
    SAY("curs_set_sp %d\n", curs_set_sp(screen, -1));
    SAY("tputs_sp %d\n", tputs_sp(screen, "a\033[1m$b", 1, put_for));
    SAY("tputs_sp %d\n", tputs_sp(screen, NULL, 1, put_for));
    SAY("putp_sp %d\n", putp_sp(screen, "putp "));
    SAY("tigetflag_sp %d, tigetnum_sp %d\n", tigetflag_sp(screen, "am"),
        tigetnum_sp(screen, "colors"));
    say_text("tigetstr_sp", tigetstr_sp(screen, "cup"));
    SAY("tgetflag_sp %d, tgetnum_sp %d\n", tgetflag_sp(screen, "am"), tgetnum_sp(screen, "Co"));
    say_text("tgetstr_sp", tgetstr_sp(screen, "ce", NULL));
    fflush(stdout);
}

static void say_keys_of(SCREEN *screen) {
    static const char *const texts[] = { "x", "xy", "xyz", "\033[A", "\033[", "\033[AB", "q", "" };
    SAY("define_key_sp %d %d %d %d\n", define_key_sp(screen, "xy", 300),
        define_key_sp(screen, "\033[A", 301), define_key_sp(screen, "x", 302),
        define_key_sp(screen, "xyz", 303));
    SAY("define_key_sp %d %d\n", define_key_sp(screen, "q", 300), define_key_sp(screen, "", 304));
    for (int i = 0; i < 8; i++) SAY("key_defined_sp %d\n", key_defined_sp(screen, texts[i]));
    for (int i = 0; i < 3; i++) {
        char *text = keybound_sp(screen, 300, i);
        say_text("keybound_sp", text);
        free(text);
    }
    SAY("keyok_sp %d %d\n", keyok_sp(screen, 301, FALSE), key_defined_sp(screen, "\033[A"));
    SAY("keyok_sp %d %d\n", keyok_sp(screen, 301, TRUE), key_defined_sp(screen, "\033[A"));
    SAY("keyok_sp %d %d\n", keyok_sp(screen, 399, TRUE), keyok_sp(screen, -1, FALSE));
    SAY("define_key_sp %d %d\n", define_key_sp(screen, "q", 0), key_defined_sp(screen, "q"));
    SAY("define_key_sp %d\n", define_key_sp(screen, "no", 0));
    for (int code = -1; code < 1100; code++) say_text("keyname_sp", keyname_sp(screen, code));
    for (chtype byte = 0; byte < 256; byte++) say_text("unctrl_sp", unctrl_sp(screen, byte));
}

static void say_sizes(const char *name) {
    static const int tries[][2] = { { 1, 0 }, { 0, 0 }, { 0, 1 }, { 1, 1 } };
    for (int i = 0; i < 8; i++) {
        if (i == 4) setenv("LINES", "33", 1), setenv("COLUMNS", "44", 1);
        use_env(tries[i % 4][0]);
        use_tioctl(tries[i % 4][1]);
        if (setupterm(name, 1, NULL) != 0) return;
        SAY("size %d %d, %d %d, TABSIZE %d\n", LINES, COLS, tigetnum("lines"), tigetnum("cols"),
            TABSIZE);
        say_text("LINES", getenv("LINES"));
        say_text("COLUMNS", getenv("COLUMNS"));
        del_curterm(cur_term);
    }
    use_env(TRUE), use_tioctl(FALSE);
    SAY("set_tabsize %d %d %d\n", set_tabsize(4), TABSIZE, set_tabsize(0));
    SAY("use_extended_names %d %d\n", use_extended_names(FALSE), use_extended_names(FALSE));
    setupterm(name, 1, NULL);
    SAY("tigetflag %d, ext_Names %d\n", tigetflag("XT"), cur_term->type.ext_Strings);
    del_curterm(cur_term);
    SAY("use_extended_names %d\n", use_extended_names(TRUE));
}

/* A line that expands tabs: the terminal is said to have none. */
static void say_tabs(const char *name) {
    struct termios modes;
    tcgetattr(STDOUT_FILENO, &modes);
    modes.c_oflag |= TAB3;
    tcsetattr(STDOUT_FILENO, TCSANOW, &modes);
    setupterm(name, 1, NULL);
    say_text("ht", tigetstr("ht"));
    say_text("cbt", tigetstr("cbt"));
    say_modes("expands", 0);
    SAY("reset_prog_mode_sp %d\n", reset_prog_mode_sp(new_prescr()));
    say_modes("does not", 0);
    say_text("ht", tigetstr("ht"));
    del_curterm(cur_term);
}

/* What ends ncurses by a fault, or is answered by it for another screen. */
static int try_alone(const char *name, int milliseconds) {
    if (setupterm(name, 1, NULL) != 0) return 2;
    SCREEN *screen = new_prescr();
    SAY("delay_output %d\n", delay_output(milliseconds));
    SAY("delay_output %d\n", delay_output(-1));
    SAY("define_key_sp %d\n", define_key_sp(screen, "xy", 300));
    SAY("has_key_sp %d %d\n", has_key_sp(screen, 300), has_key_sp(screen, 301));
    SAY("define_key_sp %d\n", define_key_sp(screen, NULL, 300));
    SAY("has_key_sp %d\n", has_key_sp(screen, 300));
    SAY("define_key_sp %d\n", define_key_sp(screen, NULL, 300));
    del_curterm(cur_term);
    SAY("delay_output %d\n", delay_output(milliseconds));
    return 7;
}

int main(int count, char **words) {
    int result = 77;
    if (count == 3) return try_alone(words[1], atoi(words[2]));
    if (count != 2) return 2;
    say_text("curses_version", curses_version());
    SAY("curses_trace %u\n", curses_trace(0));
    say_modes_without_screen();
    say_keys_without_screen();
    SAY("setupterm %d", setupterm(words[1], 1, &result));
    SAY(" %d\n", result);
    say_modes_without_screen();
    SCREEN *screen = new_prescr();
    SAY("new_prescr %d %d\n", screen != NULL, screen == new_prescr());
    use_env_sp(screen, FALSE), use_tioctl_sp(screen, TRUE);
    say_modes_of(screen);
    say_writing_of(screen);
    say_keys_of(screen);
    TERMINAL *terminal = cur_term;
    SAY("set_curterm_sp %d\n", set_curterm_sp(screen, terminal) == terminal);
    say_modes_of(screen);
    say_keys_of(screen);
    SAY("set_tabsize_sp %d, napms_sp %d\n", set_tabsize_sp(screen, 8), napms_sp(screen, 1));
    SAY("del_curterm_sp %d\n", del_curterm_sp(screen, terminal));
    SAY("cur_term %d\n", cur_term != NULL);
    say_sizes(words[1]);
    say_tabs(words[1]);
    exit_terminfo(7);
}
