/*
 * The modes of the line to the terminal: curs_kernel(3x), curs_inopts(3x), and what
 * curs_termattrs(3x) and curs_util(3x) say of the line. As in ncurses, modes are set only for a
 * screen: the functions without `_sp` in their names have none, and fail.
 */
#include "tinfo.h"

#include <errno.h>
#include <stdio.h>
#include <stdlib.h>
#include <unistd.h>

/* Reads the modes of a terminal; zeros if that fails. */
static int get_modes(const TERMINAL *terminal, struct termios *modes) {
    int answer = ERR;
    if (terminal) {
        do answer = tcgetattr(terminal->fd, modes);
        while (answer != 0 && errno == EINTR);
    }
    if (answer != 0) memset(modes, 0, sizeof *modes);
    return answer == 0 ? OK : ERR;
}

static int set_modes(const SCREEN *screen, const struct termios *modes) {
    const TERMINAL *terminal = terminal_for(screen);
    int answer = ERR;
    if (!screen || !terminal) return ERR;
    do answer = tcsetattr(terminal->fd, TCSADRAIN, modes);
    while (answer != 0 && errno == EINTR);
    return answer == 0 ? OK : ERR;
}

/* ---- curs_kernel(3x) */

/* A terminal whose line expands tabs is given none. */
EXPORTED int def_shell_mode_sp(SCREEN *screen) {
    TERMINAL *terminal = terminal_for(screen);
    if (!terminal || get_modes(terminal, &terminal->shell) != OK) return ERR;
    if (terminal->shell.c_oflag & TAB3)
        terminal->type.Strings[STR_ht] = terminal->type.Strings[STR_cbt] = NULL;
    return OK;
}
EXPORTED int def_shell_mode(void) { return def_shell_mode_sp(NULL); }

EXPORTED int def_prog_mode_sp(SCREEN *screen) {
    TERMINAL *terminal = terminal_for(screen);
    if (!terminal || get_modes(terminal, &terminal->program) != OK) return ERR;
    terminal->program.c_oflag &= ~(tcflag_t)TAB3;
    return OK;
}
EXPORTED int def_prog_mode(void) { return def_prog_mode_sp(NULL); }

/* Writes a byte to standard output past its buffer. */
static int write_byte(int byte) {
    char written = (char)byte;
    return write(STDOUT_FILENO, &written, 1) == 1 ? byte : EOF;
}

/* Sends a string of a screen's terminal. */
static int send_string(const SCREEN *screen, int string) {
    TERMINAL *before = enter(screen);
    int answer = cur_term ? tputs(string_at(string), 1, write_byte) : ERR;
    cur_term = before;
    if (answer != ERR) fflush(stdout);
    return answer;
}

/* The keypad then sends digits. */
EXPORTED int reset_shell_mode_sp(SCREEN *screen) {
    const TERMINAL *terminal = terminal_for(screen);
    if (!terminal) return ERR;
    if (screen) send_string(screen, STR_rmkx);
    return set_modes(screen, &terminal->shell);
}
EXPORTED int reset_shell_mode(void) { return reset_shell_mode_sp(NULL); }

EXPORTED int reset_prog_mode_sp(SCREEN *screen) {
    const TERMINAL *terminal = terminal_for(screen);
    return terminal ? set_modes(screen, &terminal->program) : ERR;
}
EXPORTED int reset_prog_mode(void) { return reset_prog_mode_sp(NULL); }

/* The modes of savetty. */
static struct termios *saved_for(SCREEN *screen) {
    static struct termios saved;
    return screen ? &screen->saved : &saved;
}

EXPORTED int savetty_sp(SCREEN *screen) {
    return get_modes(terminal_for(screen), saved_for(screen));
}
EXPORTED int savetty(void) { return savetty_sp(NULL); }

EXPORTED int resetty_sp(SCREEN *screen) { return set_modes(screen, saved_for(screen)); }
EXPORTED int resetty(void) { return resetty_sp(NULL); }

/* Gives how visible the cursor was: 0, 1 or 2. It is taken to be 1 at first. */
EXPORTED int curs_set_sp(SCREEN *screen, int visibility) {
    static const int strings[] = { STR_civis, STR_cnorm, STR_cvvis };
    if (!screen || visibility < 0 || visibility > 2) return ERR;
    int was = screen->cursor;
    if (visibility == was) return was;
    int answer = send_string(screen, strings[visibility]);
    screen->cursor = visibility;
    if (answer == ERR) return ERR;
    return was == CURSOR_IS_UNKNOWN ? 1 : was;
}
EXPORTED int curs_set(int visibility) { return curs_set_sp(NULL, visibility); }

/* ---- curs_inopts(3x) */

/* Sets the program's modes, and remembers them if that works. */
static int set_program(const SCREEN *screen, const struct termios *modes) {
    int answer = set_modes(screen, modes);
    if (answer == OK) terminal_for(screen)->program = *modes;
    return answer;
}

/* The program's modes; zeros if there is no terminal. */
static struct termios program_of(const SCREEN *screen) {
    const TERMINAL *terminal = terminal_for(screen);
    struct termios none;
    memset(&none, 0, sizeof none);
    return terminal ? terminal->program : none;
}

enum { COOKED_INPUT = IXON | BRKINT | PARMRK };

static void give_bytes(struct termios *modes) {
    modes->c_cc[VMIN] = 1;
    modes->c_cc[VTIME] = 0;
}

EXPORTED int raw_sp(SCREEN *screen) {
    struct termios modes = program_of(screen);
    modes.c_lflag &= ~(tcflag_t)(ICANON | ISIG | IEXTEN);
    modes.c_iflag &= ~(tcflag_t)COOKED_INPUT;
    give_bytes(&modes);
    return set_program(screen, &modes);
}
EXPORTED int raw(void) { return raw_sp(NULL); }

EXPORTED int noraw_sp(SCREEN *screen) {
    const TERMINAL *terminal = terminal_for(screen);
    struct termios modes = program_of(screen);
    modes.c_lflag |= ISIG | ICANON;
    if (terminal) modes.c_lflag |= terminal->shell.c_lflag & IEXTEN;
    modes.c_iflag |= COOKED_INPUT;
    return set_program(screen, &modes);
}
EXPORTED int noraw(void) { return noraw_sp(NULL); }

EXPORTED int cbreak_sp(SCREEN *screen) {
    struct termios modes = program_of(screen);
    modes.c_lflag &= ~(tcflag_t)ICANON;
    modes.c_lflag |= ISIG;
    modes.c_iflag &= ~(tcflag_t)ICRNL;
    give_bytes(&modes);
    return set_program(screen, &modes);
}
EXPORTED int cbreak(void) { return cbreak_sp(NULL); }

EXPORTED int nocbreak_sp(SCREEN *screen) {
    struct termios modes = program_of(screen);
    modes.c_lflag |= ICANON;
    modes.c_iflag |= ICRNL;
    return set_program(screen, &modes);
}
EXPORTED int nocbreak(void) { return nocbreak_sp(NULL); }

/* How long getch waits is of ncurses's other libraries. */
EXPORTED int halfdelay_sp(SCREEN *screen, int tenths) {
    if (tenths < 1 || tenths > 255 || !screen || !terminal_for(screen)) return ERR;
    cbreak_sp(screen);
    return OK;
}
EXPORTED int halfdelay(int tenths) { return halfdelay_sp(NULL, tenths); }

/* Whether a key that interrupts drops what waits on the line. */
static int set_flush(const SCREEN *screen, bool drops) {
    struct termios modes = program_of(screen);
    if (drops) modes.c_lflag &= ~(tcflag_t)NOFLSH;
    else modes.c_lflag |= NOFLSH;
    return set_program(screen, &modes);
}

EXPORTED int intrflush_sp(SCREEN *screen, WINDOW *window, bool drops) {
    (void)window;
    return set_flush(screen, drops);
}
EXPORTED int intrflush(WINDOW *window, bool drops) { return intrflush_sp(NULL, window, drops); }

EXPORTED void qiflush_sp(SCREEN *screen) { set_flush(screen, true); }
EXPORTED void qiflush(void) { qiflush_sp(NULL); }
EXPORTED void noqiflush_sp(SCREEN *screen) { set_flush(screen, false); }
EXPORTED void noqiflush(void) { noqiflush_sp(NULL); }

/* Which file is looked at for typed keys while a screen is drawn, which nothing here does. */
EXPORTED int typeahead_sp(SCREEN *screen, int fd) {
    (void)fd;
    return screen && terminal_for(screen) ? OK : ERR;
}
EXPORTED int typeahead(int fd) { return typeahead_sp(NULL, fd); }

/* ---- curs_inopts(3x) and curs_outopts(3x) of windows: there is none, so all is as for NULL */

EXPORTED int keypad(WINDOW *window, bool is_on) {
    (void)window;
    (void)is_on;
    return ERR;
}
EXPORTED int meta(WINDOW *window, bool is_on) { return keypad(window, is_on); }
EXPORTED int nodelay(WINDOW *window, bool is_on) { return keypad(window, is_on); }
EXPORTED int notimeout(WINDOW *window, bool is_on) { return keypad(window, is_on); }
EXPORTED int idlok(WINDOW *window, bool is_on) { return keypad(window, is_on); }
EXPORTED void idcok(WINDOW *window, bool is_on) { keypad(window, is_on); }
EXPORTED void wtimeout(WINDOW *window, int milliseconds) { keypad(window, milliseconds > 0); }

/* ---- curs_termattrs(3x) and curs_util(3x) */

EXPORTED int baudrate_sp(SCREEN *screen) {
    TERMINAL *terminal = terminal_for(screen);
    if (!terminal) return ERR;
    ospeed = terminal->speed = (short)cfgetospeed(&terminal->program);
    return terminal->rate = (int)ti_rate((uint32_t)ospeed);
}
EXPORTED int baudrate(void) { return baudrate_sp(NULL); }

/* A character of the shell's modes. */
static char shell_character(const SCREEN *screen, int which) {
    const TERMINAL *terminal = terminal_for(screen);
    if (!terminal || terminal->shell.c_cc[which] == _POSIX_VDISABLE) return (char)ERR;
    return (char)terminal->shell.c_cc[which];
}

EXPORTED char erasechar_sp(SCREEN *screen) { return shell_character(screen, VERASE); }
EXPORTED char erasechar(void) { return erasechar_sp(NULL); }
EXPORTED char killchar_sp(SCREEN *screen) { return shell_character(screen, VKILL); }
EXPORTED char killchar(void) { return killchar_sp(NULL); }

/* Whether a terminal has one of two strings. */
static bool has_either(const TERMINAL *terminal, int one, int other) {
    return terminal->type.Strings[one] || terminal->type.Strings[other];
}

EXPORTED bool has_ic_sp(SCREEN *screen) {
    const TERMINAL *terminal = terminal_for(screen);
    if (!terminal || !has_either(terminal, STR_dch1, STR_dch)) return false;
    char **strings = terminal->type.Strings;
    return has_either(terminal, STR_ich1, STR_ich) || (strings[STR_smir] && strings[STR_rmir]);
}
EXPORTED bool has_ic(void) { return has_ic_sp(NULL); }

EXPORTED bool has_il_sp(SCREEN *screen) {
    const TERMINAL *terminal = terminal_for(screen);
    return terminal && has_either(terminal, STR_il1, STR_il) &&
           has_either(terminal, STR_dl1, STR_dl);
}
EXPORTED bool has_il(void) { return has_il_sp(NULL); }

EXPORTED int flushinp_sp(SCREEN *screen) {
    const TERMINAL *terminal = terminal_for(screen);
    if (!terminal) return ERR;
    tcflush(terminal->fd, TCIFLUSH);
    return OK;
}
EXPORTED int flushinp(void) { return flushinp_sp(NULL); }
