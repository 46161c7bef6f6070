/*
 * The calls of termcap(3x): capabilities by their codes, and strings that termcap has in other
 * words.
 */
#include "tinfo.h"

#include <ctype.h>
#include <stdlib.h>
#include <unistd.h>

/* The terminal of the last tgetent, and its buffer: see tgetent. */
static struct {
    TERMINAL *terminal;
    char *buffer;
} of_termcap;

void forget_termcap(const TERMINAL *terminal) {
    if (terminal == of_termcap.terminal) of_termcap.terminal = NULL;
}

/* ---- capabilities by their codes */

/* Codes have two bytes, and what follows in a text that is asked for is not looked at. */
static bool is_same_code(const char *asked, const char *code) {
    return asked[0] == code[0] && asked[1] == code[1];
}

static bool is_same_user_code(const char *asked, const char *name) {
    return is_same_code(asked, name) && !name[2];
}

static bool is_code(const char *asked) { return asked[0] && asked[1]; }

/* The index of a capability of the tables with this code, or -1. */
static int code_index(const char *asked, uint32_t kind) {
    struct ti_place place = { 0, 0 };
    return ti_capability_by_code(kind, (const uint8_t *)asked, 2, &place) ? (int)place.index : -1;
}

/* Whether a text begins with a control sequence. As in ncurses its one byte 0233 does not count. */
static bool is_sequence(const char *text) { return strncmp(text, "\033[", 2) == 0; }

/* The text after a parameter 0 of a control sequence, if that is here. */
static const char *after_zero(const char *at) {
    if (at[0] != '0') return at;
    if (at[1] == ';') return at + 2;
    return isalpha((unsigned char)at[1]) ? at + 1 : at;
}

/* Whether one of two texts is the front of the other, with or without a 0 that is first in it. */
static bool begin_alike(const char *one, const char *other) {
    if (is_sequence(one) && is_sequence(other)) {
        one += 2;
        other += 2;
        if (*one != *other) one = after_zero(one), other = after_zero(other);
    }
    size_t first = strlen(one), second = strlen(other);
    size_t shared = first < second ? first : second;
    return shared && memcmp(one, other, shared) == 0;
}

static void drop(char *at, size_t count) { memmove(at, at + count, strlen(at + count) + 1); }

/* The text after a delay `$<..>`, if that is here. */
static const char *after_delay(const char *at) {
    const char *end = strncmp(at, "$<", 2) == 0 ? strchr(at, '>') : NULL;
    return end ? end + 1 : at;
}

/*
 * How many bytes at the front of a text are another one, whose delays may differ; the last delay is
 * not counted. 0 if it does not begin so.
 */
static size_t front_size(const char *text, const char *front) {
    size_t size = 0;
    for (const char *at = text; *front;) {
        const char *after = after_delay(at), *next = after_delay(front);
        if (*at != *front) return 0;
        bool are_delays = after != at && next != front;
        at = are_delays ? after : at + 1;
        front = are_delays ? next : front + 1;
        if (!are_delays) size = (size_t)(at - text);
    }
    return size;
}

/* Takes rmacs out of a longer text. False if it is not there. */
static bool drop_rmacs(char *text, const char *rmacs) {
    size_t size = strlen(text), least = strlen(rmacs);
    for (size_t at = 0; size > least && at + least <= size; at++) {
        size_t found = front_size(text + at, rmacs);
        if (found) drop(text + at, found);
        if (found) return true;
    }
    return false;
}

/*
 * Takes the first parameter of a control sequence out, or the one after a 0, if it is 10, which
 * chooses the first font. False if it is not there.
 */
static bool drop_font(char *text) {
    if (!is_sequence(text) || text[strlen(text) - 1] != 'm') return false;
    size_t from = (size_t)(after_zero(text + 2) - text);
    const char *after = after_zero(text + from + 1);
    if (text[from] != '1' || after == text + from + 1) return false;
    size_t to = (size_t)(after - text);
    if (text[from - 1] == ';') from--;
    drop(text + from, to - from);
    return true;
}

/* A copy of a text, in which another one that it begins with is at its end; NULL of NULL. */
static char *copy_with_end(const char *text, const char *front) {
    size_t size = is_string(front) ? strlen(front) : 0, whole = text ? strlen(text) : 0;
    char *copy = text ? strdup(text) : NULL;
    if (!copy || !size || whole <= size || strncmp(text, front, size) != 0) return copy;
    strcpy(stpcpy(copy, text + size), front);
    return copy;
}

/* What sgr sends with the alternate character set on or off and no other attribute, likewise. */
static char *attributes_off(const char *sgr, bool is_alternate, const char *front) {
    return copy_with_end(_nc_tiparm(9, sgr, 0, 0, 0, 0, 0, 0, 0, 0, (int)is_alternate), front);
}

/*
 * Takes out of what sgr sends what turns the alternate character set off: rmacs, or the first font.
 * If neither is there, and sgr0 has more than that, what is left is what it has more.
 */
static void trim(char **off, char **sgr0, const char *rmacs) {
    bool is_found = (is_string(rmacs) && drop_rmacs(*off, rmacs)) || drop_font(*off);
    char *at = is_found || strcmp(*sgr0, *off) == 0 ? NULL : strstr(*sgr0, *off);
    if (!at) return;
    drop(at, strlen(*off));
    at = *off;
    *off = *sgr0;
    *sgr0 = at;
}

/*
 * "me" of termcap leaves the character set as it is, and sgr0 does not: it is what sgr sends for no
 * attribute, without what turns that set off, if sgr0 begins alike. NULL if sgr0 itself is to be
 * taken. What comes first and turns the set on or off is compared as if it came last.
 */
static char *sgr0_without_acs(char *const *strings) {
    const char *sgr0 = strings[STR_sgr0], *sgr = strings[STR_sgr], *rmacs = strings[STR_rmacs];
    if (!is_string(sgr0) || !is_string(sgr)) return NULL;
    char *on = attributes_off(sgr, true, strings[STR_smacs]);
    char *off = attributes_off(sgr, false, rmacs), *end = copy_with_end(sgr0, rmacs);
    bool is_meant = on && off && end && begin_alike(off, end) && !begin_alike(off, on);
    if (is_meant) trim(&off, &end, rmacs);
    free(on);
    free(end);
    if (is_meant && strcmp(off, sgr0) != 0) return off;
    free(off);
    return NULL;
}

/* sgr0 of an entry as termcap has it: that itself, or another text for free to be given. */
EXPORTED char *_nc_trim_sgr0(TERMTYPE2 *entry) {
    char *made = sgr0_without_acs(entry->Strings);
    return made ? made : entry->Strings[STR_sgr0];
}

/* Moves a string to the obsolete capability that termcap has for it, unless that is there. */
static void move_string(int from, int to) {
    char **strings = cur_term->type.Strings;
    if (!strings[from] || strings[to]) return;
    strings[to] = strings[from];
    strings[from] = NULL;
}

/* Sets the termcap-only capabilities of the current terminal from those of terminfo. */
static void set_obsolete(void) {
    TERMTYPE *type = &cur_term->type;
    char *left = string_at(STR_cub1), *newline = string_at(STR_nel);
    bool is_backspace = left && strcmp(left, "\b") == 0;
    if (left) type->Booleans[BOOL_OTbs] = is_backspace;
    if (left && !is_backspace) type->Strings[STR_OTbc] = left;
    type->Booleans[BOOL_OTNL] = newline && strcmp(newline, "\n") == 0;
    move_string(STR_is3, STR_OTi2);
    if (!string_at(STR_rs1) && !string_at(STR_rs3)) move_string(STR_rs2, STR_OTrs);
    int *underline = &cur_term->numbers[NUM_OTug];
    if (*underline < 0 && string_at(STR_smul)) *underline = cur_term->numbers[NUM_xmc];
}

/* What termcap has as variables, and what it changes of a terminal. */
static void set_termcap(void) {
    set_obsolete();
    UP = string_at(STR_cuu1);
    BC = string_at(STR_OTbc);
    cur_term->without_acs = sgr0_without_acs(cur_term->type.Strings);
}

/*
 * The buffer is not written to. A program that passes the same one again no longer uses the
 * terminal of the call before, which is freed.
 */
EXPORTED int tgetent(char *buffer, const char *name) {
    int answer = IS_REFUSED;
    PC = '\0';
    UP = BC = NULL;
    setupterm(name, STDOUT_FILENO, &answer);
    if (answer != IS_FOUND) return answer;
    set_termcap();
    if (of_termcap.buffer == buffer) del_curterm(of_termcap.terminal);
    of_termcap.terminal = cur_term;
    of_termcap.buffer = buffer;
    return answer;
}
EXPORTED int tgetent_sp(SCREEN *screen, char *buffer, const char *name) {
    int answer = tgetent(buffer, name);
    if (screen && answer == IS_FOUND) screen->terminal = cur_term;
    return answer;
}

EXPORTED int tgetflag(const char *code) {
    if (!cur_term || !is_code(code)) return 0;
    int index = code_index(code, TI_FLAG);
    if (index < 0) index = user_flag(code, is_same_user_code);
    return index >= 0 && cur_term->type.Booleans[index];
}
EXPORTED int tgetflag_sp(SCREEN *screen, const char *code) {
    TERMINAL *before = enter(screen);
    int found = tgetflag(code);
    cur_term = before;
    return found;
}

EXPORTED int tgetnum(const char *code) {
    if (!cur_term || !is_code(code)) return -1;
    int index = code_index(code, TI_NUMBER);
    if (index < 0) index = user_number(code, is_same_user_code);
    return index < 0 ? -1 : cur_term->numbers[index];
}
EXPORTED int tgetnum_sp(SCREEN *screen, const char *code) {
    TERMINAL *before = enter(screen);
    int found = tgetnum(code);
    cur_term = before;
    return found;
}

EXPORTED char *tgetstr(const char *code, char **area) {
    if (!cur_term || !is_code(code)) return NULL;
    int index = code_index(code, TI_STRING);
    if (index < 0) index = user_string(code, is_same_user_code);
    char *text = index < 0 ? NULL : string_at(index);
    if (index == STR_sgr0 && text && cur_term->without_acs) text = cur_term->without_acs;
    if (!text || !area || !*area) return text;
    char *copy = *area;
    *area = stpcpy(copy, text) + 1;
    return copy;
}
EXPORTED char *tgetstr_sp(SCREEN *screen, const char *code, char **area) {
    TERMINAL *before = enter(screen);
    char *found = tgetstr(code, area);
    cur_term = before;
    return found;
}

/* A format that takes more than two parameters, or a string, is not for this call. */
EXPORTED char *tgoto(const char *format, int column, int line) {
    return _nc_tiparm(2, format, line, column);
}
