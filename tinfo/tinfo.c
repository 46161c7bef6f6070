/*
 * The calls of libtinfo over libti: what a program asks of its terminal by terminfo(3x),
 * termcap(3x) and the pages of curses that need no window, under the names, types and symbol
 * versions of ncurses's libtinfo.so.6, so that programs that are built for that run on libti
 * unchanged. tinfo.map has the symbols.
 *
 * The files here are C over ti.h. They are tested (tests/tinfo) and not proved. libti reads
 * entries, finds capabilities and the parameters that a string takes, expands and pads; what is
 * here is the current terminal and the types of C. names.h and names.c, which build/tinfo.py
 * writes, have the tables of names.
 *
 * This file has the current terminal: how it is found, set up and asked for what it has.
 */
#include "tinfo.h"

#include <limits.h>
#include <stdio.h>
#include <stdlib.h>
#include <sys/ioctl.h>
#include <unistd.h>

/* How long a name and ttytype may be. */
enum { NAME_MAX_BYTES = 512, TTYTYPE_SIZE = 256 };

EXPORTED TERMINAL *cur_term;
EXPORTED char PC, *UP, *BC;
EXPORTED short ospeed;
EXPORTED char ttytype[TTYTYPE_SIZE];
/* The size of the screen of the last terminal that was set up. */
EXPORTED int LINES, COLS, TABSIZE = 8;

/* Whether the value at an index of a section says that a capability is cancelled: it is -2. */
bool is_cancelled(struct ti_text section, size_t index, size_t width) {
    const uint8_t *value = section.bytes + index * width;
    if ((index + 1) * width > section.size || value[0] != 0xFE) return false;
    for (size_t i = 1; i < width; i++)
        if (value[i] != 0xFF) return false;
    return true;
}

/* ---- User-defined capabilities: user_caps(5) */

EXPORTED bool _nc_user_definable = true;

/* Whether setupterm reads user-defined capabilities from now on; gives whether it did. */
EXPORTED int use_extended_names(bool uses) {
    bool before = _nc_user_definable;
    _nc_user_definable = uses;
    return before;
}

/* The extension of an entry; one that has nothing if there is none, or no sound one. */
static struct ti_extension extension_of(const struct ti_entry *entry) {
    struct ti_extension found = TI_EXTENSION_EMPTY;
    if (_nc_user_definable) ti_extension_read(entry, &found);
    return found;
}

/* Fills in what an extension says. A NUL follows each of its texts in the entry. */
static void fill_extension(TERMINAL *terminal, const struct ti_extension *extension) {
    TERMTYPE *type = &terminal->type;
    unsigned short *counts[] = { &type->ext_Booleans, &type->ext_Numbers, &type->ext_Strings };
    struct ti_text name = TI_NOTHING;
    struct ti_value value = TI_VALUE_EMPTY;
    type->ext_str_table = (char *)extension->table.bytes;
    for (size_t i = 0; ti_user_defined(extension, i, &name, &value); i++) {
        unsigned at = (*counts[value.kind])++;
        type->ext_Names[i] = (char *)name.bytes;
        if (value.kind == TI_FLAG) type->Booleans[TI_FLAGS + at] = value.is_present;
        else if (value.kind == TI_NUMBER)
            terminal->numbers[TI_NUMBERS + at] = value.is_present ? (int)value.number : -1;
        else type->Strings[TI_STRINGS + at] = value.is_present ? (char *)value.text.bytes : NULL;
    }
}

static bool is_same(const char *asked, const char *name) { return strcmp(asked, name) == 0; }

/*
 * The index of a user-defined capability among all of its kind, or -1. The names are in the order
 * of the kinds, so `from` are before them, and `base` is what the tables have of the kind.
 */
static int user_index(const char *asked, same_name *same, int from, int count, int base) {
    for (int i = 0; i < count; i++)
        if (same(asked, cur_term->type.ext_Names[from + i])) return base + i;
    return -1;
}
int user_flag(const char *asked, same_name *same) {
    return user_index(asked, same, 0, cur_term->type.ext_Booleans, TI_FLAGS);
}
int user_number(const char *asked, same_name *same) {
    const TERMTYPE *type = &cur_term->type;
    return user_index(asked, same, type->ext_Booleans, type->ext_Numbers, TI_NUMBERS);
}
int user_string(const char *asked, same_name *same) {
    const TERMTYPE *type = &cur_term->type;
    int from = type->ext_Booleans + type->ext_Numbers;
    return user_index(asked, same, from, type->ext_Strings, TI_STRINGS);
}

/* ---- setting a terminal up: setupterm(3x) */

/* The size of the screen in a variable of the environment, or 0. */
static int size_of_variable(const char *name) {
    int number = _nc_getenv_num(name);
    return number > 0 ? number : 0;
}

/* What use_env and use_tioctl have said. */
static bool asks_environment = true, asks_window_too = false;

EXPORTED void use_env(bool asks) { asks_environment = asks; }
EXPORTED void use_tioctl(bool asks) { asks_window_too = asks; }

/* Those of a screen count once newterm has made it. */
EXPORTED void use_env_sp(SCREEN *screen, bool asks) {
    (void)screen;
    (void)asks;
}
EXPORTED void use_tioctl_sp(SCREEN *screen, bool asks) { use_env_sp(screen, asks); }

/* A size by the environment, if it has the variable: with use_tioctl the variable is set first. */
static int size_by_variable(const char *name, int size) {
    char text[12];
    if (!asks_environment || !size_of_variable(name)) return size;
    if (asks_window_too) {
        snprintf(text, sizeof text, "%d", size);
        setenv(name, text, 1);
    }
    int found = size_of_variable(name);
    return found ? found : size;
}

/* A size that was found; or else that of the entry, or a usual one. */
static int size_or(int found, int of_entry, int usual) {
    if (found <= 0) found = of_entry;
    return found > 0 ? found : usual;
}

/*
 * The size of the screen: of the environment, the window, the entry, or 24 by 80. If neither the
 * environment nor the window is to be asked, it is the entry's.
 */
static void fill_size(TERMINAL *terminal) {
    struct winsize window;
    int *numbers = terminal->numbers;
    int lines = numbers[NUM_lines], cols = numbers[NUM_cols];
    if (asks_environment || asks_window_too) {
        if (isatty(terminal->fd) && ioctl(terminal->fd, TIOCGWINSZ, &window) == 0) {
            lines = window.ws_row;
            cols = window.ws_col;
        }
        lines = size_or(size_by_variable("LINES", lines), numbers[NUM_lines], 24);
        cols = size_or(size_by_variable("COLUMNS", cols), numbers[NUM_cols], 80);
        numbers[NUM_lines] = lines;
        numbers[NUM_cols] = cols;
    }
    LINES = lines;
    COLS = cols;
    TABSIZE = numbers[NUM_it] >= 0 ? numbers[NUM_it] : 8;
}

EXPORTED int set_tabsize(int columns) {
    if (columns <= 0) return ERR;
    TABSIZE = columns;
    return OK;
}
EXPORTED int set_tabsize_sp(SCREEN *screen, int columns) {
    (void)screen;
    return set_tabsize(columns);
}

static SCREEN first_screen = { .cursor = CURSOR_IS_UNKNOWN };

EXPORTED SCREEN *new_prescr(void) { return &first_screen; }

EXPORTED int del_curterm(TERMINAL *terminal) {
    if (!terminal) return ERR;
    if (terminal == cur_term) cur_term = NULL;
    if (terminal == first_screen.terminal) first_screen.terminal = NULL;
    forget_termcap(terminal);
    ti_entry_free(terminal->entry);
    free(terminal->type.Booleans);
    free(terminal->type.Numbers);
    free(terminal->type.Strings);
    free(terminal->type.ext_Names);
    free(terminal->numbers);
    free(terminal->without_acs);
    free(terminal->name);
    free(terminal);
    return OK;
}
EXPORTED int del_curterm_sp(SCREEN *screen, TERMINAL *terminal) {
    (void)screen;
    return del_curterm(terminal);
}

/* A terminal with room for so many user-defined capabilities of any kind, or NULL. */
static TERMINAL *terminal_with(size_t count) {
    TERMINAL *made = (TERMINAL *)calloc(1, sizeof *made);
    if (!made) return NULL;
    TERMTYPE *type = &made->type;
    type->Booleans = (char *)calloc(TI_FLAGS + count, 1);
    type->Numbers = (short *)calloc(TI_NUMBERS + count, sizeof *type->Numbers);
    made->numbers = (int *)calloc(TI_NUMBERS + count, sizeof *made->numbers);
    type->Strings = (char **)calloc(TI_STRINGS + count, sizeof *type->Strings);
    type->ext_Names = (char **)calloc(count + 1, sizeof *type->ext_Names);
    if (type->Booleans && type->Numbers && made->numbers && type->Strings && type->ext_Names)
        return made;
    del_curterm(made);
    return NULL;
}

/* Fills in what the tables have. A NUL follows each string, or the entry were refused. */
static void fill_tables(TERMINAL *terminal) {
    const struct ti_entry *entry = terminal->entry;
    TERMTYPE *type = &terminal->type;
    struct ti_text text = TI_NOTHING;
    for (uint32_t i = 0; i < TI_FLAGS; i++) type->Booleans[i] = ti_flag(entry, i) == 1;
    for (uint32_t i = 0; i < TI_NUMBERS; i++) terminal->numbers[i] = (int)ti_number(entry, i);
    for (uint32_t i = 0; i < TI_STRINGS; i++)
        type->Strings[i] = ti_string(entry, i, &text) == 1 ? (char *)text.bytes : NULL;
    ti_names(entry, &text);
    type->term_names = (char *)text.bytes;
    type->str_table = (char *)entry->strings.bytes;
}

/* Fills in the numbers as they are short, where a cancelled one is -2. */
static void fill_numbers(TERMINAL *terminal, const struct ti_extension *extension) {
    const struct ti_text sections[] = { terminal->entry->numbers, extension->numbers };
    size_t width = terminal->entry->wide ? 4 : 2;
    for (int i = 0; i < terminal->type.num_Numbers; i++) {
        bool is_user_defined = i >= TI_NUMBERS;
        size_t at = (size_t)(is_user_defined ? i - TI_NUMBERS : i);
        int number = terminal->numbers[i] > SHRT_MAX ? SHRT_MAX : terminal->numbers[i];
        bool is_cancel = number < 0 && is_cancelled(sections[is_user_defined], at, width);
        terminal->type.Numbers[i] = (short)(is_cancel ? -2 : number);
    }
}

/* The terminal of an entry, to which it then belongs; NULL if memory is refused. */
static TERMINAL *terminal_of(struct ti_entry *entry, const char *name, int fd) {
    struct ti_extension extension = extension_of(entry);
    TERMINAL *made = terminal_with(ti_user_defined_count(&extension));
    if (!made) return NULL;
    TERMTYPE *type = &made->type;
    made->name = strdup(name);
    if (!made->name) {
        del_curterm(made);
        return NULL;
    }
    made->fd = (short)fd;
    made->entry = entry;
    fill_tables(made);
    fill_extension(made, &extension);
    type->num_Booleans = (unsigned short)(TI_FLAGS + type->ext_Booleans);
    type->num_Numbers = (unsigned short)(TI_NUMBERS + type->ext_Numbers);
    type->num_Strings = (unsigned short)(TI_STRINGS + type->ext_Strings);
    fill_size(made);
    fill_numbers(made, &extension);
    return made;
}

EXPORTED TERMINAL *set_curterm(TERMINAL *terminal) {
    TERMINAL *old = cur_term;
    cur_term = terminal;
    /* one that libtic makes for itself has nothing yet */
    if (terminal && terminal->type.Strings) {
        ospeed = terminal->speed;
        PC = string_at(STR_pad) ? string_at(STR_pad)[0] : '\0';
        snprintf(ttytype, sizeof ttytype, "%s", terminal->type.term_names);
    }
    return old;
}
EXPORTED TERMINAL *set_curterm_sp(SCREEN *screen, TERMINAL *terminal) {
    if (screen) screen->terminal = terminal;
    return set_curterm(terminal);
}

/* The answer of a setupterm that failed: *result, or a line on standard error and the end. */
static int refuse(int *result, int why, const char *name, const char *said) {
    if (result) {
        *result = why;
        return ERR;
    }
    if (name) fprintf(stderr, "'%s': ", name);
    fprintf(stderr, "%s\n", said);
    exit(EXIT_FAILURE);
}

/* Whether what is called generic has what moves the cursor and clears the screen. */
static bool is_usable(void) {
    bool moves = string_at(STR_cup) || (string_at(STR_cud1) && string_at(STR_home));
    return moves && string_at(STR_clear);
}

/* The result for the current terminal, which was found. */
static int judge(int *result, const char *name) {
    if (cur_term->type.Booleans[BOOL_gn]) {
        if (is_usable()) return refuse(result, IS_FOUND, name, "terminal is not really generic.");
        del_curterm(cur_term);
        return refuse(result, IS_UNKNOWN, name, "I need something more specific.");
    }
    if (cur_term->type.Booleans[BOOL_hc])
        return refuse(result, IS_FOUND, name, "I can't handle hardcopy terminals.");
    if (result) *result = IS_FOUND;
    return OK;
}

EXPORTED int setupterm(const char *name, int fd, int *result) {
    if (!name) name = getenv("TERM");
    if (!name || !*name)
        return refuse(result, IS_REFUSED, NULL, "TERM environment variable not set.");
    if (strlen(name) > NAME_MAX_BYTES)
        return refuse(result, IS_REFUSED, NULL, "TERM environment must be <= 512 characters.");
    /* what is written is then most likely for the terminal of standard error */
    if (fd == STDOUT_FILENO && !isatty(fd)) fd = STDERR_FILENO;
    struct ti_entry *entry = NULL;
    enum ti_status status = ti_open(name, &entry);
    if (status == TI_NO_MEMORY) return refuse(result, IS_REFUSED, NULL, "out of memory.");
    if (status != TI_OK) return refuse(result, IS_UNKNOWN, name, "unknown terminal type.");
    TERMINAL *terminal = terminal_of(entry, name, fd);
    if (!terminal) {
        ti_entry_free(entry);
        return refuse(result, IS_REFUSED, NULL, "out of memory.");
    }
    set_curterm(terminal);
    if (isatty(fd)) {
        def_shell_mode_sp(NULL);
        def_prog_mode_sp(NULL);
        baudrate_sp(NULL);
    }
    return judge(result, name);
}

EXPORTED int restartterm(char *name, int fd, int *result) { return setupterm(name, fd, result); }

EXPORTED char *longname(void) {
    static char none[] = "";
    struct ti_text text = TI_NOTHING;
    if (!cur_term) return none;
    ti_long_name(cur_term->entry, &text);
    return (char *)text.bytes;
}
EXPORTED char *longname_sp(SCREEN *screen) {
    (void)screen;
    return longname();
}

/* The name by which the terminal was asked for. */
EXPORTED char *termname_sp(SCREEN *screen) {
    const TERMINAL *terminal = terminal_for(screen);
    return terminal ? terminal->name : NULL;
}
EXPORTED char *termname(void) { return termname_sp(NULL); }

/* ---- what the terminal has: tigetflag(3x) */

/* The index of a capability of the tables, if it is of the kind; else -1. */
static int table_index(const char *name, uint32_t kind) {
    struct ti_text text = ti_text_of(name);
    struct ti_place place = { 0, 0 };
    bool is_known = ti_capability(text.bytes, text.size, &place) && place.kind == kind;
    return is_known ? (int)place.index : -1;
}

/*
 * A user-defined capability of an entry that libtic checks, of a kind, as its index among all of
 * that; or one of the tables; else -1.
 */
static int checked_index(const TERMTYPE2 *entry, const char *name, uint32_t kind) {
    const int counts[] = { entry->ext_Booleans, entry->ext_Numbers, entry->ext_Strings };
    static const int bases[] = { TI_FLAGS, TI_NUMBERS, TI_STRINGS };
    int index = table_index(name, kind), from = 0;
    for (uint32_t i = 0; i < kind; i++) from += counts[i];
    for (int i = 0; index < 0 && i < counts[kind]; i++)
        if (is_same(name, entry->ext_Names[from + i])) index = bases[kind] + i;
    return index;
}

EXPORTED int tigetflag(const char *name) {
    if (!cur_term) return -1;
    const TERMTYPE2 *checked = checked_entry();
    if (checked) {
        int at = checked_index(checked, name, TI_FLAG);
        return at < 0 ? -1 : checked->Booleans[at];
    }
    int index = table_index(name, TI_FLAG);
    if (index < 0) index = user_flag(name, is_same);
    return index < 0 ? -1 : cur_term->type.Booleans[index];
}
EXPORTED int tigetflag_sp(SCREEN *screen, const char *name) {
    TERMINAL *before = enter(screen);
    int found = tigetflag(name);
    cur_term = before;
    return found;
}

EXPORTED int tigetnum(const char *name) {
    if (!cur_term) return -2;
    const TERMTYPE2 *checked = checked_entry();
    if (checked) {
        int at = checked_index(checked, name, TI_NUMBER);
        return at < 0 ? -2 : checked->Numbers[at];
    }
    int index = table_index(name, TI_NUMBER);
    if (index < 0) index = user_number(name, is_same);
    return index < 0 ? -2 : cur_term->numbers[index];
}
EXPORTED int tigetnum_sp(SCREEN *screen, const char *name) {
    TERMINAL *before = enter(screen);
    int found = tigetnum(name);
    cur_term = before;
    return found;
}

EXPORTED char *tigetstr(const char *name) {
    if (!cur_term) return CANCELLED;
    const TERMTYPE2 *checked = checked_entry();
    if (checked) {
        int at = checked_index(checked, name, TI_STRING);
        return at < 0 ? CANCELLED : checked->Strings[at];
    }
    int index = table_index(name, TI_STRING);
    if (index < 0) index = user_string(name, is_same);
    return index < 0 ? CANCELLED : string_at(index);
}
EXPORTED char *tigetstr_sp(SCREEN *screen, const char *name) {
    TERMINAL *before = enter(screen);
    char *found = tigetstr(name);
    cur_term = before;
    return found;
}
