/*
 * What the files of libtinfo.so.6 share: what programs see by <term.h> and <curses.h> of ncurses,
 * and what these calls need further. Each file includes this header first.
 *
 * As in ncurses there is one current terminal, and no two threads may call at once.
 */
#ifndef TINFO_H
#define TINFO_H

#define _GNU_SOURCE /* for memmem */
#include "ti.h"

#include <termios.h>

#include "names.h"

enum { OK = 0, ERR = -1 };
/* What setupterm stores in *result, and tgetent returns. */
enum { IS_FOUND = 1, IS_UNKNOWN = 0, IS_REFUSED = -1 };
#define CANCELLED ((char *)-1)

/* ---- term.h */

typedef struct termtype {
    char *term_names, *str_table;
    char *Booleans;
    short *Numbers;
    char **Strings;
    char *ext_str_table;
    char **ext_Names;
    unsigned short num_Booleans, num_Numbers, num_Strings;
    unsigned short ext_Booleans, ext_Numbers, ext_Strings;
} TERMTYPE;

typedef struct term {
    TERMTYPE type;
    /* what term.h shows up to ncurses 6.1, in its order */
    short fd;
    struct termios shell, program; /* the modes of the line: def_shell_mode, def_prog_mode */
    int rate; /* baudrate */
    char *name; /* by which the terminal was asked for: termname */
    /* what no term.h shows */
    struct ti_entry *entry;
    struct ti_variables variables;
    int *numbers; /* as type.Numbers, which are short */
    char *without_acs; /* sgr0 for termcap, if it is another text there */
    short speed; /* the rate as ospeed has it */
} TERMINAL;

/* ---- term.h and term_entry.h, for the tools of ncurses */

/* An entry of its own: as TERMTYPE, with numbers of 32 bits. */
typedef struct termtype2 {
    char *term_names, *str_table;
    signed char *Booleans; /* 1, 0, or -2 if the capability is cancelled */
    int *Numbers;          /* -1 if it is absent, -2 if it is cancelled */
    char **Strings;        /* NULL, or CANCELLED */
    char *ext_str_table;
    char **ext_Names;
    unsigned short num_Booleans, num_Numbers, num_Strings;
    unsigned short ext_Booleans, ext_Numbers, ext_Strings;
} TERMTYPE2;

/* An entry of a source, which libtic makes. */
typedef struct entry ENTRY;
struct entry {
    TERMTYPE2 tterm;
    unsigned nuses;
    struct {
        char *name;
        ENTRY *link;
        long line;
    } uses[32];
    int ncrosslinks;
    ENTRY *crosslinks[16];
    long cstart, cend, startline;
    ENTRY *next, *last;
};

extern TERMINAL *cur_term;
extern char PC, *UP, *BC;
extern short ospeed;
extern int TABSIZE;
/* Whether user-defined capabilities are read: use_extended_names. */
extern bool _nc_user_definable;

/* ---- curses.h */

typedef unsigned chtype;
/* A window. The library has none: what makes them is in ncurses's other libraries. */
typedef struct _win_st WINDOW;

/* The definition of a key: what it sends, and its code. */
struct key {
    char *text;
    int code;
};
struct keys {
    struct key *rows;
    size_t count;
};

/* What a screen has of the cursor until curs_set is called. */
enum { CURSOR_IS_UNKNOWN = -1 };

/*
 * A screen. There is only the one that new_prescr gives: newterm, which makes others, is in
 * ncurses's other libraries. Functions without `_sp` in their names have none, as in ncurses.
 */
typedef struct screen {
    TERMINAL *terminal; /* of set_curterm_sp; else it is the current one */
    struct termios saved; /* savetty */
    int cursor; /* curs_set */
    struct keys defined, disabled;
} SCREEN;

/* The terminal that a call is for; NULL if there is none. */
static inline TERMINAL *terminal_for(const SCREEN *screen) {
    return screen && screen->terminal ? screen->terminal : cur_term;
}

/* Has the terminal of a call be the current one until the caller puts back what this gives. */
static inline TERMINAL *enter(const SCREEN *screen) {
    TERMINAL *before = cur_term;
    cur_term = terminal_for(screen);
    return before;
}

/* ---- what the files have for each other */

static inline bool is_string(const char *text) { return text && text != CANCELLED; }

/* A string of the tables of the current terminal, or NULL. */
static inline char *string_at(int index) { return cur_term->type.Strings[index]; }

typedef bool same_name(const char *asked, const char *name);

/* The index of a user-defined capability of the current terminal among all of its kind, or -1. */
int user_flag(const char *asked, same_name *same);
int user_number(const char *asked, same_name *same);
int user_string(const char *asked, same_name *same);

/* The entry that libtic checks, if it has made the current terminal for that; else NULL. */
const TERMTYPE2 *checked_entry(void);

/* A terminal is no longer that of termcap, since it is freed. */
void forget_termcap(const TERMINAL *terminal);

/* Whether a section of an entry has -2 at an index, as it has for a cancelled capability. */
bool is_cancelled(struct ti_text section, size_t index, size_t width);

/* A buffer that is used again by the next call, and how much it has room for. */
struct buffer {
    char *bytes;
    size_t room;
};

/* Makes a buffer at least as large. False if memory is refused, and it is then as it was. */
bool grow(struct buffer *buffer, size_t room);

/* Public calls of one file that others make. */
TERMINAL *set_curterm(TERMINAL *terminal);
int del_curterm(TERMINAL *terminal);
int setupterm(const char *name, int fd, int *result);
char *longname(void);
int tigetflag(const char *name);
int tigetnum(const char *name);
char *tigetstr(const char *name);
char *tiparm(const char *format, ...);
char *_nc_tiparm(int expected, const char *format, ...);
unsigned _nc_pathlast(const char *path);
int _nc_getenv_num(const char *name);
bool _nc_is_file_path(const char *path);
void _nc_first_db(int *at, int *offset);
const char *_nc_next_db(int *at, int *offset);
void _nc_last_db(void);
void _nc_get_type(char *name);
__attribute__((format(printf, 1, 2), noreturn)) void _nc_err_abort(const char *format, ...);
int tputs(const char *text, int lines, int (*put)(int));
int putp(const char *text);
int napms(int milliseconds);
int baudrate_sp(SCREEN *screen);
int def_shell_mode_sp(SCREEN *screen);
int def_prog_mode_sp(SCREEN *screen);

#endif
