/*
 * Prints what libtinfo answers of entries: a program that is run once with ncurses's library and
 * once with that of libti, so that the answers can be compared. Standard input has the names of
 * the entries, one a line. A line of the output is a call, what it was asked, and its answer. What
 * is waited is not slept: this program has a nanosleep of its own, which counts.
 */
#define _GNU_SOURCE
#include <curses.h>
#include <stdio.h>
#include <stdlib.h>
#include <string.h>
#include <term.h>
#include <termcap.h>
#include <time.h>

static long waited; /* in tenths of a millisecond */

int nanosleep(const struct timespec *asked, struct timespec *left) {
    (void)left;
    waited += asked->tv_sec * 10000 + asked->tv_nsec / 100000;
    return 0;
}

static void show(const char *text) {
    if (!text || text == (char *)-1) {
        printf(" %s\n", text ? "-1" : "0");
        return;
    }
    printf(" \"");
    for (const unsigned char *at = (const unsigned char *)text; *at; at++) {
        if (*at > 32 && *at < 127 && *at != '\\') putchar(*at);
        else printf("\\%03o", *at);
    }
    printf("\"\n");
}

static void answer(const char *call, const char *asked, const char *text) {
    printf("%s %s", call, asked);
    show(text);
}

static void answer_number(const char *call, const char *asked, long number) {
    printf("%s %s %ld\n", call, asked, number);
}

/* ---- tputs */

static char written[70000];
static size_t count;

/* As vim's, it gives what may be negative. */
static int put(int byte) {
    if (count < sizeof written - 1) written[count++] = (char)byte;
    return -byte;
}

/* Bytes of padding are shown by their number and not written: PC is a byte that no text has. */
static void answer_tputs(const char *name, const char *text, int affected) {
    enum { PAD = 0x02 };
    char *at = written;
    long pads = 0;
    if (strchr(text, PAD)) return;
    PC = PAD;
    count = 0, waited = 0;
    int status = tputs(text, affected, put);
    for (size_t i = 0; i < count; i++) {
        if (written[i] == PAD) pads++;
        else *at++ = written[i];
    }
    *at = 0;
    printf("tputs %s@%d@%d %d waited %ld pads %ld", name, affected, ospeed, status, waited, pads);
    show(written);
}

/* ---- strings with parameters */

static const int sets[][9] = {
    { 0, 0, 0, 0, 0, 0, 0, 0, 0 },
    { 3, 7, 1, 0, 1, 0, 1, 0, 1 },
    { 15, 200, 31, 127, 2, 3, 4, 5, 6 },
    { 94, 95, 96, 97, 98, 99, 100, 101, 102 },
    { -1, 1, 0, 1, 1, 1, 1, 1, 1 },
};
enum { SETS = sizeof sets / sizeof sets[0] };

/* Which parameters a format takes as texts, a bit for each. */
static unsigned texts_of(const char *format) {
    unsigned texts = 0;
    for (const char *at = strstr(format, "%p"); at; at = strstr(at, "%p")) {
        at += 2;
        const char *code = strchr(at, '%'); /* what is between is written */
        if (*at < '1' || *at > '9' || !code) continue;
        code += 1 + strspn(code + 1, ":-+# 0123456789.");
        if (*code == 's' || *code == 'l') texts |= 1u << (*at - '1');
    }
    return texts;
}

/* Texts are given as tparm takes all, by a long. */
static void answer_with_texts(const char *asked, char *text, const int *numbers, unsigned texts) {
    long p[9];
    for (int i = 0; i < 9; i++) p[i] = texts >> i & 1 ? (long)(i % 2 ? "ls\r" : "a%b") : numbers[i];
    answer("tparm", asked, tparm(text, p[0], p[1], p[2], p[3], p[4], p[5], p[6], p[7], p[8]));
    if (texts == 1) answer("tiparm", asked, tiparm(text, "one", numbers[1]));
    if (texts == 2) answer("tiparm", asked, tiparm(text, numbers[0], "two"));
}

static void answer_with_numbers(const char *asked, char *text, const int *p) {
    long first = p[0], second = p[1], third = p[2], fourth = p[3];
    answer("tparm", asked, tparm(text, first, second, third, fourth, (long)p[4], (long)p[5],
                                 (long)p[6], (long)p[7], (long)p[8]));
    answer("tiparm", asked, tiparm(text, p[0], p[1], p[2], p[3], p[4], p[5], p[6], p[7], p[8]));
    answer("tgoto", asked, tgoto(text, p[1], p[0]));
}

static void answer_expansions(const char *name, char *text) {
    char asked[64];
    unsigned texts = texts_of(text);
    for (int set = 0; set < SETS; set++) {
        snprintf(asked, sizeof asked, "%s@%d", name, set);
        if (texts) answer_with_texts(asked, text, sets[set], texts);
        else answer_with_numbers(asked, text, sets[set]);
    }
}

static void answer_string(const char *name) {
    char *text = tigetstr(name);
    answer("tigetstr", name, text);
    if (!text || text == (char *)-1) return;
    if (strchr(text, '%')) answer_expansions(name, text);
    if (!strstr(text, "$<")) return;
    static const short speeds[] = { 0, 9, 15 }; /* none, B2400, B38400 */
    for (int i = 0; i < 3; i++) {
        ospeed = speeds[i];
        for (int affected = 0; affected < 25; affected += 12) answer_tputs(name, text, affected);
    }
}

/* ---- a terminal */

/* The structure that term.h shows. */
static void answer_type(void) {
    const TERMTYPE *type = &cur_term->type;
    int names = type->ext_Booleans + type->ext_Numbers + type->ext_Strings;
    answer("type", "names", type->term_names);
    printf("type counts %d %d %d %d %d %d\n", type->num_Booleans, type->num_Numbers,
           type->num_Strings, type->ext_Booleans, type->ext_Numbers, type->ext_Strings);
    printf("type Booleans ");
    for (int i = 0; i < type->num_Booleans; i++) printf("%d", type->Booleans[i]);
    printf("\ntype Numbers");
    for (int i = 0; i < type->num_Numbers; i++) printf(" %d", type->Numbers[i]);
    printf("\n");
    for (int i = 0; i < type->num_Strings; i++)
        if (type->Strings[i]) printf("type string %d\n", i);
    for (int i = 0; i < names; i++) answer("type", "ext", type->ext_Names[i]);
}

static void answer_terminfo(void) {
    const TERMTYPE *type = &cur_term->type;
    answer("ttytype", "", ttytype);
    answer("longname", "", longname());
    answer_type();
    printf("tigetflag all ");
    for (int i = 0; boolnames[i]; i++) printf("%d", tigetflag(boolnames[i]));
    printf("\ntigetnum all");
    for (int i = 0; numnames[i]; i++) printf(" %d", tigetnum(numnames[i]));
    printf("\n");
    for (int i = 0; strnames[i]; i++) answer_string(strnames[i]);
    int flags = type->ext_Booleans, numbers = flags + type->ext_Numbers;
    int strings = numbers + type->ext_Strings;
    for (int i = 0; i < strings; i++) {
        const char *name = type->ext_Names[i];
        answer_number("tigetflag", name, tigetflag(name));
        answer_number("tigetnum", name, tigetnum(name));
        answer_string(name);
    }
    static const char *const others[] = { "", "no-such", "am", "cols", "cup", "Tc", "RGB", "xm" };
    for (int i = 0; i < 8; i++) {
        answer_number("tigetflag", others[i], tigetflag(others[i]));
        answer_number("tigetnum", others[i], tigetnum(others[i]));
        answer("tigetstr", others[i], tigetstr(others[i]));
    }
}

static void answer_tgetstr(const char *code) {
    static char room[65536];
    char *area = room;
    char *text = tgetstr(code, &area);
    if (text && text != room) printf("tgetstr %s is not in the area\n", code);
    if (text && area != room + strlen(text) + 1) printf("tgetstr %s: the area is elsewhere\n", code);
    answer("tgetstr", code, text);
    answer("tgetstr", code, tgetstr(code, NULL));
}

static void answer_termcap(const char *name) {
    static char buffer[4096];
    int found = tgetent(buffer, name);
    answer_number("tgetent", "", found);
    if (found != 1) return;
    const TERMTYPE *type = &cur_term->type;
    printf("termcap PC %d ospeed %d\n", PC, ospeed);
    answer("termcap", "UP", UP);
    answer("termcap", "BC", BC);
    printf("tgetflag all ");
    for (int i = 0; boolcodes[i]; i++) printf("%d", tgetflag(boolcodes[i]));
    printf("\ntgetnum all");
    for (int i = 0; numcodes[i]; i++) printf(" %d", tgetnum(numcodes[i]));
    printf("\n");
    for (int i = 0; strcodes[i]; i++) answer_tgetstr(strcodes[i]);
    int names = type->ext_Booleans + type->ext_Numbers + type->ext_Strings;
    for (int i = 0; i < names; i++) {
        answer_number("tgetflag", type->ext_Names[i], tgetflag(type->ext_Names[i]));
        answer_number("tgetnum", type->ext_Names[i], tgetnum(type->ext_Names[i]));
        answer_tgetstr(type->ext_Names[i]);
    }
    static const char *const others[] = { "", "a", "no", "amx", "cox", "cmx", "cm ", "AX", "XT" };
    for (int i = 0; i < 9; i++) {
        answer_number("tgetflag", others[i], tgetflag(others[i]));
        answer_number("tgetnum", others[i], tgetnum(others[i]));
        answer_tgetstr(others[i]);
    }
}

static void answer_tables(void) {
    static const char *const *const tables[] = { boolnames, boolcodes, boolfnames, numnames, numcodes,
                                                 numfnames, strnames,  strcodes,   strfnames };
    for (int i = 0; i < 9; i++)
        for (int j = 0; tables[i][j]; j++) printf("table %d %d %s\n", i, j, tables[i][j]);
}

/* What is answered without a terminal. */
static void answer_none(void) {
    answer_number("none", "tigetflag", tigetflag("am"));
    answer_number("none", "tigetnum", tigetnum("cols"));
    answer("none", "tigetstr", tigetstr("cup"));
    answer_number("none", "tgetflag", tgetflag("am"));
    answer_number("none", "tgetnum", tgetnum("co"));
    answer("none", "tgetstr", tgetstr("cm", NULL));
    answer("none", "tparm", tparm("%p1%d:%p2%s", 7L, "x"));
    answer("none", "tparm", tparm(NULL));
    answer("none", "tgoto", tgoto("%i%p1%d;%p2%d", 8, 4));
    answer_number("none", "tputs", tputs(NULL, 1, put));
    answer_number("none", "del_curterm", del_curterm(NULL));
    answer_number("none", "cur_term", cur_term != NULL);
}

/* The terminal of tgetent stays: ncurses frees it twice if a program does, and asks again. */
static void answer_entry(const char *name) {
    int result = 77;
    int status = setupterm(name, 1, &result);
    printf("entry %s\n", name);
    printf("setupterm  %d %d\n", status, result);
    if (result == 1) {
        answer_terminfo();
        TERMINAL *given = set_curterm(NULL);
        answer_number("set_curterm", "", cur_term == NULL);
        set_curterm(given);
        answer_number("del_curterm", "", del_curterm(given));
    }
    answer_number("cur_term", "", cur_term != NULL);
    answer_termcap(name);
}

int main(void) {
    static char line[20000];
    printf("entry (none)\n");
    answer_none();
    answer_tables();
    while (fgets(line, sizeof line, stdin)) {
        line[strcspn(line, "\n")] = 0;
        answer_entry(line);
    }
    return 0;
}
