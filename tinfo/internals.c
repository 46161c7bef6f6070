/*
 * What libncursesw.so.6 calls of ncurses's libtinfo and no page describes, as far as it takes only
 * texts, numbers, memory and structs that are the same since ncurses 6.0. What else it calls takes
 * structs that differ between versions and builds: docs/TINFO.md.
 */
#include "tinfo.h"

#include <errno.h>
#include <langinfo.h>
#include <limits.h>
#include <locale.h>
#include <stdio.h>
#include <stdlib.h>
#include <unistd.h>

/* ---- files, memory, the environment */

/*
 * Whether a file may be used in a mode of access(2): 0, or -1. One that is to be written and is not
 * there yet takes the rights of its directory.
 */
EXPORTED int _nc_access(const char *path, int mode) {
    char directory[PATH_MAX] = ".";
    if (!path) return -1;
    if (access(path, mode) == 0) return 0;
    if (!(mode & W_OK) || errno != ENOENT || strlen(path) >= sizeof directory) return -1;
    size_t size = _nc_pathlast(path);
    if (size) snprintf(directory, size + 1, "%s", path);
    return access(directory, R_OK | W_OK | X_OK);
}

/* realloc, which frees what was there if it fails. */
EXPORTED void *_nc_doalloc(void *old, size_t size) {
    void *made = old && !size ? NULL : realloc(old, size);
    if (!made) free(old);
    return made;
}

/* The number that a variable of the environment is, or -1. */
EXPORTED int _nc_getenv_num(const char *name) {
    const char *value = getenv(name);
    char *end = NULL;
    if (!value || !*value) return -1;
    long number = strtol(value, &end, 0);
    return *end || number < 0 || number > INT_MAX ? -1 : (int)number;
}

/* ---- the locale */

EXPORTED char *_nc_get_locale(void) { return setlocale(LC_CTYPE, NULL); }

EXPORTED int _nc_unicode_locale(void) { return strcmp(nl_langinfo(CODESET), "UTF-8") == 0; }

/* Whether a string of a terminal shifts to another character set by SO or SI. */
static bool shifts(const char *text) { return is_string(text) && strpbrk(text, "\016\017"); }

/*
 * Whether a terminal draws no lines by the alternate character set while it shows UTF-8: by a
 * variable, by the user-defined U8, or by what is known of Linux's console and of old screens.
 */
EXPORTED int _nc_locale_breaks_acs(TERMINAL *terminal) {
    static const char variable[] = "NCURSES_NO_UTF8_ACS";
    if (getenv(variable)) return _nc_getenv_num(variable);
    int number = tigetnum("U8");
    if (number >= 0) return number;
    const char *name = getenv("TERM"), *termcap = getenv("TERMCAP");
    if (!name) return false;
    if (strstr(name, "linux")) return true;
    if (!strstr(name, "screen") || !termcap) return false;
    if (!strstr(termcap, "screen") || !strstr(termcap, "hhII00")) return false;
    char **strings = terminal->type.Strings;
    return shifts(strings[STR_smacs]) || shifts(strings[STR_sgr]);
}

/* ---- texts */

/* Whether a name is one of a list, each of which ends with one of some bytes or with the list. */
EXPORTED int _nc_name_match(const char *list, const char *name, const char *ends) {
    size_t size = strlen(name);
    for (const char *at = list; at && *at; at += *at != '\0') {
        if (strncmp(at, name, size) == 0 && strchr(ends, at[size])) return true;
        at += strcspn(at, ends);
    }
    return false;
}

/* A text that is put together in a room of its own; or that is only counted, if it has no start. */
struct made_text {
    char *start, *end;
    size_t left, room; /* how many bytes fit, without the NUL; and how many did at first */
};

EXPORTED struct made_text *_nc_str_init(struct made_text *text, char *start, size_t size) {
    size_t room = size ? size - 1 : 0;
    if (!text) return NULL;
    if (start && size) *start = '\0';
    *text = (struct made_text){ start, start, room, room };
    return text;
}

EXPORTED struct made_text *_nc_str_null(struct made_text *text, size_t size) {
    return _nc_str_init(text, NULL, size);
}

EXPORTED struct made_text *_nc_str_copy(struct made_text *text, const struct made_text *from) {
    *text = *from;
    return text;
}

/* Adds to a text. False if there is nothing to add, or if it does not leave a byte. */
EXPORTED bool _nc_safe_strcat(struct made_text *text, const char *more) {
    size_t size = is_string(more) ? strlen(more) : SIZE_MAX;
    if (size >= text->left) return false;
    if (text->end) text->end = stpcpy(text->end, more);
    text->left -= size;
    return true;
}

/* The same in place of what the text was; what fits is what has been left. */
EXPORTED bool _nc_safe_strcpy(struct made_text *text, const char *whole) {
    size_t size = is_string(whole) ? strlen(whole) : SIZE_MAX;
    if (size >= text->left) return false;
    if (text->start) text->end = stpcpy(text->start, whole);
    text->left = text->room - size;
    return true;
}

/* ---- keys: a node of a tree has a byte, its continuations, and the next byte in its place */

struct tries {
    struct tries *child, *sibling;
    unsigned char byte;
    unsigned short code; /* of the key that ends here; 0 if none does */
};

/* Adds a key to a tree, by what it sends: 0200 means NUL there. */
EXPORTED int _nc_add_to_try(struct tries **tree, const char *text, unsigned code) {
    struct tries *node = NULL;
    if (!text || !*text || !code) return ERR;
    for (struct tries **at = tree; *text; at = &node->child) {
        unsigned char byte = (unsigned char)*text++;
        if (byte == 0200) byte = 0;
        while (*at && (*at)->byte != byte) at = &(*at)->sibling;
        if (!*at) *at = (struct tries *)calloc(1, sizeof **at);
        if (!*at) return ERR;
        node = *at;
        node->byte = byte;
    }
    node->code = (unsigned short)code;
    return OK;
}

/* ---- writing */

EXPORTED int _nc_putchar_sp(SCREEN *screen, int byte) {
    (void)screen;
    return putchar(byte);
}
