/*
 * Messages about a source of entries: where it is read, and texts in them.
 */
#include "tinfo.h"

#include <stdarg.h>
#include <stdio.h>
#include <stdlib.h>

/* Where a source is read, from 0 on: a number below 0 is not said. */
EXPORTED int _nc_curr_line, _nc_curr_col;
EXPORTED bool _nc_suppress_warnings;
/* What is traced. This library traces nothing. */
EXPORTED unsigned _nc_tracing;

/* ---- what is read */

static char *source;
static char type[513]; /* the name of the entry */

/* The file that is read. */
EXPORTED void _nc_set_source(const char *name) {
    char *copy = strdup(name);
    if (!copy) return;
    free(source);
    source = copy;
}

/* The name of the entry that is read; NULL for none. */
EXPORTED void _nc_set_type(const char *name) {
    snprintf(type, sizeof type, "%s", name ? name : "");
}

EXPORTED void _nc_get_type(char *name) {
    if (name) strcpy(name, type);
}

/* ---- messages */

static void say_where(void) {
    fprintf(stderr, "\"%s\"", source ? source : "?");
    if (_nc_curr_line >= 0) fprintf(stderr, ", line %d", _nc_curr_line);
    if (_nc_curr_col >= 0) fprintf(stderr, ", col %d", _nc_curr_col);
    if (*type) fprintf(stderr, ", terminal '%s'", type);
    fprintf(stderr, ": ");
}

static void say(const char *format, va_list given) {
    say_where();
    vfprintf(stderr, format, given);
    fprintf(stderr, "\n");
}

EXPORTED __attribute__((format(printf, 1, 2))) void _nc_warning(const char *format, ...) {
    va_list given;
    if (_nc_suppress_warnings) return;
    va_start(given, format);
    say(format, given);
    va_end(given);
}

EXPORTED void _nc_err_abort(const char *format, ...) {
    va_list given;
    va_start(given, format);
    say(format, given);
    va_end(given);
    exit(EXIT_FAILURE);
}

EXPORTED __attribute__((format(printf, 1, 2), noreturn)) void _nc_syserr_abort(const char *format,
                                                                              ...) {
    va_list given;
    va_start(given, format);
    say(format, given);
    va_end(given);
    exit(EXIT_FAILURE);
}

/* ---- texts in messages */

/* Writes a byte as C has it in a text, with `\e` for ESC, and `\^A` for other controls. */
static char *put_visible(char *at, unsigned char byte) {
    static const char bytes[] = "\b\t\n\r\033\"\\", letters[] = "btnre\"\\";
    const char *found = strchr(bytes, byte);
    if (found) return at + sprintf(at, "\\%c", letters[found - bytes]);
    if (byte < ' ') return at + sprintf(at, "\\^%c", byte + '@');
    if (byte == 127) return at + sprintf(at, "\\^?");
    return at + sprintf(at, byte < 127 ? "%c" : "\\%03o", byte);
}

/* A text in quotes. Each number has a room of its own, which the next call with it uses again. */
EXPORTED const char *_nc_visbuf2(int number, const char *text) {
    enum { ROOMS = 4, LONGEST = sizeof "\\377" };
    static struct buffer buffers[ROOMS];
    struct buffer *buffer = &buffers[number & (ROOMS - 1)];
    if (!text) return "(null)";
    if (text == CANCELLED) return "(cancelled)";
    if (!grow(buffer, LONGEST * strlen(text) + sizeof "\"\"")) return "";
    char *at = stpcpy(buffer->bytes, "\"");
    for (; *text; text++) at = put_visible(at, (unsigned char)*text);
    strcpy(at, "\"");
    return buffer->bytes;
}

EXPORTED const char *_nc_visbuf(const char *text) { return _nc_visbuf2(0, text); }
