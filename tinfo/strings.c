/*
 * Strings of the terminal: expanded with their parameters (tparm), and written with their delays
 * (tputs).
 */
#include "tinfo.h"

#include <errno.h>
#include <stdarg.h>
#include <stdio.h>
#include <stdlib.h>
#include <time.h>

enum { PARAMETERS = 9 };

/* ---- strings with parameters: tparm(3x) */

bool grow(struct buffer *buffer, size_t room) {
    if (buffer->room >= room) return true;
    char *bytes = (char *)realloc(buffer->bytes, room);
    if (!bytes) return false;
    buffer->bytes = bytes;
    buffer->room = room;
    return true;
}

/*
 * Takes out of a format what makes the code at a `%` malformed: the flags, the width and the
 * precision, where a code has none; else the code. So ncurses reads a format.
 */
static void drop_code(char *at) {
    char *flags = at + 1, *end = flags;
    bool has_colon = false;
    while (*end && (strchr(". #:0123456789", *end) || (*end == '-' && has_colon)))
        has_colon |= *end++ == ':';
    if (end == flags) flags = at, end += *end != '\0';
    memmove(flags, end, strlen(end) + 1);
    if (flags == at + 1 && !*flags) *at = '\0';
}

/* A format, and the parameters that it takes: none if it is malformed. */
struct format {
    struct ti_text text;
    struct ti_parameters taken;
    size_t count; /* how many: by `%p`, or from the stack, as formats of termcap take them */
    bool is_malformed;
};

/* Drops the malformed codes of a text, one after the other. */
static void drop_malformed(char *text) {
    struct ti_outcome outcome = { TI_BAD_FORMAT, 0 };
    while (outcome.status == TI_BAD_FORMAT) {
        struct ti_text given = ti_text_of(text);
        outcome = ti_named_format(given.bytes, given.size, NULL, 0);
        if (outcome.status == TI_BAD_FORMAT) drop_code(text + outcome.size);
    }
}

/* Reads a format. One of termcap takes at most two parameters from the stack, as in ncurses. */
static struct format format_of(const char *given) {
    struct format format = { ti_text_of(given), TI_PARAMETERS_EMPTY, 0, false };
    struct ti_parameters *taken = &format.taken;
    format.is_malformed = !ti_parameters_of(format.text.bytes, format.text.size, taken);
    if (taken->popped > 2) taken->popped = 2;
    format.count = taken->named ? taken->named : taken->popped;
    return format;
}

/* A format without its malformed codes. It stays malformed if there is no memory for it. */
static struct format good_format_of(const char *given) {
    static struct buffer buffer;
    struct format format = format_of(given);
    if (!format.is_malformed || !grow(&buffer, format.text.size + 1)) return format;
    drop_malformed(strcpy(buffer.bytes, given));
    return format_of(buffer.bytes);
}

/* Whether a text has a `%p1` to `%p9`. */
static bool names_a_parameter(const char *text) {
    for (const char *at = text; (at = strstr(at, "%p")); at += 2)
        if (at[2] >= '1' && at[2] <= '9') return true;
    return false;
}

/*
 * The result for a format that is not expanded: the text itself if it names no parameter, since
 * it is meant as it is; else nothing, and not NULL, since programs do not look for that.
 */
static char *answer_refused(struct buffer *buffer, const char *given) {
    const char *meant = names_a_parameter(given) ? "" : given;
    return grow(buffer, strlen(meant) + 1) ? strcpy(buffer->bytes, meant) : NULL;
}

/*
 * Has a format take by `%p` what a format of termcap takes from the stack. False if memory is
 * refused.
 */
static bool push_parameters(struct format *format) {
    static struct buffer buffer;
    struct ti_text text = format->text;
    if (format->taken.named || !format->taken.popped) return true;
    struct ti_outcome needed = ti_named_format(text.bytes, text.size, NULL, 0);
    if (needed.status != TI_NO_ROOM || !grow(&buffer, needed.size)) return false;
    ti_named_format(text.bytes, text.size, (uint8_t *)buffer.bytes, needed.size);
    format->text.bytes = (const uint8_t *)buffer.bytes;
    format->text.size = needed.size;
    return true;
}

/* The static variables of formats that are expanded without a terminal. */
static struct ti_variables without_terminal;

/*
 * Expands a format with its parameters, and 0 for each further one, into a buffer that the next
 * call uses again. NULL if memory is refused.
 */
static char *expand(struct format *format, const struct ti_parameter *params) {
    static struct buffer buffer;
    struct ti_variables *variables = cur_term ? &cur_term->variables : &without_terminal;
    const char *given = (const char *)format->text.bytes;
    if (format->is_malformed) return answer_refused(&buffer, given);
    if (!push_parameters(format) || !grow(&buffer, 256)) return NULL;
    for (;;) {
        struct ti_outcome outcome =
            ti_expand(format->text.bytes, format->text.size, params, format->count, variables,
                      (uint8_t *)buffer.bytes, buffer.room - 1);
        if (outcome.status == TI_BAD_FORMAT || outcome.status == TI_STACK_FULL)
            return answer_refused(&buffer, given);
        if (outcome.status == TI_OK) {
            buffer.bytes[outcome.size] = '\0';
            return buffer.bytes;
        }
        if (outcome.status != TI_NO_ROOM || !grow(&buffer, outcome.size + 1)) return NULL;
    }
}

/* Takes the parameters of a format from those of a call, of which the numbers are long or int. */
static void take_parameters(struct ti_parameter *params, const struct format *format, bool is_long,
                            va_list *given) {
    for (size_t i = 0; i < format->count; i++) {
        if (format->taken.strings[i]) {
            const char *text = va_arg(*given, const char *);
            params[i] = text ? ti_text_given((const uint8_t *)text, strlen(text))
                             : ti_number_given(0);
        } else {
            long number = is_long ? va_arg(*given, long) : va_arg(*given, int);
            params[i] = ti_number_given((int32_t)number);
        }
    }
}

/* Expands a format for the arguments of a call. */
static char *expand_for(struct format *format, bool is_long, va_list *given) {
    struct ti_parameter params[PARAMETERS];
    take_parameters(params, format, is_long, given);
    return expand(format, params);
}

EXPORTED char *tparm(const char *text, ...) {
    if (!is_string(text)) return NULL;
    struct format format = format_of(text);
    va_list given;
    va_start(given, text);
    char *expanded = expand_for(&format, true, &given);
    va_end(given);
    return expanded;
}

EXPORTED char *tiparm(const char *text, ...) {
    if (!is_string(text)) return NULL;
    struct format format = format_of(text);
    va_list given;
    va_start(given, text);
    char *expanded = expand_for(&format, false, &given);
    va_end(given);
    return expanded;
}

/* ---- what the tools of ncurses call, which no page describes */

/* How many formats did not leave the stack empty, or took a value from it when it was. */
EXPORTED int _nc_tparm_err;

/*
 * Whether a format takes as many values from the stack as it puts there: two that are put there
 * before it are there after it.
 */
static bool is_balanced(const struct format *format, const struct ti_parameter *params) {
    static const char before[] = "%{31337}%{4711}", after[] = "%d,%d", values[] = "4711,31337";
    enum { BEFORE = sizeof before - 1, AFTER = sizeof after - 1, SIZE = sizeof values - 1 };
    char text[1024], out[1024];
    struct ti_text given = format->text;
    struct ti_variables variables = cur_term ? cur_term->variables : without_terminal;
    if (BEFORE + given.size + AFTER > sizeof text) return true;
    memcpy(text, before, BEFORE);
    memcpy(text + BEFORE, given.bytes, given.size);
    memcpy(text + BEFORE + given.size, after, AFTER);
    struct ti_outcome outcome =
        ti_expand((const uint8_t *)text, BEFORE + given.size + AFTER, params, format->count,
                  &variables, (uint8_t *)out, sizeof out);
    if (outcome.status != TI_OK) return outcome.status == TI_NO_ROOM;
    return outcome.size >= SIZE && memcmp(out + outcome.size - SIZE, values, SIZE) == 0;
}

/*
 * tiparm with so many numbers; NULL for a format that takes more, or a string. What is malformed in
 * the format is left out. With nine numbers, as sgr has, tic asks whether the format is balanced.
 */
EXPORTED char *_nc_tiparm(int expected, const char *text, ...) {
    if (!is_string(text)) return NULL;
    struct format format = good_format_of(text);
    for (size_t i = 0; i < PARAMETERS; i++)
        if (format.taken.strings[i]) return NULL;
    if (format.is_malformed || (int)format.count > expected) return NULL;
    struct ti_parameter params[PARAMETERS];
    va_list given;
    va_start(given, text);
    take_parameters(params, &format, false, &given);
    va_end(given);
    if (expected == PARAMETERS && !is_balanced(&format, params)) _nc_tparm_err++;
    return expand(&format, params);
}

/*
 * What a format takes: stores for each of nine parameters whether it is a string, by a pointer that
 * is not NULL, and the greatest number of a `%p`. Gives how many it takes from the stack.
 */
EXPORTED int _nc_tparm_analyze(const TERMINAL *terminal, const char *text, char **strings,
                               int *named) {
    static char is_one[] = "";
    (void)terminal;
    if (!text) return 0;
    struct format format = format_of(text);
    for (size_t i = 0; i < PARAMETERS; i++) strings[i] = format.taken.strings[i] ? is_one : NULL;
    *named = (int)format.taken.named;
    return (int)format.taken.popped;
}

/* Sets the static variables of a terminal, or of formats without one, to 0. */
EXPORTED void _nc_reset_tparm(TERMINAL *terminal) {
    struct ti_variables zeros = { { 0 } };
    *(terminal ? &terminal->variables : &without_terminal) = zeros;
}

/* ---- writing: tputs(3x) */

/* The line to the current terminal, as the program may have changed it. */
static struct ti_line current_line(void) {
    struct ti_line line = TI_LINE_EMPTY;
    if (!cur_term) return line;
    ti_line_of(cur_term->entry, ti_rate((uint32_t)ospeed), &line);
    line.pad_byte = (uint8_t)PC;
    return line;
}

/* What ti_pad makes of a text. */
struct padded {
    uint8_t *bytes, small[1024];
    size_t size;
};

/* Pads a text. If that fails it is false; else what was made is to be given to drop_padded. */
static bool pad(struct padded *made, struct ti_text text, uint32_t lines,
                const struct ti_line *line) {
    made->bytes = made->small;
    struct ti_outcome outcome =
        ti_pad(text.bytes, text.size, lines, line, made->small, sizeof made->small);
    made->size = outcome.size;
    if (outcome.status != TI_NO_ROOM) return outcome.status == TI_OK;
    made->bytes = (uint8_t *)malloc(made->size);
    if (!made->bytes) return false;
    outcome = ti_pad(text.bytes, text.size, lines, line, made->bytes, made->size);
    if (outcome.status == TI_OK) return true;
    free(made->bytes);
    return false;
}

static void drop_padded(struct padded *made) {
    if (made->bytes != made->small) free(made->bytes);
}

enum { TENTHS_A_SECOND = 10000 };

/* Waits, once what was written is on its way. */
static void wait_for(uint64_t tenths) {
    struct timespec left = { (time_t)(tenths / TENTHS_A_SECOND),
                             (long)(tenths % TENTHS_A_SECOND) * 100000 };
    fflush(stdout);
    nanosleep(&left, NULL);
}

/* Where bytes go: to a function of the caller, which is for a screen or not. */
struct sink {
    int (*put)(int);
    int (*put_sp)(SCREEN *screen, int byte);
    SCREEN *screen;
};

/* What the function answers is not looked at: programs let it give anything. */
static void put_all(struct ti_text text, const struct sink *sink) {
    const uint8_t *end = text.bytes + text.size;
    if (sink->put)
        for (const uint8_t *at = text.bytes; at < end; at++) sink->put(*at);
    else
        for (const uint8_t *at = text.bytes; at < end; at++) sink->put_sp(sink->screen, *at);
}

/* Hands over a text for a terminal without a pad byte (`npc`), and waits at each delay. */
static void put_waiting(struct ti_text text, uint32_t lines, const struct ti_line *line,
                        const struct sink *sink) {
    struct ti_delay delay = TI_DELAY_EMPTY;
    while (ti_first_delay(text.bytes, text.size, lines, line, &delay)) {
        put_all(delay.before, sink);
        if (delay.tenths) wait_for(delay.tenths);
        text = delay.after;
    }
    put_all(text, sink);
}

/* Hands over a text with its delays. */
static int put_text(const char *given, int lines, const struct sink *sink) {
    if (!is_string(given)) return ERR;
    struct ti_text text = ti_text_of(given);
    /* most texts have no delay */
    if (!strstr(given, "$<")) {
        put_all(text, sink);
        return OK;
    }
    struct ti_line line = current_line();
    struct padded made;
    uint32_t affected = lines < 0 ? 0 : (uint32_t)lines;
    /* what is to be seen or heard takes its time on any line */
    if (cur_term && (given == string_at(STR_bel) || given == string_at(STR_flash)))
        line.xon = false, line.pad_from = 0;
    if (cur_term && !line.has_pad_byte) {
        put_waiting(text, affected, &line, sink);
        return OK;
    }
    if (!pad(&made, text, affected, &line)) return ERR;
    put_all((struct ti_text){ made.bytes, made.size }, sink);
    drop_padded(&made);
    return OK;
}

EXPORTED int tputs(const char *text, int lines, int (*put)(int)) {
    struct sink sink = { put, NULL, NULL };
    return put_text(text, lines, &sink);
}

EXPORTED int tputs_sp(SCREEN *screen, const char *text, int lines,
                      int (*put)(SCREEN *screen, int byte)) {
    struct sink sink = { NULL, put, screen };
    TERMINAL *before = enter(screen);
    int answer = put_text(text, lines, &sink);
    cur_term = before;
    return answer;
}

EXPORTED int putp(const char *text) { return tputs(text, 1, putchar); }

EXPORTED int putp_sp(SCREEN *screen, const char *text) {
    TERMINAL *before = enter(screen);
    int answer = putp(text);
    cur_term = before;
    return answer;
}

/* ---- waiting: curs_kernel(3x), curs_util(3x) */

/* A signal does not cut it short. */
EXPORTED int napms(int milliseconds) {
    struct timespec left = { milliseconds / 1000, milliseconds % 1000 * 1000000L };
    while (nanosleep(&left, &left) != 0 && errno == EINTR) continue;
    return OK;
}
EXPORTED int napms_sp(SCREEN *screen, int milliseconds) {
    (void)screen;
    return napms(milliseconds);
}

/* Pads on standard output, a tenth of a second at a time: a text has at most 65,536 pad bytes. */
EXPORTED int delay_output_sp(SCREEN *screen, int milliseconds) {
    enum { AT_ONCE = 100 };
    char text[16];
    TERMINAL *before = enter(screen);
    int answer = cur_term ? OK : ERR;
    for (int left = milliseconds; left > 0 && answer == OK; left -= AT_ONCE) {
        snprintf(text, sizeof text, "$<%d/>", left < AT_ONCE ? left : AT_ONCE);
        answer = putp(text);
    }
    fflush(stdout);
    cur_term = before;
    return answer;
}
EXPORTED int delay_output(int milliseconds) { return delay_output_sp(NULL, milliseconds); }
