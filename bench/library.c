/*
 * `library WHAT COUNT`: does one thing COUNT times, for bench/library.py, which counts
 * instructions. WHAT is the library (libti, ncurses or unibilium), `-` and the thing: setaf, cup,
 * find (the string of a name), get (the string of an index), read (an entry from its bytes), send
 * or curly (the user-defined Ss or Smulx by its name, to a function that counts bytes). The entry
 * is that of the file that TERMINFO_FILE names, and ncurses finds it by TERM.
 */
#include "ti.h"

#include <curses.h>
#include <stdio.h>
#include <stdlib.h>
#include <string.h>
#include <term.h>
#ifdef UNIBILIUM
#include <unibilium.h>
#endif

static uint8_t bytes[70000], out[4096];
static size_t size;
static int count;

static bool read_file(const char *path) {
    FILE *file = path ? fopen(path, "rb") : NULL;
    if (!file) return false;
    size = fread(bytes, 1, sizeof bytes, file);
    fclose(file);
    return true;
}

static size_t sent;

static size_t count_bytes(const uint8_t *given, size_t given_size, void *context) {
    (void)given, (void)context;
    sent += given_size;
    return given_size;
}

static int count_byte(int byte) {
    sent++;
    return byte;
}

/* The user-defined string that is sent, or NULL: the style of the cursor or of an underline. */
static const char *name_sent(const char *what) {
    if (!strcmp(what, "send")) return "Ss";
    return strcmp(what, "curly") ? NULL : "Smulx";
}

/* Sends a string by the terminal of the entry. */
static size_t send_with_libti(const char *name) {
    struct ti_entry *copy = NULL;
    struct ti_terminal *terminal = NULL;
    struct ti_output output = { count_bytes, NULL, NULL };
    if (ti_entry_new(bytes, size, &copy) || ti_terminal_new(copy, 0, &output, &terminal)) return 0;
    for (int i = 0; i < count; i++) ti_put_named(terminal, name, i % 7);
    ti_terminal_close(terminal);
    return sent;
}

static size_t with_libti(const char *what, struct ti_entry *entry) {
    bool is_cup = !strcmp(what, "cup");
    size_t total = 0;
    struct ti_variables variables = { { 0 } };
    struct ti_parameter params[2] = { ti_number_given(0), ti_number_given(0) };
    struct ti_text text = TI_NOTHING;
    if (name_sent(what)) return send_with_libti(name_sent(what));
    if (is_cup || !strcmp(what, "setaf")) {
        ti_string_named(entry, what, &text);
        for (int i = 0; i < count; i++) {
            params[0].number = i % 256, params[1].number = i % 80;
            total += ti_expand(text.bytes, text.size, params, is_cup ? 2 : 1, &variables, out, sizeof out).size;
        }
    } else if (!strcmp(what, "find")) {
        for (int i = 0; i < count; i++)
            if (ti_string_named(entry, strnames[i % TI_STRINGS], &text) == 1) total += text.size;
    } else if (!strcmp(what, "get")) {
        for (int i = 0; i < count; i++)
            if (ti_string(entry, (uint32_t)i % TI_STRINGS, &text) == 1) total += text.size;
    } else {
        for (int i = 0; i < count; i++) total += ti_entry_read(bytes, size, entry) == 0;
    }
    return total;
}

static size_t with_ncurses(const char *what) {
    size_t total = 0;
    const char *text = tigetstr((char *)what);
    if (!strcmp(what, "cup")) {
        for (int i = 0; i < count; i++) total += strlen(tiparm(text, i % 256, i % 80));
    } else if (!strcmp(what, "setaf")) {
        for (int i = 0; i < count; i++) total += strlen(tiparm(text, i % 256));
    } else if (name_sent(what)) {
        char *name = (char *)name_sent(what);
        for (int i = 0; i < count; i++) tputs(tiparm(tigetstr(name), i % 7), 1, count_byte);
        total = sent;
    } else {
        for (int i = 0; i < count; i++) {
            const char *found = tigetstr((char *)strnames[i % TI_STRINGS]);
            total += found ? strlen(found) : 0;
        }
    }
    return total;
}

#ifdef UNIBILIUM
static size_t with_unibilium(const char *what) {
    size_t total = 0;
    bool is_cup = !strcmp(what, "cup");
    unibi_term *term = unibi_from_mem((const char *)bytes, size);
    unibi_var_t params[9];
    for (int k = 0; k < 9; k++) params[k] = unibi_var_from_num(0);
    if (is_cup || !strcmp(what, "setaf")) {
        const char *text = unibi_get_str(term, is_cup ? unibi_cursor_address : unibi_set_a_foreground);
        for (int i = 0; i < count; i++) {
            params[0] = unibi_var_from_num(i % 256), params[1] = unibi_var_from_num(i % 80);
            total += unibi_run(text, params, (char *)out, sizeof out);
        }
    } else if (!strcmp(what, "get")) {
        for (int i = 0; i < count; i++) {
            const char *text = unibi_get_str(term, (enum unibi_string)(unibi_string_begin_ + 1 + i % TI_STRINGS));
            total += text ? strlen(text) : 0;
        }
    } else {
        for (int i = 0; i < count; i++) {
            unibi_term *read = unibi_from_mem((const char *)bytes, size);
            total += read != NULL;
            unibi_destroy(read);
        }
    }
    unibi_destroy(term);
    return total;
}
#endif

int main(int argc, char **argv) {
    int error = 0;
    struct ti_entry entry = TI_ENTRY_EMPTY;
    if (argc != 3 || !read_file(getenv("TERMINFO_FILE"))) return 2;
    if (ti_entry_read(bytes, size, &entry) || setupterm(NULL, 1, &error) != OK) return 2;
    count = atoi(argv[2]);
    const char *what = strchr(argv[1], '-');
    if (!what) return 2;
    what++;
    size_t total = 0;
    if (argv[1][0] == 'l') total = with_libti(what, &entry);
    if (argv[1][0] == 'n') total = with_ncurses(what);
#ifdef UNIBILIUM
    if (argv[1][0] == 'u') total = with_unibilium(what);
#endif
    printf("%zu\n", total);
    return 0;
}
