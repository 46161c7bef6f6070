/*
 * Compares libti with ncurses: the variable and the code of each capability, each flag, number and
 * string of an entry, and each string expanded with several parameters. Standard input has a line
 * for each entry: the name that ncurses opens it by, a blank, and its file. Prints each difference,
 * and then the counts; the status is 0 if nothing differs. Not compared, and counted apart: a
 * format that libti refuses (ncurses writes what it can), one that takes parameters without `%p`
 * (ncurses hands them over as termcap does), and one with two `%i` (ncurses counts one).
 */
#include "ti.h"

#include <curses.h>
#include <stdio.h>
#include <stdlib.h>
#include <string.h>
#include <term.h>

static int differences, compared, refused, apart, strings, entries, unopened;

static void show(const char *what, const uint8_t *bytes, size_t size) {
    printf("  %s:", what);
    for (size_t i = 0; i < size; i++) printf(" %02x", bytes[i]);
    printf("\n");
}

static void differ(const char *name, const char *how, int set, const uint8_t *a, size_t m,
                   const uint8_t *b, size_t n) {
    differences++;
    printf("%s: %s (parameters %d)\n", name, how, set);
    show("libti", a, m);
    show("ncurses", b, n);
}

/*
 * The parameters of one set. None is a multiple of 256 other than 0: of such a one ncurses writes a
 * NUL for `%c`, which ends its string, and libti the byte 0x80, as for 0.
 */
static const int32_t sets[][9] = {
    { 0, 0, 0, 0, 0, 0, 0, 0, 0 },
    { 1, 1, 1, 1, 1, 1, 1, 1, 1 },
    { 3, 7, 1, 0, 1, 0, 1, 0, 1 },
    { 7, 15, 8, 16, 9, 10, 11, 12, 13 },
    { 8, 0, 1, 1, 0, 0, 0, 1, 1 },
    { 15, 200, 31, 127, 2, 3, 4, 5, 6 },
    { 16, 79, 23, 1, 1, 1, 0, 0, 0 },
    { 94, 95, 96, 97, 98, 99, 100, 101, 102 },
    { 253, 254, 257, 999, 1010, 1001, 5, 5, 5 },
    { 1010, 65530, 32765, 1, 2, 3, 4, 5, 6 },
    { -1, -2, -3, -4, -5, -6, -7, -8, -9 },
    { 2147483640, 65530, 1, 2, 3, 4, 5, 6, 7 },
};
enum { SETS = sizeof sets / sizeof sets[0] };

/* Which parameters of a string are texts: those of the keys' and labels' programs. */
static unsigned texts_of(const char *name) {
    static const char *const second[] = { "pfkey", "pfloc", "pfx", "pln" };
    for (int i = 0; i < 4; i++)
        if (!strcmp(name, second[i])) return 1u << 1;
    if (!strcmp(name, "pfxl")) return 1u << 1 | 1u << 2;
    return 0;
}

/* Whether ncurses takes the format otherwise than terminfo(5) has it. */
static bool is_apart(const char *format) {
    const char *increment = strstr(format, "%i");
    bool takes_none = strchr(format, '%') && !strstr(format, "%p") && !strstr(format, "%g");
    return takes_none || (increment && strstr(increment + 1, "%i"));
}

/* Compares the parameters that are strings with those that are by the capability's name. */
static void compare_parameters(const char *name, struct ti_text text) {
    struct ti_parameters taken = TI_PARAMETERS_EMPTY;
    if (!ti_parameters_of(text.bytes, text.size, &taken) || taken.named == 0) return;
    unsigned found = 0, wanted = texts_of(name) & ((1u << taken.named) - 1);
    for (int i = 0; i < 9; i++) found |= (unsigned)taken.strings[i] << i;
    compared++;
    if (found != wanted) differences++, printf("%s: strings %x, by its name %x\n", name, found, wanted);
}

/* Both keep the variables from string to string of an entry. */
static struct ti_variables variables;

static void expand(const char *name, const char *format, int set) {
    static const char *const words[] = { "", "ls\r", "a%b" };
    static uint8_t out[65536];
    const char *word = words[set % 3];
    unsigned texts = texts_of(name);
    struct ti_parameter params[9];
    long p[9];
    for (int i = 0; i < 9; i++) {
        bool is_text = texts >> i & 1;
        struct ti_text text = ti_text_of(word);
        int32_t number = sets[set][i];
        params[i] = is_text ? ti_text_given(text.bytes, text.size) : ti_number_given(number);
        p[i] = is_text ? (long)word : (long)number;
    }
    struct ti_text text = ti_text_of(format);
    struct ti_outcome asked = ti_expand(text.bytes, text.size, params, 9, &variables, out, 0);
    struct ti_outcome outcome =
        ti_expand(text.bytes, text.size, params, 9, &variables, out, asked.size);
    if (outcome.status == TI_BAD_FORMAT) {
        refused++;
        return;
    }
    if (is_apart(format)) {
        apart++;
        return;
    }
    const char *theirs =
        tparm((char *)format, p[0], p[1], p[2], p[3], p[4], p[5], p[6], p[7], p[8]);
    struct ti_text wanted = ti_text_of(theirs ? theirs : "");
    compared++;
    /* room for exactly the bytes was enough, and no room was not */
    if (outcome.status != TI_OK || outcome.size != asked.size ||
        asked.status != (asked.size ? TI_NO_ROOM : TI_OK))
        differences++, printf("%s: statuses %u %u\n", name, asked.status, outcome.status);
    else if (!theirs || outcome.size != wanted.size || memcmp(out, theirs, outcome.size))
        differ(name, format, set, out, outcome.size, wanted.bytes, wanted.size);
}

static uint32_t index_of(const char *name, uint32_t kind, uint32_t index) {
    struct ti_place place = { 9, 9999 };
    struct ti_text text = TI_NOTHING, given = ti_text_of(name);
    if (!ti_capability(given.bytes, given.size, &place) || place.kind != kind || place.index != index)
        differences++, printf("%s: found as %u %u, not %u %u\n", name, place.kind, place.index, kind, index);
    if (!ti_name(kind, index, &text) || text.size != given.size || memcmp(text.bytes, name, text.size))
        differences++, printf("%s: named %.*s\n", name, (int)text.size, (const char *)text.bytes);
    return place.index;
}

static void compare_values(const struct ti_entry *entry) {
    for (uint32_t i = 0; i < TI_FLAGS; i++, compared++)
        if (ti_flag(entry, index_of(boolnames[i], TI_FLAG, i)) != tigetflag((char *)boolnames[i]))
            differences++, printf("%s differs\n", boolnames[i]);
    for (uint32_t i = 0; i < TI_NUMBERS; i++, compared++) {
        int64_t number = ti_number(entry, index_of(numnames[i], TI_NUMBER, i));
        /* ncurses has 80 and 24 if an entry has no size */
        if (number == -1 && (!strcmp(numnames[i], "cols") || !strcmp(numnames[i], "lines"))) continue;
        if (number != tigetnum((char *)numnames[i]))
            differences++, printf("%s: %lld, ncurses %d\n", numnames[i], (long long)number,
                                  tigetnum((char *)numnames[i]));
    }
}

static void compare_string(const struct ti_entry *entry, uint32_t i) {
    struct ti_text text = TI_NOTHING;
    const char *name = strnames[i], *theirs = tigetstr((char *)name);
    int32_t is = ti_string(entry, index_of(name, TI_STRING, i), &text);
    compared++;
    if ((is == 1) != (theirs != NULL)) {
        differences++, printf("%s: %d, ncurses %s\n", name, is, theirs ? "has it" : "has none");
        return;
    }
    if (is != 1) return;
    strings++;
    if (text.size != strlen(theirs) || memcmp(text.bytes, theirs, text.size))
        differ(name, "the string", -1, text.bytes, text.size, (const uint8_t *)theirs, strlen(theirs));
    /* nothing expands these: what the terminal answers, as scanf would read it, and pairs */
    if (!strcmp(name, "u6") || !strcmp(name, "u8") || !strcmp(name, "acsc")) return;
    compare_parameters(name, text);
    for (int set = 0; set < SETS; set++) expand(name, theirs, set);
}

/*
 * Compares the variable and the code of a capability with those of the tables of ncurses. The code
 * ML of smgl is that of smglr too, which tgetstr finds.
 */
static void compare_words(uint32_t kind, uint32_t index, const char *variable, const char *code) {
    struct ti_text found = TI_NOTHING, wanted = ti_text_of(variable), coded = ti_text_of(code);
    struct ti_place by_variable = { 9, 9999 }, by_code = { 9, 9999 };
    bool is_variable = ti_variable_name(kind, index, &found) && found.size == wanted.size &&
                       memcmp(found.bytes, variable, found.size) == 0 &&
                       ti_capability_by_variable(wanted.bytes, wanted.size, &by_variable) &&
                       by_variable.kind == kind && by_variable.index == index;
    bool is_code = ti_termcap_code(kind, index, &found) && found.size == coded.size &&
                   memcmp(found.bytes, code, found.size) == 0 &&
                   ti_capability_by_code(kind, coded.bytes, coded.size, &by_code) &&
                   by_code.kind == kind;
    uint32_t last = kind == TI_STRING && strcmp(variable, "set_left_margin") == 0 ? 368 : index;
    compared += 2;
    if (!is_variable) differences++, printf("%s differs\n", variable);
    if (!is_code || by_code.index != last) differences++, printf("%s: the code %s differs\n", variable, code);
}

static void compare_tables(void) {
    for (uint32_t i = 0; i < TI_FLAGS; i++) compare_words(TI_FLAG, i, boolfnames[i], boolcodes[i]);
    for (uint32_t i = 0; i < TI_NUMBERS; i++) compare_words(TI_NUMBER, i, numfnames[i], numcodes[i]);
    for (uint32_t i = 0; i < TI_STRINGS; i++) compare_words(TI_STRING, i, strfnames[i], strcodes[i]);
}

static bool read_file(const char *path, uint8_t *bytes, size_t room, size_t *size) {
    FILE *file = fopen(path, "rb");
    if (!file) return false;
    *size = fread(bytes, 1, room, file);
    fclose(file);
    return true;
}

static void compare_entry(const char *name, const char *path) {
    static uint8_t bytes[70000];
    size_t size = 0;
    struct ti_entry entry = TI_ENTRY_EMPTY;
    int error = 0;
    if (!read_file(path, bytes, sizeof bytes, &size) || ti_entry_read(bytes, size, &entry)) {
        differences++, printf("%s: refused\n", path);
        return;
    }
    if (setupterm((char *)name, 1, &error) != OK) {
        unopened++;
        return;
    }
    entries++;
    int before = differences;
    struct ti_variables clear = { { 0 } };
    variables = clear;
    struct ti_text text = TI_NOTHING;
    ti_long_name(&entry, &text);
    if (text.size != strlen(longname()) || memcmp(text.bytes, longname(), text.size))
        differences++, show("names", text.bytes, text.size), printf("ncurses: %s\n", longname());
    compare_values(&entry);
    for (uint32_t i = 0; i < TI_STRINGS; i++) compare_string(&entry, i);
    if (differences != before) printf("of %s\n", path);
    del_curterm(cur_term);
}

int main(void) {
    char line[4096];
    use_env(FALSE); /* what the entry says of lines and columns, not the window */
    compare_tables();
    while (fgets(line, sizeof line, stdin)) {
        char *blank = strchr(line, ' ');
        line[strcspn(line, "\n")] = 0;
        if (!blank) return 2;
        *blank = 0;
        compare_entry(line, blank + 1);
    }
    printf("%d entries, %d not opened by ncurses, %d strings, %d comparisons, %d differences; %d refused, %d taken otherwise\n",
           entries, unopened, strings, compared, differences, refused, apart);
    return differences != 0;
}
