/* Every call of libti: what it gives, each of its refusals, and that a refusal changes nothing. */
#include "test.h"

/* Room to write to, filled with a byte that no result has. */
static uint8_t out[4096], untouched[4096];
enum { FILL = 0xee };

static void clear_out(void) {
    memset(out, FILL, sizeof out);
    memset(untouched, FILL, sizeof untouched);
}

/* Whether these bytes were written to the front of `out`, and nothing after them. */
static bool wrote(const char *bytes, size_t size) {
    return memcmp(out, bytes, size) == 0 && memcmp(out + size, untouched, sizeof out - size) == 0;
}

/* ---- capabilities */

static bool is_at(const char *name, uint32_t kind, uint32_t index) {
    struct ti_place place = { 9, 9 };
    struct ti_text text = TI_NOTHING;
    return ti_capability((const uint8_t *)name, strlen(name), &place) && place.kind == kind &&
           place.index == index && ti_name(kind, index, &text) &&
           is_text(text, name, strlen(name));
}

static void capabilities(void) {
    CHECK(is_at("bw", TI_FLAG, 0));
    CHECK(is_at("am", TI_FLAG, 1));
    CHECK(is_at("OTxr", TI_FLAG, 43));
    CHECK(is_at("cols", TI_NUMBER, 0));
    CHECK(is_at("colors", TI_NUMBER, 13));
    CHECK(is_at("OTkn", TI_NUMBER, 38));
    CHECK(is_at("cbt", TI_STRING, 0));
    CHECK(is_at("cup", TI_STRING, 10));
    CHECK(is_at("setaf", TI_STRING, 359));
    CHECK(is_at("box1", TI_STRING, 413));
    static const char *const unknown[] = { "", "CUP", "cu", "cupp", "cup ", "setaf\n" };
    struct ti_place place = { 7, 8 };
    for (int i = 0; i < 6; i++)
        CHECK(!ti_capability((const uint8_t *)unknown[i], strlen(unknown[i]), &place));
    CHECK(!ti_capability((const uint8_t *)"cup", 4, &place));
    CHECK(place.kind == 7 && place.index == 8);
    struct ti_text text = TI_NOTHING;
    CHECK(!ti_name(TI_FLAG, TI_FLAGS, &text) && !ti_name(TI_NUMBER, TI_NUMBERS, &text));
    CHECK(!ti_name(TI_STRING, TI_STRINGS, &text) && !ti_name(3, 0, &text));
    CHECK(!ti_name(TI_FLAG, UINT32_MAX, &text) && !ti_name(UINT32_MAX, 0, &text));
    CHECK(is_text(text, "", 0));
}

static bool is_variable(const char *variable, uint32_t kind, uint32_t index) {
    struct ti_place place = { 9, 9 };
    struct ti_text text = TI_NOTHING;
    return ti_capability_by_variable((const uint8_t *)variable, strlen(variable), &place) &&
           place.kind == kind && place.index == index && ti_variable_name(kind, index, &text) &&
           is_text(text, variable, strlen(variable));
}

static bool is_code(const char *code, uint32_t kind, uint32_t index) {
    struct ti_place place = { 9, 9 };
    struct ti_text text = TI_NOTHING;
    return ti_capability_by_code(kind, (const uint8_t *)code, 2, &place) && place.kind == kind &&
           place.index == index && ti_termcap_code(kind, index, &text) && is_text(text, code, 2);
}

static bool has_code(uint32_t kind, const char *code) {
    struct ti_place place = { 7, 8 };
    bool is_found = ti_capability_by_code(kind, (const uint8_t *)code, strlen(code), &place);
    CHECK(is_found || (place.kind == 7 && place.index == 8));
    return is_found;
}

/* The variables and the codes are those of terminfo(5). */
static void other_names(void) {
    CHECK(is_variable("auto_left_margin", TI_FLAG, 0));
    CHECK(is_variable("max_colors", TI_NUMBER, 13));
    CHECK(is_variable("cursor_address", TI_STRING, 10));
    CHECK(is_variable("box_chars_1", TI_STRING, 413));
    CHECK(is_code("am", TI_FLAG, 1) && is_code("Co", TI_NUMBER, 13) && is_code("cm", TI_STRING, 10));
    CHECK(is_code("MT", TI_FLAG, 40) && is_code("MT", TI_STRING, 369));
    CHECK(is_code("ma", TI_NUMBER, 11) && is_code("ma", TI_STRING, 399));
    /* smgl has it too */
    CHECK(is_code("ML", TI_STRING, 368));
    static const char *const unknown[] = { "", "cup", "cursor_addres", "cursor_address ", "cm" };
    struct ti_place place = { 7, 8 };
    for (int i = 0; i < 5; i++)
        CHECK(!ti_capability_by_variable((const uint8_t *)unknown[i], strlen(unknown[i]), &place));
    CHECK(place.kind == 7 && place.index == 8);
    CHECK(!has_code(TI_FLAG, "cm") && !has_code(TI_STRING, "Co") && !has_code(TI_STRING, ""));
    CHECK(!has_code(TI_STRING, "c") && !has_code(TI_STRING, "cm ") && !has_code(3, "cm"));
    struct ti_text text = TI_NOTHING;
    CHECK(!ti_variable_name(TI_FLAG, TI_FLAGS, &text) && !ti_variable_name(3, 0, &text));
    CHECK(!ti_termcap_code(TI_STRING, TI_STRINGS, &text) && !ti_termcap_code(3, 0, &text));
    CHECK(is_text(text, "", 0));
}

/* ---- reading */

static uint8_t bytes[8192];

static enum ti_status refusal_of(size_t size) {
    /* a block of just that size, so that a read past it is seen */
    uint8_t *block = (uint8_t *)malloc(size ? size : 1);
    struct ti_entry entry = TI_ENTRY_EMPTY, before = TI_ENTRY_EMPTY, *copy = NULL;
    if (!block) abort();
    memcpy(block, bytes, size);
    enum ti_status refusal = ti_entry_read(block, size, &entry);
    if (refusal) CHECK(entry.names.size == 0 && entry.bytes.bytes == before.bytes.bytes);
    CHECK(ti_entry_new(block, size, &copy) == refusal && (copy == NULL) == (refusal != 0));
    ti_entry_free(copy);
    free(block);
    return refusal;
}

/* The refusal of the entry of these parts with one byte changed. */
static enum ti_status refusal_with(struct parts parts, size_t at, uint8_t byte) {
    size_t size = put_entry(bytes, &parts);
    bytes[at] = byte;
    return refusal_of(size);
}

static void refusals(void) {
    struct parts parts = dumb();
    size_t size = put_entry(bytes, &parts);
    size_t flags = 12 + strlen(parts.names) + 1, numbers = flags + 4, offsets = numbers + 6;
    CHECK(refusal_of(size) == 0 && refusal_of(size + 100) == 0);
    CHECK(refusal_of(0) == TI_SHORT && refusal_of(11) == TI_SHORT);
    CHECK(refusal_of(12) == TI_TRUNCATED && refusal_of(size - 1) == TI_TRUNCATED);
    CHECK(refusal_with(parts, 0, 0x1b) == TI_MAGIC && refusal_with(parts, 1, 2) == TI_MAGIC);
    CHECK(refusal_with(parts, 3, 0x80) == TI_COUNTS && refusal_with(parts, 4, 45) == TI_COUNTS);
    CHECK(refusal_with(parts, 6, 40) == TI_COUNTS && refusal_with(parts, 11, 0x80) == TI_COUNTS);
    CHECK(refusal_with(parts, 9, 0x80) == TI_COUNTS && refusal_with(parts, 7, 1) == TI_COUNTS);
    CHECK(refusal_with(parts, 14, 0) == TI_BAD_NAMES);
    CHECK(refusal_with(parts, flags - 1, 'x') == TI_BAD_NAMES);
    CHECK(refusal_with(parts, flags, 2) == TI_BAD_FLAG);
    CHECK(refusal_with(parts, flags + 3, 0xfd) == TI_BAD_FLAG);
    CHECK(refusal_with(parts, numbers + 4, 0xfd) == TI_BAD_NUMBER);
    CHECK(refusal_with(parts, numbers + 1, 0x80) == TI_BAD_NUMBER);
    CHECK(refusal_with(parts, offsets + 2 * DIM, 0xfd) == TI_BAD_OFFSET);
    CHECK(refusal_with(parts, offsets + 2 * BEL, DUMB_TABLE) == TI_BAD_OFFSET);
    CHECK(refusal_with(parts, offsets + 2 * BEL + 1, 0x7f) == TI_BAD_OFFSET);
    /* an offset at the last byte of a table without a NUL there */
    size = put_entry(bytes, &parts);
    bytes[size - 1] = 'x';
    bytes[offsets + 2 * BEL] = DUMB_TABLE - 1;
    CHECK(refusal_of(size) == TI_BAD_OFFSET);
    /* the first that holds decides */
    size = put_entry(bytes, &parts);
    bytes[flags] = 2, bytes[numbers + 4] = 0xfd, bytes[offsets + 2 * DIM] = 0xfd;
    CHECK(refusal_of(size) == TI_BAD_FLAG);
    bytes[14] = 0;
    CHECK(refusal_of(size) == TI_BAD_NAMES && refusal_of(size - 1) == TI_TRUNCATED);
    struct parts nameless = dumb();
    nameless.names = "";
    CHECK(refusal_of(put_entry(bytes, &nameless)) == TI_BAD_NAMES);
}

/* ---- values */

static void values_of(const struct ti_entry *entry) {
    struct ti_text text = TI_NOTHING;
    ti_names(entry, &text);
    CHECK(is_text(text, "dumb|tty|80-column dumb tty", 27));
    ti_first_name(entry, &text);
    CHECK(is_text(text, "dumb", 4));
    ti_long_name(entry, &text);
    CHECK(is_text(text, "80-column dumb tty", 18));
    CHECK(ti_flag(entry, 0) == 0 && ti_flag(entry, 1) == 1 && ti_flag(entry, 2) == 0);
    CHECK(ti_flag(entry, 3) == 0 && ti_flag(entry, 4) == 0 && ti_flag(entry, 43) == 0);
    CHECK(ti_flag(entry, 44) == -1 && ti_flag(entry, UINT32_MAX) == -1);
    CHECK(ti_number(entry, 0) == 80 && ti_number(entry, 1) == -1 && ti_number(entry, 2) == -1);
    CHECK(ti_number(entry, 3) == -1 && ti_number(entry, 38) == -1);
    CHECK(ti_number(entry, 39) == -2 && ti_number(entry, UINT32_MAX) == -2);
    CHECK(ti_string(entry, 0, &text) == 1 && is_text(text, "", 0));
    CHECK(ti_string(entry, CR, &text) == 1 && is_text(text, "\r$<20>", 6));
    CHECK(ti_string(entry, CUD1, &text) == 1 && is_text(text, "\n", 1));
    CHECK(ti_string(entry, BEL, &text) == 1 && is_text(text, "\a", 1));
    CHECK(ti_string(entry, DIM, &text) == 0 && ti_string(entry, 3, &text) == 0);
    CHECK(ti_string(entry, 413, &text) == 0 && ti_string(entry, 414, &text) == -1);
    CHECK(ti_string(entry, UINT32_MAX, &text) == -1 && is_text(text, "\a", 1));
    CHECK(ti_flag_named(entry, "am") == 1 && ti_flag_named(entry, "cols") == -1);
    CHECK(ti_number_named(entry, "cols") == 80 && ti_number_named(entry, "am") == -2);
    CHECK(ti_string_named(entry, "cud1", &text) == 1 && is_text(text, "\n", 1));
    CHECK(ti_string_named(entry, "nosuch", &text) == -1 && ti_string_named(entry, "", &text) == -1);
    /* by the variables and the codes of termcap, of the kind that is asked for */
    CHECK(ti_flag_named(entry, "auto_right_margin") == 1 && ti_flag_named(entry, "auto_left_margin") == 0);
    CHECK(ti_number_named(entry, "columns") == 80 && ti_number_named(entry, "co") == 80);
    CHECK(ti_number_named(entry, "li") == -1 && ti_number_named(entry, "cursor_address") == -2);
    CHECK(ti_string_named(entry, "cursor_down", &text) == 1 && is_text(text, "\n", 1));
    CHECK(ti_string_named(entry, "bl", &text) == 1 && is_text(text, "\a", 1));
    CHECK(ti_string_named(entry, "columns", &text) == -1 && is_text(text, "\a", 1));
}

static void values(void) {
    struct parts parts = dumb();
    struct ti_entry entry = TI_ENTRY_EMPTY, *copy = NULL;
    size_t size = put_entry(bytes, &parts);
    CHECK(ti_entry_read(bytes, size, &entry) == 0);
    values_of(&entry);
    CHECK(ti_entry_new(bytes, size, &copy) == 0);
    memset(bytes, FILL, sizeof bytes);
    values_of(copy);
    ti_entry_free(copy);
    ti_entry_free(NULL);
    /* the extended number format */
    static const int32_t numbers[] = { 2147483647, -1, -2, 70000 };
    parts.wide = true, parts.numbers = numbers, parts.number_count = 4;
    size = put_entry(bytes, &parts);
    CHECK(ti_entry_read(bytes, size, &entry) == 0);
    CHECK(ti_number(&entry, 0) == 2147483647 && ti_number(&entry, 1) == -1);
    CHECK(ti_number(&entry, 2) == -1 && ti_number(&entry, 3) == 70000);
    /* one name alone */
    struct ti_text text = TI_NOTHING;
    parts = dumb(), parts.names = "x";
    CHECK(ti_entry_read(bytes, put_entry(bytes, &parts), &entry) == 0);
    ti_names(&entry, &text), CHECK(is_text(text, "x", 1));
    ti_first_name(&entry, &text), CHECK(is_text(text, "x", 1));
    ti_long_name(&entry, &text), CHECK(is_text(text, "x", 1));
    struct ti_entry empty = TI_ENTRY_EMPTY;
    ti_names(&empty, &text), CHECK(is_text(text, "", 0));
    CHECK(ti_flag(&empty, 1) == 0 && ti_number(&empty, 0) == -1 && ti_string(&empty, 0, &text) == 0);
}

/* ---- expansion */

static struct ti_variables variables;

static struct ti_outcome expand(const char *format, size_t size, const struct ti_parameter *params,
                                size_t count, size_t room) {
    clear_out();
    return ti_expand((const uint8_t *)format, size, params, count, &variables, out, room);
}

/* Whether a format gives these bytes: with no room at first, and again with what is needed. */
static bool gives(const char *format, const struct ti_parameter *params, size_t count,
                  const char *wanted) {
    struct ti_variables before = variables;
    size_t size = strlen(wanted);
    struct ti_outcome outcome = expand(format, strlen(format), params, count, 0);
    bool asked = outcome.size == size && outcome.status == (size ? TI_NO_ROOM : TI_OK);
    if (size) asked = asked && !memcmp(&before, &variables, sizeof before) && wrote("", 0);
    if (size > 1) {
        outcome = expand(format, strlen(format), params, count, size - 1);
        asked = asked && outcome.status == TI_NO_ROOM && outcome.size == size && wrote("", 0);
        asked = asked && !memcmp(&before, &variables, sizeof before);
    }
    outcome = expand(format, strlen(format), params, count, size);
    return asked && outcome.status == TI_OK && outcome.size == size && wrote(wanted, size);
}

static bool gives_of(const char *format, int32_t first, int32_t second, const char *wanted) {
    struct ti_parameter params[2] = { ti_number_given(first), ti_number_given(second) };
    return gives(format, params, 2, wanted);
}

/* Whether a format is refused with this status at this place, and changes nothing. */
static bool refuses(const char *format, size_t size, enum ti_status status, size_t place) {
    struct ti_variables before = variables;
    struct ti_parameter none = ti_number_given(0);
    struct ti_outcome outcome = expand(format, size, &none, 0, sizeof out);
    return outcome.status == status && outcome.size == place && wrote("", 0) &&
           !memcmp(&before, &variables, sizeof before);
}

static void expansion(void) {
    const char *setaf = "\033[%?%p1%{8}%<%t3%p1%d%e%p1%{16}%<%t9%p1%{8}%-%d%e38;5;%p1%d%;m";
    CHECK(gives_of("\033[%i%p1%d;%p2%dH", 4, 9, "\033[5;10H"));
    CHECK(gives_of(setaf, 1, 0, "\033[31m"));
    CHECK(gives_of(setaf, 9, 0, "\033[91m"));
    CHECK(gives_of(setaf, 200, 0, "\033[38;5;200m"));
    CHECK(gives_of("", 0, 0, "") && gives_of("plain$<5>", 0, 0, "plain$<5>") && gives_of("%%", 0, 0, "%"));
    CHECK(gives_of("%p1%d %p2%x", -2147483647 - 1, -1, "-2147483648 ffffffff"));
    CHECK(gives_of("%p1%{2}%/%d %p1%{0}%/%d %p1%{0}%m%d", -7, 0, "-3 0 0"));
    CHECK(gives_of("%p1%c", 256, 0, "\x80") && gives_of("%p1%c", 65, 0, "A"));
    CHECK(gives_of("%p1%:-5d|%p2%05d|%p1%.3d", 7, -42, "7    |-0042|007"));
    /* parameters that are not given are 0, and those after the ninth are not looked at */
    struct ti_parameter ten[10];
    for (int i = 0; i < 10; i++) ten[i] = ti_number_given(i + 1);
    ten[9].kind = 77;
    CHECK(gives("%p9%d", ten, 10, "9") && gives("%p2%d%p9%d", ten, 2, "20"));
    struct ti_parameter texts[2] = { ti_text_given((const uint8_t *)"ls\r", 3), ti_number_given(5) };
    CHECK(gives("%p1%s:%p1%l%d:%p2%d:%p1%d", texts, 2, "ls\r:3:5:0"));
    texts[0].kind = UINT32_MAX;
    CHECK(gives("%p1%5.2s", texts, 1, "   ls"));
    /* static variables stay from call to call, dynamic ones do not */
    struct ti_variables clear = { { 0 } };
    variables = clear;
    CHECK(gives_of("%p1%PA%p2%Pa%gA%d%ga%d", 42, 7, "427"));
    CHECK(variables.values[0] == 42 && variables.values[1] == 0 && variables.values[25] == 0);
    CHECK(gives_of("%gA%d%ga%d", 0, 0, "420"));
    CHECK(gives_of("%p1%PZ%gZ%d", -5, 0, "-5") && variables.values[25] == -5);
    CHECK(refuses("%p1%PA%", 7, TI_BAD_FORMAT, 6) && refuses("ab%z", 4, TI_BAD_FORMAT, 2));
    CHECK(refuses("%?%p1%t%;%;", 11, TI_BAD_FORMAT, 9) && refuses("%p0", 3, TI_BAD_FORMAT, 0));
    CHECK(refuses("%{2147483648}", 13, TI_BAD_FORMAT, 0) && refuses("%e", 2, TI_BAD_FORMAT, 0));
    char full[64] = "";
    for (int i = 0; i < 21; i++) strcat(full, "%p1");
    CHECK(refuses(full, 63, TI_STACK_FULL, 60));
    full[60] = 0;
    CHECK(gives_of(full, 1, 0, ""));
    /* a byte 0 is a byte */
    struct ti_parameter none = ti_number_given(0);
    struct ti_outcome outcome = expand("a\0b", 3, &none, 0, sizeof out);
    CHECK(outcome.status == TI_OK && outcome.size == 3 && wrote("a\0b", 3));
}

/* What a front and this many copies of a piece give, without parameters and without room. */
static struct ti_outcome of_copies(const char *front, const char *piece, size_t count) {
    size_t size = strlen(front), step = strlen(piece), all = size + count * step;
    char *format = malloc(all + 1);
    if (!format) return (struct ti_outcome){ TI_NO_MEMORY, 0 };
    memcpy(format, front, size);
    for (size_t i = 0; i < count; i++) memcpy(format + size + i * step, piece, step);
    struct ti_outcome outcome = expand(format, all, NULL, 0, 0);
    free(format);
    return outcome;
}

static bool is_outcome(struct ti_outcome outcome, enum ti_status status, size_t size) {
    return outcome.status == status && outcome.size == size;
}

/* Formats of up to 2,000,000 bytes: conditionals that are opened and never closed, parts that are
 * taken and that are not, and values that nothing pops. */
static void long_formats(void) {
    CHECK(is_outcome(of_copies("", "%?", 1000000), TI_BAD_FORMAT, 128));
    CHECK(is_outcome(of_copies("%?%p1%t", "%%", 100000), TI_OK, 0));
    CHECK(is_outcome(of_copies("%?%p1%!%t", "%%", 100000), TI_NO_ROOM, 100000));
    CHECK(is_outcome(of_copies("", "%p1", 1000000), TI_STACK_FULL, 60));
    CHECK(is_outcome(of_copies("%?", "%p1%tA%e", 200000), TI_OK, 0));
}

/* ---- parameters */

/* Whether a string takes these parameters; `strings` has a bit for each that is a string. */
static bool takes(const char *format, size_t named, unsigned strings, size_t popped) {
    struct ti_parameters taken = { 77, 77, { false } };
    if (!ti_parameters_of((const uint8_t *)format, strlen(format), &taken)) return false;
    unsigned found = 0;
    for (int i = 0; i < 9; i++) found |= (unsigned)taken.strings[i] << i;
    return taken.named == named && found == strings && taken.popped == popped;
}

static void parameters(void) {
    CHECK(takes("", 0, 0, 0) && takes("plain", 0, 0, 0) && takes("\033[%i%p1%d;%p2%dH", 2, 0, 0));
    CHECK(takes("\033]4;%p1%d;%p2%s", 2, 1u << 1, 0) && takes("%p9%l%d%p2%5.3s", 9, 1u << 8 | 1u << 1, 0));
    CHECK(takes("%p2\"%%%s\"", 2, 1u << 1, 0) && takes("%p1%i%s", 1, 0, 0));
    CHECK(takes("%p1%p2%s%s", 2, 1u << 1, 0));
    CHECK(takes("%i%d;%d", 0, 0, 2) && takes("%{32}%+%c", 0, 0, 1) && takes("%s", 0, 0, 1));
    CHECK(takes("%+%+%+%+%+%+%+%+%+%c", 0, 0, 9));
    struct ti_parameters taken = { 5, 6, { true } }, kept = taken;
    CHECK(!ti_parameters_of((const uint8_t *)"%p1%d%", 6, &taken) && !memcmp(&taken, &kept, sizeof kept));
    CHECK(ti_parameters_of(NULL, 0, &taken) && taken.named == 0 && taken.popped == 0 && !taken.strings[0]);
}

/* Whether a string is this one with its parameters named: without room at first, then with it. */
static bool names(const char *format, const char *wanted) {
    const uint8_t *given = (const uint8_t *)format;
    size_t size = strlen(wanted);
    clear_out();
    struct ti_outcome outcome = ti_named_format(given, strlen(format), out, size ? size - 1 : 0);
    if (outcome.status != (size ? TI_NO_ROOM : TI_OK) || outcome.size != size || !wrote("", 0)) return false;
    outcome = ti_named_format(given, strlen(format), out, size);
    return outcome.status == TI_OK && outcome.size == size && wrote(wanted, size);
}

/* A string of termcap takes its parameters from the stack, the first one from its top. */
static void named_formats(void) {
    struct ti_parameter two[2] = { ti_number_given(4), ti_number_given(9) };
    CHECK(names("", "") && names("plain", "plain") && names("%p1%d%d", "%p1%d%d"));
    CHECK(names("\033[%d;%dH", "%p2%p1\033[%d;%dH") && gives("%p2%p1\033[%d;%dH", two, 2, "\033[4;9H"));
    CHECK(names("\033[%i%d;%dH", "%i%p2%p1\033[%i%d;%dH"));
    CHECK(gives("%i%p2%p1\033[%i%d;%dH", two, 2, "\033[5;10H"));
    CHECK(names("%%i%d", "%p1%%i%d") && names("%'%'%i%c%d", "%i%p1%'%'%i%c%d"));
    clear_out();
    struct ti_outcome outcome = ti_named_format((const uint8_t *)"%d%z", 4, out, sizeof out);
    CHECK(outcome.status == TI_BAD_FORMAT && outcome.size == 2 && wrote("", 0));
    outcome = ti_named_format(NULL, 0, NULL, 0);
    CHECK(outcome.status == TI_OK && outcome.size == 0);
}

/* ---- padding */

static struct ti_outcome pad(const char *text, uint32_t lines, struct ti_line line, size_t room) {
    clear_out();
    return ti_pad((const uint8_t *)text, strlen(text), lines, &line, out, room);
}

static bool pads(const char *text, uint32_t lines, struct ti_line line, const char *wanted) {
    size_t size = strlen(wanted);
    struct ti_outcome outcome = pad(text, lines, line, 0);
    bool asked = outcome.size == size && outcome.status == (size ? TI_NO_ROOM : TI_OK);
    asked = asked && wrote("", 0);
    outcome = pad(text, lines, line, size);
    return asked && outcome.status == TI_OK && outcome.size == size && wrote(wanted, size);
}

static void padding(void) {
    struct ti_line line = { 9600, 0, false, true, '.' };
    /* 2 milliseconds at 9,600 bits a second, ten bits a byte: 1.92 bytes, so 2 */
    CHECK(pads("a$<2>b", 1, line, "a..b") && pads("a$<2*>b", 3, line, "a......b"));
    CHECK(pads("$<0.1>", 1, line, ".") && pads("$<>$<x>$", 1, line, "$<>$<x>$"));
    struct ti_line busy = { 9600, 0, true, true, '.' };
    CHECK(pads("a$<2>b$<2/>c", 1, busy, "ab..c"));
    struct ti_line slow = { 1200, 9600, false, true, '.' };
    CHECK(pads("a$<20>b$<2/>c", 1, slow, "ab.c"));
    struct ti_line none = { 9600, 0, false, false, '.' };
    CHECK(pads("a$<20>b$<20/>c", 1, none, "abc"));
    CHECK(pads("", 1, line, "") && pads("plain", 1, line, "plain"));
    struct ti_outcome outcome = pad("a$<99999*>", UINT32_MAX, line, sizeof out);
    CHECK(outcome.status == TI_TOO_MUCH && outcome.size == 0 && wrote("", 0));
    /* 65,536 pad bytes are not too many: that many bits, times 10, in a second; one more is */
    struct ti_line fast = { 655360, 0, false, true, '.' };
    outcome = pad("$<1000>", 1, fast, sizeof out);
    CHECK(outcome.status == TI_NO_ROOM && outcome.size == 65536);
    fast.rate = 655361;
    outcome = pad("$<1000>", 1, fast, sizeof out);
    CHECK(outcome.status == TI_TOO_MUCH);
}

/* ---- the line of an entry */

static struct ti_line line_with(size_t flag, int pad_from, const char *pad_text) {
    uint8_t flags[44] = { 0 };
    int32_t numbers[6] = { -1, -1, -1, -1, -1, pad_from };
    int16_t offsets[105];
    for (int i = 0; i < 105; i++) offsets[i] = -1;
    if (pad_text) offsets[104] = 0;
    if (flag < 44) flags[flag] = 1;
    char table[8] = "";
    if (pad_text) strcpy(table, pad_text);
    struct parts parts = { false, "t", 44, 6, 105, 8, flags, numbers, offsets, table };
    struct ti_entry entry = TI_ENTRY_EMPTY;
    struct ti_line line = TI_LINE_EMPTY;
    CHECK(ti_entry_read(bytes, put_entry(bytes, &parts), &entry) == 0);
    ti_line_of(&entry, 38400, &line);
    CHECK(line.rate == 38400);
    return line;
}

static void lines(void) {
    struct ti_line line = line_with(44, -1, NULL);
    CHECK(!line.xon && line.pad_from == 0 && line.has_pad_byte && line.pad_byte == 0);
    CHECK(line_with(20, -1, NULL).xon && line_with(44, 1200, NULL).pad_from == 1200);
    line = line_with(44, -1, "xy");
    CHECK(line.has_pad_byte && line.pad_byte == 'x');
    CHECK(!line_with(25, -1, "xy").has_pad_byte);
}

/* ---- places and paths */

static bool place_is(const char *terminfo, const char *dirs, uint32_t index, const char *wanted) {
    struct ti_text own = ti_text_of(terminfo ? terminfo : ""), listed = ti_text_of(dirs ? dirs : "");
    struct ti_text found = ti_text_of("as it was");
    bool is = ti_places(own.bytes, own.size, dirs != NULL, listed.bytes, listed.size, index, &found);
    if (!wanted) return !is && is_text(found, "as it was", 9);
    return is && is_text(found, wanted, strlen(wanted));
}

static void places(void) {
    const char *system = "/usr/share/terminfo";
    CHECK(place_is(NULL, NULL, 0, system) && place_is(NULL, NULL, 1, NULL));
    CHECK(place_is("", NULL, 0, system) && place_is("", NULL, 1, NULL));
    CHECK(place_is("/own", NULL, 0, "/own") && place_is("/own", NULL, 1, system));
    CHECK(place_is("/own", NULL, 2, NULL) && place_is("/own", NULL, UINT32_MAX, NULL));
    CHECK(place_is(NULL, "", 0, system) && place_is(NULL, "", 1, system) && place_is(NULL, "", 2, NULL));
    CHECK(place_is(NULL, "/a::/b:", 0, "/a") && place_is(NULL, "/a::/b:", 1, system));
    CHECK(place_is(NULL, "/a::/b:", 2, "/b") && place_is(NULL, "/a::/b:", 3, system));
    CHECK(place_is(NULL, "/a::/b:", 4, system) && place_is(NULL, "/a::/b:", 5, NULL));
    CHECK(place_is("/own:x", "/a", 0, "/own:x") && place_is("/own:x", "/a", 1, "/a"));
    CHECK(place_is("/own:x", "/a", 2, system) && place_is("/own:x", "/a", 3, NULL));
}

static struct ti_outcome path_of(const char *dir, const char *name, size_t size, size_t room) {
    clear_out();
    return ti_path((const uint8_t *)dir, strlen(dir), (const uint8_t *)name, size, out, room);
}

static void paths(void) {
    struct ti_outcome outcome = path_of("/usr/share/terminfo", "xterm", 5, 28);
    CHECK(outcome.status == TI_OK && outcome.size == 28);
    CHECK(wrote("/usr/share/terminfo/x/xterm\0", 28));
    outcome = path_of("/usr/share/terminfo", "xterm", 5, 27);
    CHECK(outcome.status == TI_NO_ROOM && outcome.size == 28 && wrote("", 0));
    outcome = path_of("", "a", 1, sizeof out);
    CHECK(outcome.status == TI_OK && outcome.size == 5 && wrote("/a/a\0", 5));
    static const char *const bad[] = { "", ".", "..", "a/b", "a|b", "a,b", "a b", "\x7f", "\xc3\xa9", "a\n" };
    for (int i = 0; i < 10; i++) {
        outcome = path_of("/d", bad[i], strlen(bad[i]), sizeof out);
        CHECK(outcome.status == TI_BAD_NAME && outcome.size == 0 && wrote("", 0));
    }
    outcome = path_of("/d", "a\0", 2, sizeof out);
    CHECK(outcome.status == TI_BAD_NAME);
    outcome = path_of("/d", "...", 3, sizeof out);
    CHECK(outcome.status == TI_OK && wrote("/d/./...\0", 9));
}

static bool system_is(uint32_t index, const char *wanted) {
    struct ti_text found = ti_text_of("as it was");
    bool is = ti_system_directories(index, &found);
    return is == (wanted != NULL) && is_text(found, wanted ? wanted : "as it was", wanted ? strlen(wanted) : 9);
}

static void system_directories(void) {
    CHECK(system_is(0, "/etc/terminfo") && system_is(1, "/lib/terminfo"));
    CHECK(system_is(2, "/usr/share/terminfo"));
    CHECK(system_is(3, NULL) && system_is(UINT32_MAX, NULL));
}

/* ---- user-defined capabilities: term(5), "Extended storage format" */

/*
 * An entry without capabilities and, after it, the extension of `AX` (set), `XT` (cancelled),
 * `U8#1`, `Se=\E[2 q` and `Ss` (absent). Gives its size.
 */
static size_t put_extended(uint8_t *bytes) {
    static const uint8_t extension[] = {
        2, 0, 1, 0, 2, 0, 6, 0, 21, 0, /* booleans, numbers, strings, texts in the table, its size */
        1, 0xfe, 1, 0, 0, 0, 0xff, 0xff, 0, 0, 3, 0, 6, 0, 9, 0, 12, 0,
        033, '[', '2', ' ', 'q', 0, 'A', 'X', 0, 'X', 'T', 0, 'U', '8', 0, 'S', 'e', 0, 'S', 's', 0
    };
    struct parts parts = { false, "t", 0, 0, 0, 0, NULL, NULL, NULL, "" };
    uint8_t nothing[1] = { 0 };
    int32_t number[1] = { 0 };
    int16_t offset[1] = { 0 };
    parts.flags = nothing, parts.numbers = number, parts.offsets = offset;
    size_t size = put_entry(bytes, &parts);
    memcpy(bytes + size, extension, sizeof extension);
    return size + sizeof extension;
}

static bool is_named(const struct ti_extension *extension, const char *name, const struct ti_value *wanted) {
    struct ti_value value = TI_VALUE_EMPTY;
    bool is = ti_user_defined_named(extension, (const uint8_t *)name, strlen(name), &value);
    if (!wanted->is_present) return !is && !value.is_present && value.text.size == 0;
    return is && value.is_present && value.kind == wanted->kind && value.number == wanted->number
           && is_text(value.text, (const char *)wanted->text.bytes, wanted->text.size);
}

static void user_defined(void) {
    uint8_t bytes[200];
    struct ti_entry entry = TI_ENTRY_EMPTY;
    struct ti_extension extension = TI_EXTENSION_EMPTY;
    size_t size = put_extended(bytes);
    CHECK(ti_entry_read(bytes, size, &entry) == 0 && ti_extension_read(&entry, &extension) == 0);
    CHECK(ti_user_defined_count(&extension) == 5);
    static const char *const names[] = { "AX", "XT", "U8", "Se", "Ss" };
    static const uint32_t kinds[] = { TI_FLAG, TI_FLAG, TI_NUMBER, TI_STRING, TI_STRING };
    for (size_t i = 0; i < 5; i++) {
        struct ti_text name = TI_NOTHING;
        struct ti_value value = TI_VALUE_EMPTY;
        CHECK(ti_user_defined(&extension, i, &name, &value) && is_text(name, names[i], 2));
        CHECK(value.kind == kinds[i] && value.is_present == (i != 1 && i != 4));
        CHECK(value.number == (i == 0 || i == 2) && is_text(value.text, "\033[2 q", i == 3 ? 5 : 0));
        CHECK(is_named(&extension, names[i], &value));
    }
    struct ti_text name = ti_text_of("as it was");
    struct ti_value value = { TI_NUMBER, true, 7, ti_text_of("as it was") };
    CHECK(!ti_user_defined(&extension, 5, &name, &value) && is_text(name, "as it was", 9));
    CHECK(!ti_user_defined_named(&extension, (const uint8_t *)"Tc", 2, &value));
    CHECK(value.kind == TI_NUMBER && value.number == 7 && is_text(value.text, "as it was", 9));
    /* a table that is cut, and an entry without an extension, or none at all */
    CHECK(ti_entry_read(bytes, size - 1, &entry) == 0);
    CHECK(ti_extension_read(&entry, &extension) == TI_BAD_EXTENSION);
    CHECK(ti_user_defined_count(&extension) == 5);
    struct ti_entry none = TI_ENTRY_EMPTY;
    CHECK(ti_extension_read(&none, &extension) == TI_SHORT);
    struct parts parts = { false, "t", 0, 0, 0, 0, bytes, NULL, NULL, "" };
    CHECK(ti_entry_read(bytes, put_entry(bytes, &parts), &entry) == 0);
    CHECK(ti_extension_read(&entry, &extension) == 0 && ti_user_defined_count(&extension) == 0);
}

/* ---- errors and versions */

static void sentences(void) {
    enum { COUNT = TI_TOO_LARGE + 1 };
    for (int i = 0; i < COUNT; i++)
        for (int j = 0; j < i; j++)
            CHECK(strcmp(ti_strerror((enum ti_status)i), ti_strerror((enum ti_status)j)) != 0);
    CHECK(!strcmp(ti_strerror(TI_OK), "Success"));
    CHECK(!strcmp(ti_strerror(TI_NO_TERMINAL), "No terminal has the name"));
    CHECK(!strcmp(ti_strerror(TI_NO_ROOM), "The bytes are more than the room for them"));
    CHECK(!strcmp(ti_strerror(TI_TERM_UNSET), "The variable TERM is not set"));
    CHECK(!strcmp(ti_strerror((enum ti_status)COUNT), "Unknown status"));
    CHECK(!strcmp(ti_strerror((enum ti_status)UINT32_MAX), "Unknown status"));
    CHECK(!strcmp(ti_version(), TI_VERSION));
}

/* ---- output */

static char written[70000];
static size_t written_size, put_limit;

static int put(int byte) {
    if (written_size == put_limit) return -1;
    written[written_size++] = (char)byte;
    return byte;
}

static struct ti_outcome put_text(const char *text, size_t limit) {
    struct ti_line line = { 9600, 0, false, true, '.' };
    written_size = 0, put_limit = limit;
    return ti_puts((const uint8_t *)text, strlen(text), 1, &line, put);
}

static void output(void) {
    struct ti_outcome outcome = put_text("a$<2>b", sizeof written);
    CHECK(outcome.status == TI_OK && outcome.size == 4 && !memcmp(written, "a..b", 4));
    outcome = put_text("a$<5000>b", sizeof written);
    CHECK(outcome.status == TI_OK && outcome.size == 4802 && written_size == 4802);
    CHECK(written[0] == 'a' && written[4800] == '.' && written[4801] == 'b');
    outcome = put_text("a$<5000>b", 100);
    CHECK(outcome.status == TI_NOT_TAKEN && outcome.size == 100 && written_size == 100);
    outcome = put_text("ab", 0);
    CHECK(outcome.status == TI_NOT_TAKEN && outcome.size == 0);
    outcome = put_text("a$<99999>$<99999>b", sizeof written);
    CHECK(outcome.status == TI_TOO_MUCH && written_size == 0);
    outcome = put_text("", 0);
    CHECK(outcome.status == TI_OK && outcome.size == 0);
}

/* ---- an empty text without a pointer */

static void empties(void) {
    struct ti_place place = { 7, 8 };
    struct ti_entry entry = TI_ENTRY_EMPTY, *copy = NULL;
    struct ti_extension extension = TI_EXTENSION_EMPTY;
    struct ti_value value = TI_VALUE_EMPTY;
    struct ti_line line = { 9600, 0, false, true, '.' };
    struct ti_variables none = { { 0 } };
    CHECK(!ti_capability(NULL, 0, &place) && place.kind == 7);
    CHECK(ti_entry_read(NULL, 0, &entry) == TI_SHORT && ti_entry_new(NULL, 0, &copy) == TI_SHORT);
    CHECK(!ti_user_defined_named(&extension, NULL, 0, &value));
    clear_out();
    struct ti_outcome outcome = ti_expand(NULL, 0, NULL, 0, &none, NULL, 0);
    CHECK(outcome.status == TI_OK && outcome.size == 0);
    outcome = ti_expand((const uint8_t *)"a%p1%d", 6, NULL, 0, &none, NULL, 0);
    CHECK(outcome.status == TI_NO_ROOM && outcome.size == 2);
    struct ti_parameter text = ti_text_given(NULL, 0);
    CHECK(gives("[%p1%s:%p1%l%d:%p1%d]", &text, 1, "[:0:0]") && gives("%p1%3s", &text, 1, "   "));
    outcome = ti_pad(NULL, 0, 1, &line, NULL, 0);
    CHECK(outcome.status == TI_OK && outcome.size == 0);
    outcome = ti_puts(NULL, 0, 1, &line, put);
    CHECK(outcome.status == TI_OK && outcome.size == 0);
    outcome = ti_pad((const uint8_t *)"a$<2>", 5, 1, &line, NULL, 0);
    CHECK(outcome.status == TI_NO_ROOM && outcome.size == 3);
    clear_out();
    outcome = ti_path(NULL, 0, (const uint8_t *)"a", 1, out, sizeof out);
    CHECK(outcome.status == TI_OK && wrote("/a/a\0", 5));
    CHECK(ti_path((const uint8_t *)"/d", 2, NULL, 0, NULL, 0).status == TI_BAD_NAME);
    static const char *const system = "/usr/share/terminfo";
    for (uint32_t i = 0; i < 3; i++) {
        struct ti_text found = TI_NOTHING;
        CHECK(ti_places(NULL, 0, false, NULL, 0, i, &found) == (i < 1));
        if (i < 1) CHECK(is_text(found, system, strlen(system)));
        CHECK(ti_places(NULL, 0, true, NULL, 0, i, &found) == (i < 2));
        if (i < 2) CHECK(is_text(found, system, strlen(system)));
    }
}

int main(void) {
    CHECK(TI_VERSION_NUMBER == 10000 * TI_VERSION_MAJOR + 100 * TI_VERSION_MINOR + TI_VERSION_PATCH);
    capabilities();
    other_names();
    refusals();
    values();
    expansion();
    long_formats();
    parameters();
    named_formats();
    padding();
    lines();
    places();
    paths();
    system_directories();
    user_defined();
    sentences();
    output();
    empties();
    return close_checks();
}
