/*
 * Damaged entries: each byte of an entry set to other values, and the entry cut at each size. Each
 * is read in a block of just its size, and whatever it says is looked at, its user-defined
 * capabilities too; some are changed. Run it under a sanitizer.
 *
 *     damaged FILE..    also damages these compiled entries, which have user-defined capabilities
 */
#include "test.h"

static size_t seen;

static void look_at(struct ti_text text) {
    for (size_t i = 0; i < text.size; i++) seen += text.bytes[i];
}

static bool look_through(const struct ti_entry *entry) {
    static uint8_t out[70000];
    struct ti_text text = TI_NOTHING;
    struct ti_variables variables = { { 0 } };
    struct ti_parameter params[2] = { ti_number_given(4), ti_number_given(9) };
    struct ti_line line = TI_LINE_EMPTY;
    ti_names(entry, &text), look_at(text);
    ti_first_name(entry, &text), look_at(text);
    ti_long_name(entry, &text), look_at(text);
    ti_line_of(entry, 9600, &line);
    for (uint32_t i = 0; i <= TI_FLAGS; i++) seen += (size_t)ti_flag(entry, i);
    for (uint32_t i = 0; i <= TI_NUMBERS; i++) seen += (size_t)ti_number(entry, i);
    for (uint32_t i = 0; i <= TI_STRINGS; i++) {
        if (ti_string(entry, i, &text) != 1) continue;
        look_at(text);
        seen += ti_expand(text.bytes, text.size, params, 2, &variables, out, sizeof out).size;
        seen += ti_pad(text.bytes, text.size, 24, &line, out, sizeof out).size;
    }
    return true;
}

/* Changes an entry, if it can be written. What is written has the changes. */
static void change(const struct ti_entry *entry) {
    const struct ti_change changes[2] = { ti_string_change("cup", "x"), ti_string_change("Smulx", "y") };
    struct ti_entry *changed = NULL;
    struct ti_extension extension = TI_EXTENSION_EMPTY;
    struct ti_text text = TI_NOTHING;
    enum ti_status status = ti_entry_change(entry, changes, 2, &changed).status;
    CHECK(status == TI_OK || status == TI_BAD_NAMES || status == TI_TOO_LARGE);
    if (status != TI_OK) return;
    CHECK(ti_extension_read(changed, &extension) == TI_OK);
    CHECK(ti_string_named(changed, "cup", &text) == 1 && is_text(text, "x", 1));
    CHECK(ti_string_named(changed, "Smulx", &text) == 1 && is_text(text, "y", 1));
    ti_entry_free(changed);
}

/* Looks at each user-defined capability, by index and by name. Gives whether they can be read. */
static bool look_beyond(const struct ti_entry *entry) {
    struct ti_extension extension = TI_EXTENSION_EMPTY;
    enum ti_status refusal = ti_extension_read(entry, &extension);
    CHECK(refusal == 0 || refusal == TI_BAD_EXTENSION);
    size_t count = ti_user_defined_count(&extension);
    CHECK(refusal == 0 || count == 0);
    for (size_t i = 0; i <= count; i++) {
        struct ti_text name = TI_NOTHING;
        struct ti_value value = TI_VALUE_EMPTY, named = TI_VALUE_EMPTY;
        CHECK(ti_user_defined(&extension, i, &name, &value) == (i < count));
        if (i == count) break;
        look_at(name), look_at(value.text);
        bool is_found = ti_user_defined_named(&extension, name.bytes, name.size, &named);
        CHECK(is_found || !value.is_present);
    }
    /* one in seven, since that takes longer */
    static size_t turn;
    if (refusal == 0 && turn++ % 7 == 0) change(entry);
    return refusal == 0;
}

/* Reads bytes in a block of just their size, and looks through what they say. */
static bool looks_through(const uint8_t *bytes, size_t size, bool (*look)(const struct ti_entry *)) {
    uint8_t *block = (uint8_t *)malloc(size ? size : 1);
    struct ti_entry entry = TI_ENTRY_EMPTY;
    if (!block) abort();
    memcpy(block, bytes, size);
    enum ti_status refusal = ti_entry_read(block, size, &entry);
    CHECK(refusal <= TI_BAD_OFFSET);
    bool is_read = !refusal && look(&entry);
    free(block);
    return is_read;
}

/* Each byte set to other values. Some of what comes of it can be read, and some cannot. */
static void damage_each(uint8_t *bytes, size_t size, bool (*look)(const struct ti_entry *)) {
    static const uint8_t values[] = { 0x00, 0x01, 0x7f, 0x80, 0xff };
    size_t read = 0;
    for (size_t at = 0; at < size; at++)
        for (int i = 0; i < 5; i++) {
            uint8_t before = bytes[at];
            bytes[at] = values[i];
            read += looks_through(bytes, size, look);
            bytes[at] = before;
        }
    CHECK(read > 0 && read < 5 * size);
}

/* A compiled entry with user-defined capabilities, damaged. */
static void damage_file(const char *path) {
    static uint8_t bytes[32768];
    FILE *file = fopen(path, "rb");
    if (!CHECK(file != NULL)) return;
    size_t size = fread(bytes, 1, sizeof bytes, file);
    fclose(file);
    CHECK(looks_through(bytes, size, look_beyond));
    damage_each(bytes, size, look_beyond);
    for (size_t cut = 0; cut < size; cut++) looks_through(bytes, cut, look_beyond);
}

int main(int count, char **words) {
    static uint8_t bytes[8192];
    for (int wide = 0; wide < 2; wide++) {
        struct parts parts = dumb();
        parts.wide = wide;
        size_t size = put_entry(bytes, &parts);
        damage_each(bytes, size, look_through);
        for (size_t cut = 0; cut < size; cut++) CHECK(!looks_through(bytes, cut, look_through));
        CHECK(looks_through(bytes, size, look_through));
    }
    for (int i = 1; i < count; i++) damage_file(words[i]);
    printf("%zu\n", seen);
    return close_checks();
}
