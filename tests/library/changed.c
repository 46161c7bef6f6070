/*
 * Entries that are changed in memory. `changed FILE CHANGE..` writes the entry of a file with
 * changes to standard output: F:name sets a boolean, N:name:number and S:name:bytes give a value,
 * A:name takes away. Without words it checks each refusal and what is left as it was.
 */
#include "test.h"

#include "ti_names.h"

enum { ROOM = 65536 };
static uint8_t given[ROOM], out[ROOM], kept[ROOM];

/* The change that a word says. The word is cut. */
static struct ti_change change_of(char *word) {
    char kind = word[0], *name = word + 2, *value = strchr(name, ':');
    if (value) *value++ = 0;
    if (kind == 'F') return ti_flag_change(name);
    if (kind == 'N') return ti_number_change(name, (uint32_t)strtoul(value, NULL, 10));
    if (kind == 'S') return ti_string_change(name, value);
    return ti_absent_change(name);
}

/* Writes the changed entry twice: by the caller's room, and from an entry that was made of it. */
static int write_changed(const char *path, char **words, size_t count) {
    struct ti_entry entry = TI_ENTRY_EMPTY, *changed = NULL;
    struct ti_extension extension = TI_EXTENSION_EMPTY;
    struct ti_text names = TI_NOTHING, bytes = TI_NOTHING;
    struct ti_change changes[64];
    FILE *file = fopen(path, "rb");
    size_t size = file ? fread(given, 1, sizeof given, file) : 0;
    if (ti_entry_read(given, size, &entry) || ti_extension_read(&entry, &extension)) return 2;
    fclose(file);
    for (size_t i = 0; i < count; i++) changes[i] = change_of(words[i]);
    ti_names(&entry, &names);
    struct ti_outcome needed = ti_entry_write(&entry, &extension, names.bytes, names.size, changes,
                                              count, NULL, 0);
    struct ti_outcome done = ti_entry_write(&entry, &extension, names.bytes, names.size, changes,
                                            count, out, needed.size);
    struct ti_outcome made = ti_entry_change(&entry, changes, count, &changed);
    if (needed.status != TI_NO_ROOM || done.status != TI_OK || made.status != TI_OK) return 3;
    ti_entry_bytes(changed, &bytes);
    if (done.size != needed.size || !is_text(bytes, (const char *)out, done.size)) return 4;
    fwrite(out, 1, done.size, stdout);
    ti_entry_free(changed);
    return 0;
}

static struct ti_entry entry = TI_ENTRY_EMPTY;
static struct ti_extension none = TI_EXTENSION_EMPTY;
static const struct ti_text names = { (const uint8_t *)"dumb|other", 10 };

/* Whether changes are refused, by a status and a number, with the room as it was. */
static bool is_refused(struct ti_text field, const struct ti_change *changes, size_t count,
                       size_t room, enum ti_status status, size_t size) {
    memset(out, 0xa5, sizeof out);
    memcpy(kept, out, sizeof out);
    struct ti_outcome done = ti_entry_write(&entry, &none, field.bytes, field.size, changes, count,
                                            out, room);
    return done.status == status && done.size == size && memcmp(out, kept, sizeof out) == 0;
}

static bool is_bad(struct ti_change change, enum ti_status status) {
    struct ti_change changes[2] = { ti_flag_change("bw"), TI_CHANGE_EMPTY };
    changes[1] = change;
    return is_refused(names, changes, 2, ROOM, status, 1);
}

static struct ti_change of_kind(uint32_t kind) {
    struct ti_change change = ti_flag_change("XX");
    change.value.kind = kind;
    return change;
}

static void refusals(void) {
    static char text[ROOM];
    struct ti_text field = names;
    const char *bad[] = { "", "a b", "use", "a=b", "\303\251", "a_b" };
    for (size_t i = 0; i < sizeof bad / sizeof *bad; i++) {
        CHECK(is_bad(ti_string_change(bad[i], "x"), TI_BAD_CAPABILITY));
        CHECK(is_bad(ti_absent_change(bad[i]), TI_BAD_CAPABILITY));
    }
    CHECK(is_bad(ti_number_change("am", 1), TI_BAD_VALUE) && is_bad(ti_string_change("cols", "x"), TI_BAD_VALUE));
    CHECK(is_bad(ti_flag_change("cup"), TI_BAD_VALUE) && is_bad(of_kind(3), TI_BAD_VALUE));
    CHECK(is_bad(ti_number_change("cols", 1u << 31), TI_BAD_VALUE) && is_bad(ti_number_change("XX", 1u << 31), TI_BAD_VALUE));
    CHECK(is_bad(ti_text_change("cup", (const uint8_t *)"a\0b", 3), TI_BAD_VALUE));
    CHECK(is_bad(ti_text_change("XX", (const uint8_t *)"\0", 1), TI_BAD_VALUE));
    /* names that an entry cannot have */
    field.size = 0;
    CHECK(is_refused(field, NULL, 0, ROOM, TI_BAD_NAMES, 0));
    field.bytes = (const uint8_t *)"a\0b";
    field.size = 3;
    CHECK(is_refused(field, NULL, 0, ROOM, TI_BAD_NAMES, 0));
    memset(text, 'n', sizeof text - 1);
    field.bytes = (const uint8_t *)text;
    field.size = 128;
    CHECK(is_refused(field, NULL, 0, ROOM, TI_BAD_NAMES, 0));
    field.size = 127;
    CHECK(ti_entry_write(&entry, &none, field.bytes, 127, NULL, 0, out, ROOM).status == TI_OK);
    /* the limits: 4,096 bytes, and 32,768 with a number over 32,767 */
    struct ti_change large[2] = { ti_string_change("XX", text), ti_number_change("cols", 32768) };
    large[0].value.text.size = 5000;
    CHECK(is_refused(names, large, 1, ROOM, TI_TOO_LARGE, 0));
    CHECK(ti_entry_write(&entry, &none, names.bytes, names.size, large, 2, out, ROOM).status == TI_OK);
    large[0].value.text.size = 33000;
    CHECK(is_refused(names, large, 2, ROOM, TI_TOO_LARGE, 0));
    large[0].name = ti_text_of("cup");
    CHECK(is_refused(names, large, 2, ROOM, TI_TOO_LARGE, 0));
    /* a header, the names with their NUL, and a zero byte before the numbers */
    CHECK(is_refused(names, NULL, 0, 3, TI_NO_ROOM, 12 + 11 + 1));
}

/* An entry made of nothing, and changed again: the last change of a name decides. */
static void from_nothing(void) {
    const struct ti_change changes[] = {
        ti_flag_change("am"), ti_number_change("cols", 70000), ti_string_change("cup", "first"),
        ti_string_change("Smulx", "<%p1%d>"), ti_flag_change("Tc"), ti_number_change("U8", 1),
        ti_string_change("cup", "last"), ti_string_change("AX", "x"), ti_absent_change("AX"),
        ti_absent_change("bw"), ti_number_change("Tc", 3), ti_string_change("empty", ""),
    };
    struct ti_entry made = TI_ENTRY_EMPTY, *again = NULL;
    struct ti_text text = TI_NOTHING;
    struct ti_outcome done = ti_entry_write(&entry, &none, names.bytes, names.size, changes,
                                            sizeof changes / sizeof *changes, out, ROOM);
    CHECK(done.status == TI_OK && ti_entry_read(out, done.size, &made) == TI_OK);
    CHECK(ti_flag_named(&made, "am") == 1 && ti_flag_named(&made, "bw") == 0 && ti_flag_named(&made, "Tc") == -1);
    CHECK(ti_number_named(&made, "cols") == 70000 && ti_number_named(&made, "U8") == 1 && ti_number_named(&made, "Tc") == 3);
    CHECK(ti_string_named(&made, "cup", &text) == 1 && is_text(text, "last", 4));
    CHECK(ti_string_named(&made, "Smulx", &text) == 1 && is_text(text, "<%p1%d>", 7));
    CHECK(ti_string_named(&made, "empty", &text) == 1 && !text.size && ti_string_named(&made, "AX", &text) == -1);
    const struct ti_change one = ti_absent_change("Smulx");
    CHECK(ti_entry_change(&made, &one, 1, &again).status == TI_OK);
    CHECK(ti_string_named(again, "Smulx", &text) == -1 && ti_number_named(again, "Tc") == 3);
    ti_long_name(again, &text);
    CHECK(is_text(text, "other", 5));
    ti_entry_free(again);
    /* after the entry is no extension */
    memset(out + done.size - 30, 0xff, 30);
    struct ti_entry *before = again = NULL;
    struct ti_outcome refused = { TI_OK, 0 };
    if (ti_entry_read(out, done.size, &made) == TI_OK) refused = ti_entry_change(&made, &one, 1, &again);
    CHECK(refused.status == TI_BAD_EXTENSION && again == before);
}

static size_t put_nowhere(const uint8_t *bytes, size_t size, void *context) {
    struct ti_text *sent = (struct ti_text *)context;
    memcpy(kept, bytes, size);
    sent->bytes = kept;
    sent->size = size;
    return size;
}

static void terminals(void) {
    struct ti_text sent = TI_NOTHING;
    const struct ti_output output = { put_nowhere, NULL, &sent };
    struct ti_terminal *terminal = NULL;
    struct ti_entry *own = NULL;
    struct ti_outcome done = ti_entry_write(&entry, &none, names.bytes, names.size, NULL, 0, out, ROOM);
    if (!CHECK(ti_entry_new(out, done.size, &own) == TI_OK)) return;
    if (!CHECK(ti_terminal_new(own, 0, &output, &terminal) == TI_OK)) return;
    const struct ti_change changes[] = { ti_string_change("cup", "to %p1%d"), ti_string_change("Smulx", "<%p1%d>") };
    const struct ti_change bad = ti_string_change("a b", "x");
    CHECK(ti_put(terminal, TI_CUP, 1).status == TI_ABSENT);
    CHECK(ti_terminal_change(terminal, changes, 2).status == TI_OK);
    CHECK(ti_put(terminal, TI_CUP, 7).status == TI_OK && is_text(sent, "to 7", 4));
    CHECK(ti_put_named(terminal, "Smulx", 3).status == TI_OK && is_text(sent, "<3>", 3));
    CHECK(ti_terminal_change(terminal, &bad, 1).status == TI_BAD_CAPABILITY);
    CHECK(ti_put(terminal, TI_CUP, 8).status == TI_OK && is_text(sent, "to 8", 4));
    ti_terminal_close(terminal);
}

int main(int argc, char **argv) {
    if (argc > 1) return write_changed(argv[1], argv + 2, (size_t)argc - 2);
    refusals();
    from_nothing();
    terminals();
    return close_checks();
}
