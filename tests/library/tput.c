/*
 * What `tput` writes of a string, by libti alone: `tput TERM CAPABILITY [NUMBER..]`. The status is
 * 0; 1 if the string is absent, 3 if the entry is not opened, 4 if the capability is unknown; 5 if
 * ti_send says otherwise.
 */
#include "test.h"

static size_t put(const uint8_t *bytes, size_t size, void *context) {
    return fwrite(bytes, 1, size, (FILE *)context);
}

int main(int argc, char **argv) {
    struct ti_output output = { put, NULL, stdout };
    struct ti_entry *entry = NULL;
    struct ti_text text = TI_NOTHING;
    struct ti_line line = TI_LINE_EMPTY;
    struct ti_variables variables = { { 0 } };
    struct ti_parameter numbers[9];
    if (argc < 3 || argc > 12) return 2;
    if (ti_open_profile(argv[1], &entry)) return 3;
    int32_t is = ti_string_named(entry, argv[2], &text);
    size_t count = (size_t)argc - 3;
    for (size_t i = 0; i < count; i++) numbers[i] = ti_number_given(atoi(argv[i + 3]));
    ti_line_of(entry, 0, &line);
    struct ti_outcome sent =
        ti_send(entry, &variables, &line, argv[2], numbers, count, 1, &output);
    if (sent.status != (is == 1 ? TI_OK : TI_ABSENT)) return 5;
    ti_entry_free(entry);
    return is == 1 ? 0 : is == 0 ? 1 : 4;
}
