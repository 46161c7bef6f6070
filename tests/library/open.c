/*
 * Opens the entry that the last argument, or TERM, names: prints the status, the description and
 * the path that are found. With `profile` before it, the entry that `ti tput` finds, without path.
 */
#include "test.h"

int main(int argc, char **argv) {
    struct ti_entry *entry = NULL, *again = NULL;
    struct ti_text text = TI_NOTHING;
    char *path = NULL;
    bool is_profile = argc > 1 && !strcmp(argv[1], "profile");
    const char *name = argc > 1 + is_profile ? argv[argc - 1] : NULL;
    enum ti_status status =
        is_profile ? ti_open_profile(name, &entry) : ti_open_path(name, &entry, &path);
    CHECK((entry != NULL) == (status == TI_OK));
    if (entry) ti_long_name(entry, &text);
    printf("%d\n%.*s\n%s\n", (int)status, (int)text.size, (const char *)text.bytes, path ? path : "");
    if (!is_profile) CHECK(ti_open(name, &again) == status && (again != NULL) == (status == TI_OK));
    ti_entry_free(again);
    ti_entry_free(entry);
    free(path);
    return failures != 0;
}
