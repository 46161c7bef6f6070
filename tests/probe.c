/*
 * What a view of libti shows of files, for the tests: for each file that a word names a line
 * "file PATH"; then "refused" and the cause, or a line of the names, one of the first name and one
 * for each capability that is there, in the order of terminfo(5), strings in hexadecimal.
 */
#include <stdint.h>
#include <stdio.h>
#include <ti.h>

/* the longest file that is read */
enum { FILE_MAX = 65536 };

static const char *const causes[] = {
    "", "Short", "Magic", "Counts", "Truncated", "BadNames", "BadFlag", "BadNumber", "BadOffset",
};

static void print_string(const char *name, size_t size, struct ti_text text) {
    printf("%.*s=", (int)size, name);
    for (size_t at = 0; at < text.size; at++)
        printf("%02x", text.bytes[at]);
    putchar('\n');
}

static void print_capability(const struct ti_entry *entry, uint32_t kind, uint32_t index) {
    struct ti_text name, text;
    if (!ti_name(kind, index, &name))
        return;
    if (kind == TI_FLAG && ti_flag(entry, index) == 1)
        printf("%.*s\n", (int)name.size, (const char *)name.bytes);
    if (kind == TI_NUMBER && ti_number(entry, index) >= 0)
        printf("%.*s#%lld\n", (int)name.size, (const char *)name.bytes, (long long)ti_number(entry, index));
    if (kind == TI_STRING && ti_string(entry, index, &text) == 1)
        print_string((const char *)name.bytes, name.size, text);
}

static void print_entry(const struct ti_entry *entry) {
    static const uint32_t counts[] = {TI_FLAGS, TI_NUMBERS, TI_STRINGS};
    struct ti_text text;
    ti_names(entry, &text);
    print_string("names", 5, text);
    ti_first_name(entry, &text);
    print_string("first name", 10, text);
    for (uint32_t kind = TI_FLAG; kind <= TI_STRING; kind++)
        for (uint32_t index = 0; index < counts[kind]; index++)
            print_capability(entry, kind, index);
}

/* Gives 1 if the file cannot be read. */
static int print_file(const char *path) {
    static uint8_t bytes[FILE_MAX + 1];
    struct ti_entry entry = TI_ENTRY_EMPTY;
    FILE *file = fopen(path, "rb");
    if (!file)
        return 1;
    size_t size = fread(bytes, 1, sizeof bytes, file);
    fclose(file);
    printf("file %s\n", path);
    if (size > FILE_MAX) {
        puts("too long");
        return 0;
    }
    enum ti_status status = ti_entry_read(bytes, size, &entry);
    if (status == TI_OK)
        print_entry(&entry);
    else
        printf("refused %s\n", causes[status]);
    return 0;
}

int main(int count, char **words) {
    for (int at = 1; at < count; at++)
        if (print_file(words[at])) {
            fprintf(stderr, "probe: %s: cannot be read\n", words[at]);
            return 1;
        }
    return 0;
}
