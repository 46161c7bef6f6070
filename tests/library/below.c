/* Reads the entry of a name below a directory, `below DIRECTORY NAME`: prints the status. */
#include "test.h"

int main(int argc, char **argv) {
    struct ti_entry *entry = NULL;
    if (argc != 3) return 2;
    enum ti_status status = ti_open_below(argv[1], argv[2], &entry);
    CHECK((entry != NULL) == (status == TI_OK));
    ti_entry_free(entry);
    printf("%d\n", (int)status);
    return failures != 0;
}
