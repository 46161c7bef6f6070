/*
 * What the tools of ncurses, such as tput and tic, call of its libtinfo to find names, and no page
 * describes: its tic.h has these declarations.
 */
#include "tinfo.h"

/* ---- names of files */

/* Where the name of a file in its directory begins. */
EXPORTED unsigned _nc_pathlast(const char *path) {
    const char *slash = strrchr(path, '/');
    return slash ? (unsigned)(slash + 1 - path) : 0;
}

EXPORTED char *_nc_basename(char *path) { return path + _nc_pathlast(path); }

/* The name of a program by the path that began it. */
EXPORTED char *_nc_rootname(char *path) { return _nc_basename(path); }

EXPORTED bool _nc_is_abs_path(const char *path) { return *path == '/'; }

/* ---- names of capabilities */

/* A name of terminfo or a code of termcap. */
struct name_table_entry {
    const char *name;
    int kind; /* as of ti.h */
    short index; /* within its kind, as in an entry */
    short next; /* of a table that is searched; -1 if it is the last */
};

enum { KINDS = 3, ROWS = TI_FLAGS + TI_NUMBERS + TI_STRINGS };

/* Where the rows of each kind begin. */
static const int first_row[KINDS] = { 0, TI_FLAGS, TI_FLAGS + TI_NUMBERS };

/* All names, in the order of an entry: booleans, numbers, strings. */
EXPORTED const struct name_table_entry *_nc_get_table(bool is_termcap) {
    static const int counts[KINDS] = { TI_FLAGS, TI_NUMBERS, TI_STRINGS };
    static struct name_table_entry tables[2][ROWS];
    const char *const *names[2][KINDS] = { { boolnames, numnames, strnames },
                                           { boolcodes, numcodes, strcodes } };
    struct name_table_entry *row = tables[is_termcap];
    if (row->name) return row;
    for (int kind = 0; kind < KINDS; kind++)
        for (int i = 0; i < counts[kind]; i++)
            *row++ = (struct name_table_entry){ names[is_termcap][kind][i], kind, (short)i, -1 };
    return tables[is_termcap];
}

/*
 * The capability of a kind with a name of terminfo, or with a code of termcap, of which two bytes
 * are looked at; NULL if none is.
 */
EXPORTED const struct name_table_entry *_nc_find_type_entry(const char *name, int kind,
                                                            bool is_code) {
    struct ti_text text = ti_text_of(name);
    struct ti_place place = { 0, 0 };
    if (is_code && text.size > 2) text.size = 2;
    bool is_found = is_code ? ti_capability_by_code((uint32_t)kind, text.bytes, text.size, &place)
                            : ti_capability(text.bytes, text.size, &place);
    if (!is_found || (int)place.kind != kind) return NULL;
    return _nc_get_table(is_code) + first_row[kind] + place.index;
}

/* The addresses by which _nc_find_entry is passed a table. */
static const short of_table[2];

EXPORTED const short *_nc_get_hash_table(bool is_termcap) { return &of_table[is_termcap]; }

/* Whether a capability is obsolete, of termcap alone. */
static bool is_obsolete(const struct name_table_entry *row) {
    const struct name_table_entry *names = _nc_get_table(false);
    return strncmp(names[first_row[row->kind] + row->index].name, "OT", 2) == 0;
}

/*
 * The capability with a name in a table; NULL if none has it. Of kinds that share a code, such as
 * `MT`, an obsolete capability comes first, then a string, and then a number.
 */
EXPORTED const struct name_table_entry *_nc_find_entry(const char *name, const short *table) {
    bool is_code = table == &of_table[1];
    const struct name_table_entry *first = NULL;
    for (int kind = KINDS - 1; kind >= 0; kind--) {
        const struct name_table_entry *found = _nc_find_type_entry(name, kind, is_code);
        if (found && is_obsolete(found)) return found;
        if (!first) first = found;
    }
    return first;
}
