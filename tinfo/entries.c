/*
 * Entries as tic, infocmp and toe of ncurses hold them, in the structs of its <term_entry.h>: read
 * from a file, copied, freed, and given the same user-defined capabilities as another one. As in
 * ncurses a program ends if memory is refused here.
 */
#include "tinfo.h"

#include <limits.h>
#include <stdio.h>
#include <stdlib.h>

enum { KINDS = 3 };

/* The entries of a source, which libtic adds: the first and the last one. */
EXPORTED ENTRY *_nc_head, *_nc_tail;

/* Zeros for so many values. */
static void *zeros_for(size_t count, size_t size) {
    void *made = calloc(count + 1, size);
    if (!made) _nc_err_abort("Out of memory");
    return made;
}

/* A copy of so many values. */
static void *copy_of(const void *from, size_t count, size_t size) {
    void *made = zeros_for(count, size);
    return count ? memcpy(made, from, count * size) : made;
}

/* ---- entries without capabilities, copies, and what is no longer used */

/* Has an entry lack every capability. Its arrays are used again if it has some. */
EXPORTED void _nc_init_termtype(TERMTYPE2 *entry) {
    if (!entry->Booleans) entry->Booleans = (signed char *)zeros_for(TI_FLAGS, 1);
    if (!entry->Numbers) entry->Numbers = (int *)zeros_for(TI_NUMBERS, sizeof(int));
    if (!entry->Strings) entry->Strings = (char **)zeros_for(TI_STRINGS, sizeof(char *));
    entry->num_Booleans = TI_FLAGS;
    entry->num_Numbers = TI_NUMBERS;
    entry->num_Strings = TI_STRINGS;
    entry->ext_Booleans = entry->ext_Numbers = entry->ext_Strings = 0;
    memset(entry->Booleans, 0, TI_FLAGS);
    for (int i = 0; i < TI_NUMBERS; i++) entry->Numbers[i] = -1;
    for (int i = 0; i < TI_STRINGS; i++) entry->Strings[i] = NULL;
}

static size_t size_of(const char *text) { return is_string(text) ? strlen(text) + 1 : 0; }

/* Copies a text, if it is one, to where there is room for it, and moves that to its end. */
static char *put_copy(char *text, char **room) {
    char *copy = *room;
    if (!is_string(text)) return text;
    *room = stpcpy(copy, text) + 1;
    return copy;
}

static size_t names_count(const TERMTYPE2 *entry) {
    return (size_t)entry->ext_Booleans + entry->ext_Numbers + entry->ext_Strings;
}

/* Copies the names field and the strings of an entry into a table of its own. */
static void copy_strings(TERMTYPE2 *to) {
    size_t size = size_of(to->term_names);
    for (int i = 0; i < to->num_Strings; i++) size += size_of(to->Strings[i]);
    char *room = to->str_table = (char *)zeros_for(size, 1);
    to->term_names = put_copy(to->term_names, &room);
    for (int i = 0; i < to->num_Strings; i++) to->Strings[i] = put_copy(to->Strings[i], &room);
}

/* The same with the names of user-defined capabilities. */
static void copy_names(TERMTYPE2 *to) {
    size_t count = names_count(to), size = 0;
    for (size_t i = 0; i < count; i++) size += size_of(to->ext_Names[i]);
    char *room = to->ext_str_table = (char *)zeros_for(size, 1);
    for (size_t i = 0; i < count; i++) to->ext_Names[i] = put_copy(to->ext_Names[i], &room);
}

EXPORTED void _nc_copy_termtype2(TERMTYPE2 *to, const TERMTYPE2 *from) {
    *to = *from;
    to->Booleans = (signed char *)copy_of(from->Booleans, from->num_Booleans, 1);
    to->Numbers = (int *)copy_of(from->Numbers, from->num_Numbers, sizeof(int));
    to->Strings = (char **)copy_of(from->Strings, from->num_Strings, sizeof(char *));
    to->ext_Names = (char **)copy_of(from->ext_Names, names_count(from), sizeof(char *));
    copy_strings(to);
    copy_names(to);
}

static void free_arrays(TERMTYPE2 *entry) {
    free(entry->Booleans);
    free(entry->Numbers);
    free(entry->Strings);
    free(entry->ext_Names);
}

EXPORTED void _nc_free_termtype2(TERMTYPE2 *entry) {
    free_arrays(entry);
    free(entry->str_table);
    free(entry->ext_str_table);
    memset(entry, 0, sizeof *entry);
}

/* Frees all entries of the source; which one is named does not matter, as in ncurses. */
EXPORTED void _nc_free_entries(ENTRY *first) {
    (void)first;
    while (_nc_head) {
        ENTRY *entry = _nc_head;
        _nc_head = entry->next;
        _nc_free_termtype2(&entry->tterm);
        free(entry);
    }
    _nc_tail = NULL;
}

static const TERMTYPE2 nothing;

/*
 * The entry of the source that libtic checks, if the current terminal is the one that it makes for
 * that, of which no header shows where the entry is; else NULL. It is that whose name messages say.
 */
const TERMTYPE2 *checked_entry(void) {
    char name[513];
    if (cur_term->type.Strings) return NULL;
    _nc_get_type(name);
    size_t size = strlen(name);
    for (const ENTRY *entry = _nc_head; entry; entry = entry->next) {
        const char *names = entry->tterm.term_names;
        if (strcspn(names, "|") == size && strncmp(names, name, size) == 0) return &entry->tterm;
    }
    return &nothing;
}

/* The first of the names of a terminal. The next call uses its room again. */
EXPORTED char *_nc_first_name(const char *names) {
    static char name[513];
    snprintf(name, sizeof name, "%.*s", (int)strcspn(names, "|"), names);
    return name;
}

/* ---- reading */

/* Fills in what the tables of an entry have. */
static void fill_tables(TERMTYPE2 *made, const struct ti_entry *entry) {
    size_t width = entry->wide ? 4 : 2;
    struct ti_text text = TI_NOTHING;
    for (uint32_t i = 0; i < TI_FLAGS; i++)
        made->Booleans[i] = is_cancelled(entry->flags, i, 1) ? -2 : ti_flag(entry, i) == 1;
    for (uint32_t i = 0; i < TI_NUMBERS; i++)
        made->Numbers[i] = is_cancelled(entry->numbers, i, width) ? -2 : (int)ti_number(entry, i);
    for (uint32_t i = 0; i < TI_STRINGS; i++) {
        if (ti_string(entry, i, &text) == 1) made->Strings[i] = (char *)text.bytes;
        else made->Strings[i] = is_cancelled(entry->offsets, i, 2) ? CANCELLED : NULL;
    }
    ti_names(entry, &text);
    made->term_names = (char *)text.bytes;
}

/* Fills in a boolean, a number or a string that is user-defined, the next one of its kind. */
static void fill_flag(TERMTYPE2 *made, bool is, const struct ti_extension *extension) {
    size_t at = made->num_Booleans++;
    bool is_cancel = is_cancelled(extension->flags, at - TI_FLAGS, 1);
    made->Booleans[at] = is ? 1 : is_cancel ? -2 : 0;
}
static void fill_number(TERMTYPE2 *made, const struct ti_value *value,
                        const struct ti_extension *extension) {
    size_t at = made->num_Numbers++, width = extension->wide ? 4 : 2;
    bool is_cancel = is_cancelled(extension->numbers, at - TI_NUMBERS, width);
    made->Numbers[at] = value->is_present ? (int)value->number : is_cancel ? -2 : -1;
}
static void fill_string(TERMTYPE2 *made, const struct ti_value *value,
                        const struct ti_extension *extension) {
    size_t at = made->num_Strings++;
    bool is_cancel = is_cancelled(extension->values, at - TI_STRINGS, 2);
    if (value->is_present) made->Strings[at] = (char *)value->text.bytes;
    else made->Strings[at] = is_cancel ? CANCELLED : NULL;
}

/* Fills in what an extension says. */
static void fill_extension(TERMTYPE2 *made, const struct ti_extension *extension) {
    struct ti_text name = TI_NOTHING;
    struct ti_value value = TI_VALUE_EMPTY;
    made->num_Booleans = TI_FLAGS;
    made->num_Numbers = TI_NUMBERS;
    made->num_Strings = TI_STRINGS;
    for (size_t i = 0; ti_user_defined(extension, i, &name, &value); i++) {
        made->ext_Names[i] = (char *)name.bytes;
        if (value.kind == TI_FLAG) fill_flag(made, value.is_present, extension);
        else if (value.kind == TI_NUMBER) fill_number(made, &value, extension);
        else fill_string(made, &value, extension);
    }
    made->ext_Booleans = (unsigned short)(made->num_Booleans - TI_FLAGS);
    made->ext_Numbers = (unsigned short)(made->num_Numbers - TI_NUMBERS);
    made->ext_Strings = (unsigned short)(made->num_Strings - TI_STRINGS);
}

/* Makes an entry of ncurses of one of libti. */
static void make_entry(TERMTYPE2 *made, const struct ti_entry *entry) {
    struct ti_extension extension = TI_EXTENSION_EMPTY;
    if (_nc_user_definable) ti_extension_read(entry, &extension);
    size_t count = ti_user_defined_count(&extension);
    TERMTYPE2 filled = { .Booleans = NULL };
    filled.Booleans = (signed char *)zeros_for(TI_FLAGS + count, 1);
    filled.Numbers = (int *)zeros_for(TI_NUMBERS + count, sizeof(int));
    filled.Strings = (char **)zeros_for(TI_STRINGS + count, sizeof(char *));
    filled.ext_Names = (char **)zeros_for(count, sizeof(char *));
    fill_tables(&filled, entry);
    fill_extension(&filled, &extension);
    _nc_copy_termtype2(made, &filled);
    free_arrays(&filled);
}

/* Reads the entry in a file: 1, or 0 if it cannot be read or has none. */
EXPORTED int _nc_read_file_entry(const char *path, TERMTYPE2 *entry) {
    enum { ROOM = 65536 };
    FILE *file = _nc_is_file_path(path) ? fopen(path, "rb") : NULL;
    if (!file) return IS_UNKNOWN;
    uint8_t *bytes = (uint8_t *)zeros_for(ROOM, 1);
    struct ti_entry read = TI_ENTRY_EMPTY;
    size_t size = fread(bytes, 1, ROOM, file);
    bool is_entry = !ferror(file) && ti_entry_read(bytes, size, &read) == TI_OK;
    if (is_entry) make_entry(entry, &read);
    fclose(file);
    free(bytes);
    return is_entry ? IS_FOUND : IS_UNKNOWN;
}

/*
 * Looks for the entry of a name below each directory, in the directory of its first byte or of that
 * in hexadecimal, and stores the last path that was tried.
 */
static int read_below(bool by_letter, const char *name, char *path, TERMTYPE2 *entry) {
    int state, offset, answer = IS_REFUSED;
    const char *directory;
    unsigned char first = (unsigned char)*name;
    _nc_first_db(&state, &offset);
    while (answer != IS_FOUND && (directory = _nc_next_db(&state, &offset))) {
        if (by_letter) snprintf(path, PATH_MAX, "%s/%c/%s", directory, first, name);
        else snprintf(path, PATH_MAX, "%s/%02x/%s", directory, first, name);
        answer = _nc_read_file_entry(path, entry);
    }
    _nc_last_db();
    return answer;
}

/*
 * Finds the entry of a terminal, and stores the path of its file, which has PATH_MAX bytes: 1; 0 if
 * no directory has it; or -1 if there is no directory.
 */
EXPORTED int _nc_read_entry2(const char *name, char *path, TERMTYPE2 *entry) {
    char other[PATH_MAX];
    snprintf(path, PATH_MAX, "%s", name);
    if (!*name || strchr(name, '/') || strcmp(name, ".") == 0 || strcmp(name, "..") == 0)
        return IS_UNKNOWN;
    int answer = read_below(true, name, path, entry);
    if (answer != IS_UNKNOWN || read_below(false, name, other, entry) != IS_FOUND) return answer;
    strcpy(path, other);
    return IS_FOUND;
}

/* ---- two entries with the same user-defined capabilities */

/* A user-defined capability: its kind, its name, and its value, of which its kind has one part. */
struct user {
    int kind;
    char *name;
    int number; /* of a boolean or a number */
    char *text;
};
struct users {
    struct user *rows;
    size_t count;
};

static const struct user absent[KINDS] = { { .number = 0 }, { .number = -1 }, { .text = NULL } };

/* Those of an entry, with room for more. */
static struct users users_of(const TERMTYPE2 *entry, size_t room) {
    struct users made = { (struct user *)zeros_for(room, sizeof *made.rows), names_count(entry) };
    int flags = entry->ext_Booleans, numbers = entry->ext_Numbers;
    for (int i = 0; i < (int)made.count; i++) {
        struct user *user = &made.rows[i];
        user->name = entry->ext_Names[i];
        user->kind = i < flags ? TI_FLAG : i < flags + numbers ? TI_NUMBER : TI_STRING;
        if (user->kind == TI_FLAG) user->number = entry->Booleans[TI_FLAGS + i];
        else if (user->kind == TI_NUMBER) user->number = entry->Numbers[TI_NUMBERS + i - flags];
        else user->text = entry->Strings[TI_STRINGS + i - flags - numbers];
    }
    return made;
}

static int compare_users(const void *one, const void *other) {
    const struct user *first = (const struct user *)one, *second = (const struct user *)other;
    return first->kind != second->kind ? first->kind - second->kind
                                       : strcmp(first->name, second->name);
}

/* The capability of a kind with a name, or NULL. */
static struct user *user_with(const struct users *users, int kind, const char *name) {
    for (size_t i = 0; i < users->count; i++)
        if (users->rows[i].kind == kind && strcmp(users->rows[i].name, name) == 0)
            return &users->rows[i];
    return NULL;
}

/*
 * A source cancels a user-defined capability without its kind, and that is then taken for a string.
 * It becomes of the kind that another entry has by the name.
 */
static void settle_cancels(struct users *users, const struct users *others) {
    for (size_t i = 0; i < users->count; i++) {
        struct user *user = &users->rows[i];
        if (user->kind != TI_STRING || user->text != CANCELLED) continue;
        if (user_with(others, TI_FLAG, user->name))
            *user = (struct user){ TI_FLAG, user->name, 0, NULL };
        else if (user_with(others, TI_NUMBER, user->name))
            *user = (struct user){ TI_NUMBER, user->name, -2, NULL };
    }
}

/*
 * A name that entries share. It stays until the program ends, since the entry that it is from may
 * be freed before the other one.
 */
static char *kept_name(const char *name) {
    static struct users kept;
    struct user *found = user_with(&kept, 0, name);
    if (found) return found->name;
    struct user *rows = (struct user *)realloc(kept.rows, (kept.count + 1) * sizeof *rows);
    char *copy = strdup(name);
    if (!rows || !copy) _nc_err_abort("Out of memory");
    kept.rows = rows;
    rows[kept.count++] = (struct user){ 0, copy, 0, NULL };
    return copy;
}

/* Adds what others have and these do not, as absent. */
static void add_missing(struct users *users, const struct users *others) {
    for (size_t i = 0; i < others->count; i++) {
        const struct user *other = &others->rows[i];
        if (user_with(users, other->kind, other->name)) continue;
        struct user *added = &users->rows[users->count++];
        *added = absent[other->kind];
        added->kind = other->kind;
        added->name = kept_name(other->name);
    }
    qsort(users->rows, users->count, sizeof *users->rows, compare_users);
}

/* An array with the same first values, and room for so many. */
static void *array_with(void *array, size_t count, size_t size) {
    void *made = realloc(array, count * size);
    if (!made) _nc_err_abort("Out of memory");
    return made;
}

/* Gives an entry these user-defined capabilities in place of its own. */
static void give_users(TERMTYPE2 *entry, const struct users *users) {
    size_t room = users->count + 1;
    entry->Booleans = (signed char *)array_with(entry->Booleans, TI_FLAGS + room, 1);
    entry->Numbers = (int *)array_with(entry->Numbers, TI_NUMBERS + room, sizeof(int));
    entry->Strings = (char **)array_with(entry->Strings, TI_STRINGS + room, sizeof(char *));
    entry->ext_Names = (char **)array_with(entry->ext_Names, room, sizeof(char *));
    unsigned short counts[KINDS] = { 0, 0, 0 };
    for (size_t i = 0; i < users->count; i++) {
        const struct user *user = &users->rows[i];
        int at = counts[user->kind]++;
        entry->ext_Names[i] = user->name;
        if (user->kind == TI_FLAG) entry->Booleans[TI_FLAGS + at] = (signed char)user->number;
        else if (user->kind == TI_NUMBER) entry->Numbers[TI_NUMBERS + at] = user->number;
        else entry->Strings[TI_STRINGS + at] = user->text;
    }
    entry->num_Booleans = (unsigned short)(TI_FLAGS + (entry->ext_Booleans = counts[TI_FLAG]));
    entry->num_Numbers = (unsigned short)(TI_NUMBERS + (entry->ext_Numbers = counts[TI_NUMBER]));
    entry->num_Strings = (unsigned short)(TI_STRINGS + (entry->ext_Strings = counts[TI_STRING]));
}

/* Gives two entries the same user-defined capabilities: what one does not have is absent there. */
EXPORTED void _nc_align_termtype(TERMTYPE2 *one, TERMTYPE2 *other) {
    size_t room = names_count(one) + names_count(other);
    if (!room) return;
    struct users ones = users_of(one, room), others = users_of(other, room);
    settle_cancels(&ones, &others);
    settle_cancels(&others, &ones);
    add_missing(&ones, &others);
    add_missing(&others, &ones);
    give_users(one, &ones);
    give_users(other, &others);
    free(ones.rows);
    free(others.rows);
}
