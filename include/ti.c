/*
 * The part of libti that opens files and calls back: C over the functions that ti.h declares, and
 * nothing else of the library. It is tested, and not proved.
 */
#ifndef _GNU_SOURCE
#define _GNU_SOURCE /* for secure_getenv and the speeds over 38,400 */
#endif
#include "ti.h"

#include <errno.h>
#include <fcntl.h>
#include <poll.h>
#include <stdio.h>
#include <stdlib.h>
#include <sys/ioctl.h>
#include <sys/stat.h>
#include <termios.h>
#include <time.h>
#include <unistd.h>

/* ---- Values to pass */

struct ti_text ti_text_of(const char *text) {
    struct ti_text given = TI_NOTHING;
    given.bytes = (const uint8_t *)text;
    given.size = strlen(text);
    return given;
}

struct ti_place ti_place_of(uint32_t kind, uint32_t index) {
    struct ti_place place = { 0, 0 };
    place.kind = kind;
    place.index = index;
    return place;
}

struct ti_parameter ti_number_given(int32_t number) {
    struct ti_parameter given = { 0, 0, TI_NOTHING };
    given.number = number;
    return given;
}

struct ti_parameter ti_text_given(const uint8_t *bytes, size_t size) {
    struct ti_parameter given = { 1, 0, TI_NOTHING };
    given.text.bytes = bytes;
    given.text.size = size;
    return given;
}

struct ti_parameter ti_string_given(const char *text) {
    struct ti_text given = ti_text_of(text);
    return ti_text_given(given.bytes, given.size);
}

/* ---- Values by a name or a constant */

int32_t ti_flag_at(const struct ti_entry *entry, struct ti_place place) {
    if (place.kind != TI_FLAG) return TI_WRONG_KIND;
    return ti_flag(entry, place.index);
}

int64_t ti_number_at(const struct ti_entry *entry, struct ti_place place) {
    if (place.kind != TI_NUMBER) return TI_WRONG_KIND;
    return ti_number(entry, place.index);
}

int32_t ti_string_at(const struct ti_entry *entry, struct ti_place place, struct ti_text *found) {
    if (place.kind != TI_STRING) return TI_WRONG_KIND;
    return ti_string(entry, place.index, found);
}

/* The user-defined capabilities of an entry; none if they are malformed. */
static struct ti_extension extension_of(const struct ti_entry *entry) {
    struct ti_extension extension = TI_EXTENSION_EMPTY;
    ti_extension_read(entry, &extension);
    return extension;
}

/* Finds a user-defined capability of a kind. False if there is none. */
static bool find_user_defined(const struct ti_extension *extension, uint32_t kind,
                              struct ti_text name, struct ti_value *value) {
    return ti_user_defined_named(extension, name.bytes, name.size, value) && value->kind == kind;
}

/* Finds a capability of the tables of a kind by its name in terminfo. */
static bool find_place(uint32_t kind, struct ti_text name, struct ti_place *place) {
    return ti_capability(name.bytes, name.size, place) && place->kind == kind;
}

/* Finds a capability of the tables of a kind by its variable, or else by its code in termcap. */
static bool find_other_place(uint32_t kind, struct ti_text name, struct ti_place *place) {
    if (ti_capability_by_variable(name.bytes, name.size, place) && place->kind == kind) return true;
    return ti_capability_by_code(kind, name.bytes, name.size, place);
}

int32_t ti_flag_named(const struct ti_entry *entry, const char *name) {
    struct ti_text text = ti_text_of(name);
    struct ti_place place = { 0, 0 };
    struct ti_value value = TI_VALUE_EMPTY;
    if (find_place(TI_FLAG, text, &place)) return ti_flag(entry, place.index);
    struct ti_extension extension = extension_of(entry);
    if (find_user_defined(&extension, TI_FLAG, text, &value)) return 1;
    return find_other_place(TI_FLAG, text, &place) ? ti_flag(entry, place.index) : -1;
}

int64_t ti_number_named(const struct ti_entry *entry, const char *name) {
    struct ti_text text = ti_text_of(name);
    struct ti_place place = { 0, 0 };
    struct ti_value value = TI_VALUE_EMPTY;
    if (find_place(TI_NUMBER, text, &place)) return ti_number(entry, place.index);
    struct ti_extension extension = extension_of(entry);
    if (find_user_defined(&extension, TI_NUMBER, text, &value)) return value.number;
    return find_other_place(TI_NUMBER, text, &place) ? ti_number(entry, place.index) : -2;
}

/* Finds a string by a name that is not one of terminfo. */
static int32_t find_other_string(const struct ti_entry *entry,
                                 const struct ti_extension *extension, struct ti_text name,
                                 struct ti_text *found) {
    struct ti_place place = { 0, 0 };
    struct ti_value value = TI_VALUE_EMPTY;
    if (find_user_defined(extension, TI_STRING, name, &value)) {
        *found = value.text;
        return 1;
    }
    return find_other_place(TI_STRING, name, &place) ? ti_string(entry, place.index, found) : -1;
}

int32_t ti_string_named(const struct ti_entry *entry, const char *name, struct ti_text *found) {
    struct ti_text text = ti_text_of(name);
    struct ti_place place = { 0, 0 };
    if (find_place(TI_STRING, text, &place)) return ti_string(entry, place.index, found);
    struct ti_extension extension = extension_of(entry);
    return find_other_string(entry, &extension, text, found);
}

/* ---- Files */

/* The most bytes of a file that may be an entry; one more is read, to know of a longer one. */
enum { FILE_MAX = 65536, READ_MAX = FILE_MAX + 1 };

/* Reads at most READ_MAX bytes of a file into `bytes`. False if that fails. */
static bool read_file(int file, uint8_t *bytes, size_t *size) {
    for (*size = 0; *size < READ_MAX;) {
        ssize_t count = read(file, bytes + *size, READ_MAX - *size);
        if (count == 0) break;
        if (count > 0) *size += (size_t)count;
        else if (errno != EINTR) return false;
    }
    return true;
}

/* The entry that the bytes of a file are, as a copy. */
static enum ti_status entry_of_file(const uint8_t *bytes, size_t size, struct ti_entry **entry) {
    if (size <= FILE_MAX) return ti_entry_new(bytes, size, entry);
    struct ti_entry unused = TI_ENTRY_EMPTY;
    enum ti_status refusal = ti_entry_read(bytes, size, &unused);
    return refusal != TI_OK ? refusal : TI_COUNTS;
}

/* Reads the entry in a file. */
static enum ti_status read_entry(int file, struct ti_entry **entry) {
    uint8_t *bytes = (uint8_t *)malloc(READ_MAX);
    if (!bytes) return TI_NO_MEMORY;
    size_t size = 0;
    enum ti_status status = TI_READ_FAILED;
    if (read_file(file, bytes, &size)) status = entry_of_file(bytes, size, entry);
    int why = errno;
    free(bytes);
    errno = why;
    return status;
}

/*
 * Opens a regular file for reading, or returns -1. The file is checked after it is opened, so that
 * another one cannot replace it in between, and a pipe without a writer does not block.
 */
static int open_regular(const char *path) {
    int file = open(path, O_RDONLY | O_CLOEXEC | O_NOCTTY | O_NONBLOCK);
    struct stat found;
    if (file < 0) return -1;
    int why = EINVAL;
    if (fstat(file, &found) != 0) why = errno;
    else if (S_ISREG(found.st_mode)) return file;
    close(file);
    errno = why;
    return -1;
}

/* The status if no file was opened: there is none, its directory cannot be searched, or another. */
static enum ti_status status_unopened(const char *path, int why) {
    struct stat found;
    if (why == ENOMEM) return TI_NO_MEMORY;
    bool is_absent = why == ENOENT || why == ENOTDIR || why == ENAMETOOLONG || why == ELOOP;
    if (why == EACCES) is_absent = stat(path, &found) != 0;
    errno = why;
    return is_absent ? TI_NO_TERMINAL : TI_READ_FAILED;
}

/* Reads the entry at a path; TI_NO_TERMINAL if no file is there. */
static enum ti_status open_file(const char *path, struct ti_entry **entry) {
    int file = open_regular(path);
    if (file < 0) return status_unopened(path, errno);
    enum ti_status status = read_entry(file, entry);
    int why = errno;
    close(file);
    errno = why;
    return status;
}

/* The path of an entry by the first byte of its name, which free takes; NULL if out of memory. */
static char *letter_path(struct ti_text dir, struct ti_text name) {
    uint8_t none = 0;
    struct ti_outcome made = ti_path(dir.bytes, dir.size, name.bytes, name.size, &none, 0);
    uint8_t *path = made.status == TI_NO_ROOM ? (uint8_t *)malloc(made.size) : NULL;
    if (!path) return NULL;
    made = ti_path(dir.bytes, dir.size, name.bytes, name.size, path, made.size);
    if (made.status == TI_OK) return (char *)path;
    free(path);
    return NULL;
}

/* The path by the first byte in hexadecimal, likewise. */
static char *hexadecimal_path(struct ti_text dir, struct ti_text name) {
    size_t room = dir.size + name.size + sizeof "/78/";
    char *path = (char *)malloc(room);
    if (!path) return NULL;
    memcpy(path, dir.bytes, dir.size);
    snprintf(path + dir.size, room - dir.size, "/%02x/%s", name.bytes[0], (const char *)name.bytes);
    return path;
}

/* A search for the entry of a name, which ends with a NUL. */
struct search {
    struct ti_text name;
    bool by_letter;
    struct ti_entry **entry;
    enum ti_status status; /* of the entry; of the first file skipped; TI_NO_TERMINAL */
    char *path;            /* of that file, or NULL */
    int why;               /* errno after that file */
};

/* Looks below a directory. Returns whether the search ends: by the entry, or out of memory. */
static bool ends_below(struct search *search, struct ti_text dir) {
    char *path = search->by_letter ? letter_path(dir, search->name)
                                   : hexadecimal_path(dir, search->name);
    enum ti_status status = path ? open_file(path, search->entry) : TI_NO_MEMORY;
    int why = errno;
    bool ends = status == TI_OK || status == TI_NO_MEMORY;
    if (!ends && (status == TI_NO_TERMINAL || search->status != TI_NO_TERMINAL)) {
        free(path);
        return false;
    }
    free(search->path);
    search->path = path;
    search->status = status;
    search->why = why;
    return ends;
}

/* Looks below the directory of the user's own entries. */
static bool ends_at_home(struct search *search, const char *home) {
    static const char below[] = "/.terminfo";
    size_t size = strlen(home);
    char *path = (char *)malloc(size + sizeof below);
    if (!path) {
        search->status = TI_NO_MEMORY;
        return true;
    }
    memcpy(path, home, size);
    memcpy(path + size, below, sizeof below);
    bool ends = ends_below(search, ti_text_of(path));
    free(path);
    return ends;
}

/* Looks below the parts of TERMINFO_DIRS; an empty one is the first directory of the system. */
static bool ends_at_parts(struct search *search, const char *dirs) {
    for (const char *part = dirs;; part++) {
        struct ti_text dir = { (const uint8_t *)part, strcspn(part, ":") };
        part += dir.size;
        if (!dir.size) ti_system_directories(0, &dir);
        if (ends_below(search, dir)) return true;
        if (!*part) return false;
    }
}

/* Looks below each directory, in order. */
static bool ends_at_directories(struct search *search) {
    const char *terminfo = secure_getenv("TERMINFO"), *home = secure_getenv("HOME");
    const char *dirs = secure_getenv("TERMINFO_DIRS");
    if (terminfo && *terminfo && ends_below(search, ti_text_of(terminfo))) return true;
    if (home && *home && ends_at_home(search, home)) return true;
    if (dirs && ends_at_parts(search, dirs)) return true;
    struct ti_text dir = TI_NOTHING;
    for (uint32_t index = 0; ti_system_directories(index, &dir); index++)
        if (ends_below(search, dir)) return true;
    return false;
}

/* The name that is looked for: the one given, or TERM. Returns why no entry can have it. */
static enum ti_status name_for(const char *given, struct ti_text *name) {
    const char *chosen = given ? given : getenv("TERM");
    if (!chosen) return TI_TERM_UNSET;
    if (!*chosen) return TI_EMPTY_NAME;
    if (strchr(chosen, '/')) return TI_PATH_NAME;
    *name = ti_text_of(chosen);
    uint8_t none = 0;
    struct ti_outcome path = ti_path(NULL, 0, name->bytes, name->size, &none, 0);
    return path.status == TI_NO_ROOM ? TI_OK : path.status;
}

enum ti_status ti_open_path(const char *name, struct ti_entry **entry, char **path) {
    struct search search = { TI_NOTHING, true, entry, TI_NO_TERMINAL, NULL, 0 };
    *path = NULL;
    enum ti_status refusal = name_for(name, &search.name);
    if (refusal != TI_OK) return refusal;
    bool ends = ends_at_directories(&search);
    search.by_letter = false;
    if (!ends) ends_at_directories(&search);
    *path = search.path;
    errno = search.why;
    return search.status;
}

enum ti_status ti_open(const char *name, struct ti_entry **entry) {
    char *path = NULL;
    enum ti_status status = ti_open_path(name, entry, &path);
    int why = errno;
    free(path);
    errno = why;
    return status;
}

/* Reads the entry of a name that is valid below a directory. */
static enum ti_status open_below(struct ti_text dir, struct ti_text name, struct ti_entry **entry) {
    char *path = letter_path(dir, name);
    if (!path) return TI_NO_MEMORY;
    enum ti_status status = open_file(path, entry);
    int why = errno;
    free(path);
    errno = why;
    return status;
}

enum ti_status ti_open_below(const char *directory, const char *name, struct ti_entry **entry) {
    struct ti_text wanted = TI_NOTHING;
    enum ti_status refusal = name_for(name, &wanted);
    return refusal != TI_OK ? refusal : open_below(ti_text_of(directory), wanted, entry);
}

/* What a variable of the environment is set to; nothing if it is not set. */
static struct ti_text variable(const char *name, bool *is_set) {
    const char *value = secure_getenv(name);
    struct ti_text nothing = TI_NOTHING;
    *is_set = value != NULL;
    return value ? ti_text_of(value) : nothing;
}

enum ti_status ti_open_profile(const char *name, struct ti_entry **entry) {
    bool terminfo_set = false, dirs_set = false;
    struct ti_text wanted = TI_NOTHING, dir = TI_NOTHING;
    struct ti_text terminfo = variable("TERMINFO", &terminfo_set);
    struct ti_text dirs = variable("TERMINFO_DIRS", &dirs_set);
    enum ti_status status = name_for(name, &wanted);
    if (status != TI_OK) return status;
    for (uint32_t index = 0; ti_places(terminfo.bytes, terminfo.size, dirs_set, dirs.bytes,
                                       dirs.size, index, &dir); index++) {
        status = open_below(dir, wanted, entry);
        if (status != TI_NO_TERMINAL) return status;
    }
    return TI_NO_TERMINAL;
}

void ti_entry_free(struct ti_entry *entry) {
    if (!entry) return;
    free((void *)entry->bytes.bytes);
    free(entry);
}

const char *ti_strerror(enum ti_status status) {
    static const char *const sentences[] = {
        "Success",
        "The entry has fewer bytes than a header",
        "The first number of the entry belongs to neither format",
        "A size or a count of the entry is negative or too large",
        "The entry ends before its string table does",
        "The names field of the entry is empty, does not end with its only NUL, or is too long",
        "A boolean of the entry is not 0, 1, 0xFE or 0xFF",
        "A number of the entry is below -2",
        "An offset of a string leads out of the string table of the entry",
        "Out of memory",
        "No terminal has the name",
        "The file of the entry could not be read",
        "What follows the entry is not user-defined capabilities",
        "The string has a % that does not begin a valid code",
        "The string pushes more than 20 values",
        "The bytes are more than the room for them",
        "The string asks for more than 65,536 pad bytes",
        "No terminal can have the name",
        "The terminal does not have the string",
        "Not all bytes were written",
        "A parameter is a number where the string takes a string, or the other way round",
        "The variable TERM is not set",
        "The name of the terminal is empty",
        "The name of the terminal is a path, and has to be a name such as xterm",
        "The bytes may be the front of a longer key",
        "No capability can have the name",
        "The capability cannot have the value",
        "The entry would have more bytes than its limit",
    };
    enum { COUNT = sizeof sentences / sizeof *sentences };
    return (unsigned)status < COUNT ? sentences[status] : "Unknown status";
}

const char *ti_version(void) { return TI_VERSION; }

/* ---- Changed entries */

/* The change of a name to a value of a kind. */
static struct ti_change change_to(const char *name, uint32_t kind) {
    struct ti_change change = TI_CHANGE_EMPTY;
    change.name = ti_text_of(name);
    change.value.kind = kind;
    change.value.is_present = true;
    return change;
}

struct ti_change ti_flag_change(const char *name) { return change_to(name, TI_FLAG); }

struct ti_change ti_number_change(const char *name, uint32_t number) {
    struct ti_change change = change_to(name, TI_NUMBER);
    change.value.number = number;
    return change;
}

struct ti_change ti_text_change(const char *name, const uint8_t *bytes, size_t size) {
    struct ti_change change = change_to(name, TI_STRING);
    change.value.text.bytes = bytes;
    change.value.text.size = size;
    return change;
}

struct ti_change ti_string_change(const char *name, const char *string) {
    struct ti_text text = ti_text_of(string);
    return ti_text_change(name, text.bytes, text.size);
}

struct ti_change ti_absent_change(const char *name) {
    struct ti_change change = change_to(name, TI_FLAG);
    change.value.is_present = false;
    return change;
}

/* The most bytes of an entry that is written. */
enum { ENTRY_MAX = 32768 };

/* Writes an entry with changes, and makes an entry of these bytes. */
static struct ti_outcome write_changed(const struct ti_entry *entry,
                                       const struct ti_extension *extension,
                                       const struct ti_change *changes, size_t count,
                                       struct ti_entry **changed) {
    struct ti_text names = TI_NOTHING;
    struct ti_outcome done = { TI_NO_MEMORY, 0 };
    uint8_t *bytes = (uint8_t *)malloc(ENTRY_MAX);
    if (!bytes) return done;
    ti_names(entry, &names);
    done = ti_entry_write(entry, extension, names.bytes, names.size, changes, count, bytes,
                          ENTRY_MAX);
    if (done.status == TI_OK) {
        done.status = ti_entry_new(bytes, done.size, changed);
        done.size = 0;
    }
    free(bytes);
    return done;
}

struct ti_outcome ti_entry_change(const struct ti_entry *entry, const struct ti_change *changes,
                                  size_t count, struct ti_entry **changed) {
    struct ti_extension extension = TI_EXTENSION_EMPTY;
    struct ti_outcome done = { TI_OK, 0 };
    done.status = ti_extension_read(entry, &extension);
    if (done.status != TI_OK) return done;
    return write_changed(entry, &extension, changes, count, changed);
}

/* ---- Output */

/* Bytes that a call wrote: into `small`, or, if they are more, into memory of their own. */
struct written {
    uint8_t small[256];
    uint8_t *bytes;
    struct ti_outcome outcome;
};

/* Makes the memory that the outcome asks for. Returns whether the call is to be made again. */
static bool has_more_room(struct written *made) {
    if (made->outcome.status != TI_NO_ROOM) return false;
    made->bytes = (uint8_t *)malloc(made->outcome.size);
    if (made->bytes) return true;
    made->outcome.status = TI_NO_MEMORY;
    made->outcome.size = 0;
    return false;
}

static void drop(struct written *made) {
    if (made->bytes != made->small) free(made->bytes);
}

/* Pads a text. What it made must later be dropped. */
static void pad(struct written *made, const uint8_t *text, size_t size, uint32_t affected,
                const struct ti_line *line) {
    made->bytes = made->small;
    made->outcome = ti_pad(text, size, affected, line, made->small, sizeof made->small);
    if (has_more_room(made))
        made->outcome = ti_pad(text, size, affected, line, made->bytes, made->outcome.size);
}

/* Passes bytes on. Returns how many. */
static size_t put_all(const uint8_t *bytes, size_t size, int (*put)(int)) {
    size_t count = 0;
    while (count < size && put(bytes[count]) >= 0) count++;
    return count;
}

struct ti_outcome ti_puts(const uint8_t *text, size_t size, uint32_t affected,
                          const struct ti_line *line, int (*put)(int)) {
    struct written padded;
    pad(&padded, text, size, affected, line);
    struct ti_outcome done = padded.outcome;
    if (done.status == TI_OK) {
        done.size = put_all(padded.bytes, padded.outcome.size, put);
        if (done.size < padded.outcome.size) done.status = TI_NOT_TAKEN;
    }
    drop(&padded);
    return done;
}

/* Passes a block on, if it has bytes. Adds what was taken, and returns whether all of it was. */
static bool pass(const uint8_t *bytes, size_t size, const struct ti_output *output,
                 struct ti_outcome *done) {
    size_t taken = size ? output->put(bytes, size, output->context) : 0;
    done->size += taken < size ? taken : size;
    if (taken < size) done->status = TI_NOT_TAKEN;
    return taken >= size;
}

/* Passes on a text for a line that pads nothing, and waits at each delay. */
static struct ti_outcome write_pieces(struct ti_text text, uint32_t affected,
                                      const struct ti_line *line, const struct ti_output *output) {
    struct ti_outcome done = { TI_OK, 0 };
    struct ti_delay delay = TI_DELAY_EMPTY;
    while (ti_first_delay(text.bytes, text.size, affected, line, &delay)) {
        if (!pass(delay.before.bytes, delay.before.size, output, &done)) return done;
        if (output->wait && delay.tenths) output->wait(delay.tenths, output->context);
        text = delay.after;
    }
    pass(text.bytes, text.size, output, &done);
    return done;
}

struct ti_outcome ti_write(const uint8_t *text, size_t size, uint32_t affected,
                           const struct ti_line *line, const struct ti_output *output) {
    struct ti_text given = { text, size };
    struct ti_outcome done = { TI_OK, 0 };
    struct ti_delay delay = TI_DELAY_EMPTY;
    struct written padded;
    /* most texts have no delay, and need no memory then */
    if (!size || !memchr(text, '$', size)) {
        pass(text, size, output, &done);
        return done;
    }
    bool pads = line->has_pad_byte && line->rate &&
                ti_first_delay(text, size, affected, line, &delay);
    if (!pads) return write_pieces(given, affected, line, output);
    pad(&padded, text, size, affected, line);
    if (padded.outcome.status == TI_OK) pass(padded.bytes, padded.outcome.size, output, &done);
    else done = padded.outcome;
    drop(&padded);
    return done;
}

/* What a format has codes for. */
struct codes {
    bool names;      /* a `%p1` to `%p9` */
    bool takes_text; /* a `%s` or `%l`, or what looks like one */
    bool increments; /* a `%i` */
};

static bool is_of_printf(uint8_t byte) {
    return (byte >= '0' && byte <= '9') || byte == ':' || byte == '-' || byte == '+' ||
           byte == '#' || byte == ' ' || byte == '.';
}

/* The codes of a text, which need not be a format. */
static struct codes codes_of(struct ti_text format) {
    struct codes found = { false, false, false };
    for (size_t at = 0; at + 1 < format.size; at++) {
        if (format.bytes[at] != '%') continue;
        const uint8_t *code = format.bytes + ++at;
        size_t left = format.size - at, letter = 0;
        while (letter + 1 < left && is_of_printf(code[letter])) letter++;
        found.takes_text |= code[letter] == 's' || code[letter] == 'l';
        found.names |= *code == 'p' && left > 1 && code[1] >= '1' && code[1] <= '9';
        found.increments |= *code == 'i';
        /* a constant is a quote, any byte and a quote */
        if (*code == '\'') at += 2;
    }
    return found;
}

enum { PARAMETERS_MAX = 9 };

/* The codes that put so many parameters onto the stack, the first one last. Returns their size. */
static size_t put_pushes(uint8_t *out, size_t count, bool increments) {
    size_t size = 0;
    if (increments) out[size++] = '%', out[size++] = 'i';
    for (size_t number = count; number > 0; number--) {
        out[size++] = '%';
        out[size++] = 'p';
        out[size++] = (uint8_t)('0' + number);
    }
    return size;
}

struct ti_outcome ti_named_format(const uint8_t *format, size_t format_size, uint8_t *out,
                                  size_t room) {
    uint8_t pushes[2 + 3 * PARAMETERS_MAX];
    struct ti_text text = { format, format_size };
    struct ti_parameters taken = TI_PARAMETERS_EMPTY;
    struct ti_outcome done = { TI_OK, 0 };
    if (!ti_parameters_of(format, format_size, &taken)) {
        struct ti_variables variables = { { 0 } };
        return ti_expand(format, format_size, NULL, 0, &variables, NULL, 0);
    }
    size_t count = taken.named ? 0 : taken.popped;
    if (count) done.size = put_pushes(pushes, count, codes_of(text).increments);
    if (done.size + format_size > room) {
        done.status = TI_NO_ROOM;
    } else if (format_size) {
        memcpy(out + done.size, format, format_size);
        memcpy(out, pushes, done.size);
    }
    done.size += format_size;
    return done;
}

/* The format by which ti_expand takes the parameters. What it made must later be dropped. */
static void name_parameters(struct written *made, struct ti_text format) {
    made->bytes = made->small;
    made->outcome = ti_named_format(format.bytes, format.size, made->small, sizeof made->small);
    if (has_more_room(made))
        made->outcome = ti_named_format(format.bytes, format.size, made->bytes, made->outcome.size);
}

/* The number of the first parameter, from 1, that is not of the kind that a format takes; or 0. */
static size_t wrong_parameter(struct ti_text format, bool takes_text,
                              const struct ti_parameter *params, size_t count) {
    struct ti_parameters taken = TI_PARAMETERS_EMPTY;
    if (count > PARAMETERS_MAX) count = PARAMETERS_MAX;
    if (!takes_text) {
        for (size_t i = 0; i < count; i++)
            if (params[i].kind) return i + 1;
        return 0;
    }
    ti_parameters_of(format.bytes, format.size, &taken);
    for (size_t i = 0; i < taken.named; i++) {
        bool is_text = i < count && params[i].kind;
        if (is_text != taken.strings[i]) return i + 1;
    }
    return 0;
}

/* Expands a format. What it made must later be dropped. */
static void expand(struct written *made, struct ti_text format, const struct ti_parameter *params,
                   size_t count, struct ti_variables *variables) {
    made->bytes = made->small;
    made->outcome = ti_expand(format.bytes, format.size, params, count, variables, made->small,
                              sizeof made->small);
    if (has_more_room(made))
        made->outcome = ti_expand(format.bytes, format.size, params, count, variables, made->bytes,
                                  made->outcome.size);
}

/* What a string is sent with. */
struct sending {
    struct ti_variables *variables;
    const struct ti_line *line;
    const struct ti_parameter *params;
    size_t count;
    uint32_t affected;
    const struct ti_output *output;
};

/* Sends a format whose parameters are all named. */
static struct ti_outcome send_format(struct ti_text format, bool takes_text,
                                     const struct sending *with) {
    struct ti_outcome done = { TI_BAD_PARAMETER, 0 };
    struct ti_variables before = *with->variables;
    struct written made;
    done.size = wrong_parameter(format, takes_text, with->params, with->count);
    if (done.size) return done;
    expand(&made, format, with->params, with->count, with->variables);
    done = made.outcome;
    if (done.status == TI_OK)
        done = ti_write(made.bytes, done.size, with->affected, with->line, with->output);
    if (done.status != TI_OK && done.status != TI_NOT_TAKEN) *with->variables = before;
    drop(&made);
    return done;
}

/* Sends a string of a terminal. */
static struct ti_outcome send_string(struct ti_text text, const struct sending *with) {
    struct codes codes = codes_of(text);
    if (codes.names) return send_format(text, codes.takes_text, with);
    if (!with->count)
        return ti_write(text.bytes, text.size, with->affected, with->line, with->output);
    struct written named;
    name_parameters(&named, text);
    struct ti_outcome done = named.outcome;
    struct ti_text format = { named.bytes, done.size };
    if (done.status == TI_OK) done = send_format(format, codes.takes_text, with);
    drop(&named);
    return done;
}

struct ti_outcome ti_send(const struct ti_entry *entry, struct ti_variables *variables,
                          const struct ti_line *line, const char *name,
                          const struct ti_parameter *params, size_t count, uint32_t affected,
                          const struct ti_output *output) {
    struct sending with = { variables, line, params, count, affected, output };
    struct ti_text text = TI_NOTHING;
    struct ti_outcome absent = { TI_ABSENT, 0 };
    return ti_string_named(entry, name, &text) == 1 ? send_string(text, &with) : absent;
}

uint32_t ti_rate(uint32_t speed) {
    static const struct {
        speed_t code;
        uint32_t rate;
    } rates[] = {
        { B50, 50 }, { B75, 75 }, { B110, 110 }, { B134, 134 }, { B150, 150 }, { B200, 200 },
        { B300, 300 }, { B600, 600 }, { B1200, 1200 }, { B1800, 1800 }, { B2400, 2400 },
        { B4800, 4800 }, { B9600, 9600 }, { B19200, 19200 }, { B38400, 38400 }, { B57600, 57600 },
        { B115200, 115200 }, { B230400, 230400 }, { B460800, 460800 }, { B500000, 500000 },
        { B576000, 576000 }, { B921600, 921600 }, { B1000000, 1000000 }, { B1152000, 1152000 },
        { B1500000, 1500000 }, { B2000000, 2000000 }, { B2500000, 2500000 }, { B3000000, 3000000 },
        { B3500000, 3500000 }, { B4000000, 4000000 },
    };
    for (size_t i = 0; i < sizeof rates / sizeof *rates; i++)
        if (rates[i].code == (speed_t)speed) return rates[i].rate;
    return 0;
}

/* ---- Terminals */

struct ti_terminal {
    struct ti_entry *entry;
    char *path;
    struct ti_extension extension;
    struct ti_variables variables;
    struct ti_line line;
    struct ti_output output;
    int file; /* -1 if the output is the caller's */
};

enum { TENTHS_A_SECOND = 10000, NANOSECONDS_A_TENTH = 100000 };

/* Waits until a file that is not blocking takes bytes. Returns whether it may. */
static bool waits_for(int file) {
    struct pollfd polled = { file, POLLOUT, 0 };
    return poll(&polled, 1, -1) > 0;
}

/* Writes a block to the file of a terminal. Returns how many bytes that took. */
static size_t put_to_file(const uint8_t *bytes, size_t size, void *context) {
    const struct ti_terminal *terminal = (const struct ti_terminal *)context;
    size_t taken = 0;
    while (taken < size) {
        ssize_t count = write(terminal->file, bytes + taken, size - taken);
        if (count > 0) taken += (size_t)count;
        else if (count < 0 && errno == EAGAIN && waits_for(terminal->file)) continue;
        else if (count == 0 || errno != EINTR) break;
    }
    return taken;
}

static void sleep_for(uint64_t tenths, void *context) {
    struct timespec left = { (time_t)(tenths / TENTHS_A_SECOND),
                             (long)(tenths % TENTHS_A_SECOND) * NANOSECONDS_A_TENTH };
    (void)context;
    while (nanosleep(&left, &left) != 0 && errno == EINTR) continue;
}

enum ti_status ti_terminal_new(struct ti_entry *entry, uint32_t rate,
                               const struct ti_output *output, struct ti_terminal **terminal) {
    struct ti_terminal filled = { entry, NULL, extension_of(entry), { { 0 } }, TI_LINE_EMPTY,
                                  *output, -1 };
    struct ti_terminal *made = (struct ti_terminal *)malloc(sizeof *made);
    if (!made) return TI_NO_MEMORY;
    ti_line_of(entry, rate, &filled.line);
    *made = filled;
    *terminal = made;
    return TI_OK;
}

/* The rate of the line to a file, or 0. */
static uint32_t rate_of(int file) {
    struct termios modes;
    return tcgetattr(file, &modes) == 0 ? ti_rate((uint32_t)cfgetospeed(&modes)) : 0;
}

enum ti_status ti_terminal_open(const char *name, int file, struct ti_terminal **terminal) {
    struct ti_output output = { put_to_file, sleep_for, NULL };
    struct ti_entry *entry = NULL;
    struct ti_terminal *made = NULL;
    char *path = NULL;
    enum ti_status status = ti_open_path(name, &entry, &path);
    if (status == TI_OK) status = ti_terminal_new(entry, rate_of(file), &output, &made);
    if (status != TI_OK) {
        int why = errno;
        ti_entry_free(entry);
        free(path);
        errno = why;
        return status;
    }
    made->path = path;
    made->file = file;
    made->output.context = made;
    *terminal = made;
    return TI_OK;
}

void ti_terminal_close(struct ti_terminal *terminal) {
    if (!terminal) return;
    ti_entry_free(terminal->entry);
    free(terminal->path);
    free(terminal);
}

const struct ti_entry *ti_terminal_entry(const struct ti_terminal *terminal) {
    return terminal->entry;
}

const char *ti_terminal_path(const struct ti_terminal *terminal) { return terminal->path; }

struct ti_outcome ti_terminal_change(struct ti_terminal *terminal, const struct ti_change *changes,
                                     size_t count) {
    struct ti_entry *changed = NULL;
    struct ti_outcome done = ti_entry_change(terminal->entry, changes, count, &changed);
    if (done.status != TI_OK) return done;
    ti_entry_free(terminal->entry);
    terminal->entry = changed;
    terminal->extension = extension_of(changed);
    ti_line_of(changed, terminal->line.rate, &terminal->line);
    return done;
}

/* The number over 0 that a variable of the environment is in decimal; else 0. */
static uint32_t number_of_variable(const char *name) {
    const char *value = getenv(name);
    uint32_t number = 0;
    for (; value && *value; value++) {
        if (*value < '0' || *value > '9' || number > (INT32_MAX - 9) / 10) return 0;
        number = 10 * number + (uint32_t)(*value - '0');
    }
    return number;
}

/* The first of these that is over 0; else 0. */
static uint32_t first_over_0(uint32_t variable, uint32_t window, int64_t number) {
    if (variable) return variable;
    if (window) return window;
    return number > 0 ? (uint32_t)number : 0;
}

struct ti_size ti_terminal_size(const struct ti_terminal *terminal) {
    enum { COLS = 0, LINES = 2 }; /* the places of cols and lines among the numbers */
    struct winsize window;
    if (terminal->file < 0 || ioctl(terminal->file, TIOCGWINSZ, &window) != 0)
        window.ws_row = 0, window.ws_col = 0;
    struct ti_size size = { 0, 0 };
    size.height = first_over_0(number_of_variable("LINES"), window.ws_row,
                               ti_number(terminal->entry, LINES));
    size.width = first_over_0(number_of_variable("COLUMNS"), window.ws_col,
                              ti_number(terminal->entry, COLS));
    return size;
}

/* Sends a string that a look-up has found, if it is 1. */
static struct ti_outcome put_found(struct ti_terminal *terminal, int32_t is, struct ti_text text,
                                   const struct ti_parameter *params, size_t count) {
    struct sending with = { &terminal->variables, &terminal->line, params, count, 1,
                            &terminal->output };
    struct ti_outcome absent = { TI_ABSENT, 0 };
    return is == 1 ? send_string(text, &with) : absent;
}

struct ti_outcome ti_put_values(struct ti_terminal *terminal, struct ti_place place,
                                const struct ti_parameter *params, size_t count) {
    struct ti_text text = TI_NOTHING;
    int32_t is = ti_string_at(terminal->entry, place, &text);
    return put_found(terminal, is, text, params, count);
}

struct ti_outcome ti_put_named_values(struct ti_terminal *terminal, const char *name,
                                      const struct ti_parameter *params, size_t count) {
    struct ti_text given = ti_text_of(name), text = TI_NOTHING;
    struct ti_place place = { 0, 0 };
    int32_t is = find_place(TI_STRING, given, &place)
                     ? ti_string(terminal->entry, place.index, &text)
                     : find_other_string(terminal->entry, &terminal->extension, given, &text);
    return put_found(terminal, is, text, params, count);
}

/* Makes parameters of numbers. Returns how many, at most nine. */
static size_t give_numbers(struct ti_parameter *params, const int32_t *numbers, size_t count) {
    if (count > PARAMETERS_MAX) count = PARAMETERS_MAX;
    for (size_t i = 0; i < count; i++) params[i] = ti_number_given(numbers[i]);
    return count;
}

struct ti_outcome ti_put_numbers(struct ti_terminal *terminal, struct ti_place place,
                                 const int32_t *numbers, size_t count) {
    struct ti_parameter params[PARAMETERS_MAX];
    return ti_put_values(terminal, place, params, give_numbers(params, numbers, count));
}

struct ti_outcome ti_put_named_numbers(struct ti_terminal *terminal, const char *name,
                                       const int32_t *numbers, size_t count) {
    struct ti_parameter params[PARAMETERS_MAX];
    return ti_put_named_values(terminal, name, params, give_numbers(params, numbers, count));
}

/* A search for a key, and the longest one so far. */
struct key_search {
    struct ti_text given, name;
    size_t size;
    bool is_unfinished;
};

/* Looks whether the bytes begin with a string of a terminal, if that is one of a key. */
static void try_key(struct key_search *search, struct ti_text name, struct ti_text key) {
    size_t size = search->given.size, shared = key.size < size ? key.size : size;
    if (name.bytes[0] != 'k' || !key.size) return;
    if (shared && memcmp(key.bytes, search->given.bytes, shared) != 0) return;
    if (key.size > size) {
        search->is_unfinished = true;
    } else if (key.size > search->size) {
        search->size = key.size;
        search->name = name;
    }
}

struct ti_outcome ti_terminal_key(const struct ti_terminal *terminal, const uint8_t *bytes,
                                  size_t size, struct ti_text *name) {
    struct key_search search = { TI_NOTHING, TI_NOTHING, 0, false };
    struct ti_text key = TI_NOTHING, of = TI_NOTHING;
    struct ti_value value = TI_VALUE_EMPTY;
    search.given.bytes = bytes;
    search.given.size = size;
    for (uint32_t i = 0; ti_name(TI_STRING, i, &of); i++)
        if (ti_string(terminal->entry, i, &key) == 1) try_key(&search, of, key);
    for (size_t i = 0; ti_user_defined(&terminal->extension, i, &of, &value); i++)
        if (value.kind == TI_STRING) try_key(&search, of, value.text);
    struct ti_outcome found = { TI_OK, search.size };
    if (search.size) *name = search.name;
    else found.status = TI_ABSENT;
    if (search.is_unfinished) found.status = TI_UNFINISHED;
    return found;
}

struct ti_outcome ti_put_text(struct ti_terminal *terminal, const uint8_t *bytes, size_t size) {
    struct ti_outcome done = { TI_OK, 0 };
    pass(bytes, size, &terminal->output, &done);
    return done;
}
