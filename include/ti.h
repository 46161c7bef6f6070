/*
 * libti: terminfo entries and parameter strings, for programs in C99 and C++98 or later.
 *
 * A program finds and reads the entry of its terminal (ti_open), looks up booleans, numbers and
 * strings (ti_flag_named, ti_number_named, ti_string_named), expands a string with its parameters
 * (ti_expand) and writes the bytes with their delays (ti_pad, ti_puts). ti_send looks up, expands
 * and writes one string. A terminal that is opened once (ti_terminal_open) has all of this for the
 * calls ti_put and ti_put_named. ti_entry_change gives an entry in memory other values.
 * <ti_names.h> has a constant for each capability. See ti(3).
 *
 * The functions of the first part are written in Rattle and proved against their contracts, in
 * crates/ti_c of the sources; the definitions are in crates/ti_c/specs. Those of the last part,
 * from "Files" on, are written in C on top of the first part, and are tested but not proved.
 *
 * The library does not check the following, so callers must ensure it:
 *
 * - A pointer refers to a whole value and is not NULL. Next to a size of 0 it may be NULL: that is
 *   the empty text, no parameters, or no room.
 * - What a call writes does not overlap any of its other arguments.
 * - An entry starts out as TI_ENTRY_EMPTY. Its fields must not be changed; it may be copied.
 * - An entry from ti_entry_read points into the bytes that it was read from, as do its texts:
 *   the bytes must not change while either is in use. An entry from ti_entry_new or ti_open, and
 *   its texts, have memory of their own until ti_entry_free.
 * - A `bool` is 0 or 1.
 *
 * No function keeps state between calls, so threads may call them at the same time, each with
 * values of its own; several threads may read one entry. None may be called from a signal handler.
 * Memory is allocated with malloc and realloc and released with free.
 */
#ifndef TI_H
#define TI_H

#include <stdbool.h>
#include <stddef.h>
#include <stdint.h>
#include <string.h>

/*
 * The version of this interface, as text and as a number that increases. Functions, the numbers of
 * statuses, the size and the fields of each struct, and the name of the shared library change only
 * with the major version; a minor version adds functions and statuses.
 */
#define TI_VERSION "2.0.0"
#define TI_VERSION_MAJOR 2
#define TI_VERSION_MINOR 0
#define TI_VERSION_PATCH 0
#define TI_VERSION_NUMBER 20000

#ifdef __cplusplus
extern "C" {
#define TI_EMPTY_BYTES reinterpret_cast<const uint8_t *>("")
#else
#define TI_EMPTY_BYTES (const uint8_t *)""
#endif

/*
 * How a call ended. The numbers from 1 to 8 say why bytes are not an entry, in the order of the
 * checks. ti_strerror has a sentence for each.
 */
enum ti_status {
    TI_OK = 0,
    TI_SHORT = 1,          /* fewer bytes than a header */
    TI_MAGIC = 2,          /* the first number belongs to neither format */
    TI_COUNTS = 3,         /* a size or a count is negative or too large */
    TI_TRUNCATED = 4,      /* the bytes end before the string table does */
    TI_BAD_NAMES = 5,      /* no names, or their only NUL is not their last byte; too long to write */
    TI_BAD_FLAG = 6,       /* a boolean is not 0, 1, 0xFE or 0xFF */
    TI_BAD_NUMBER = 7,     /* a number is below -2 */
    TI_BAD_OFFSET = 8,     /* an offset is below -2, or no NUL follows it in the string table */
    TI_NO_MEMORY = 9,      /* out of memory */
    TI_NO_TERMINAL = 10,   /* no directory has an entry of the name */
    TI_READ_FAILED = 11,   /* a file could not be read; errno says why */
    TI_BAD_EXTENSION = 12, /* the user-defined capabilities after the entry are malformed */
    TI_BAD_FORMAT = 13,    /* a `%` does not begin a valid code */
    TI_STACK_FULL = 14,    /* a code pushes onto 20 values */
    TI_NO_ROOM = 15,       /* the bytes are more than the room */
    TI_TOO_MUCH = 16,      /* more than 65,536 pad bytes */
    TI_BAD_NAME = 17,      /* not a valid name of a terminal */
    TI_ABSENT = 18,        /* the terminal does not have the string */
    TI_NOT_TAKEN = 19,     /* the caller's function accepted only a part of the bytes */
    TI_BAD_PARAMETER = 20, /* a number where the string takes a string, or the other way round */
    TI_TERM_UNSET = 21,    /* the variable TERM is not set */
    TI_EMPTY_NAME = 22,    /* the name of the terminal, or TERM, is empty */
    TI_PATH_NAME = 23,     /* the name of the terminal, or TERM, has a slash */
    TI_UNFINISHED = 24,    /* the bytes may be the front of a longer key */
    TI_BAD_CAPABILITY = 25, /* no capability can have the name */
    TI_BAD_VALUE = 26,     /* the capability cannot have the value */
    TI_TOO_LARGE = 27      /* the entry would have more bytes than its limit */
};

/* A status, and a number that the call describes. */
struct ti_outcome {
    enum ti_status status;
    size_t size;
};

/* A string of bytes, not necessarily followed by a NUL. */
struct ti_text {
    const uint8_t *bytes;
    size_t size;
};
#define TI_NOTHING { TI_EMPTY_BYTES, 0 }

/* ---- capabilities: terminfo(5), "Predefined Capabilities" */

/* The kinds of capabilities. */
enum { TI_FLAG = 0, TI_NUMBER = 1, TI_STRING = 2 };
/* The number of capabilities of each kind. */
enum { TI_FLAGS = 44, TI_NUMBERS = 39, TI_STRINGS = 414 };

/* A capability: its kind, and its index within the kind, from 0, in the order of <term.h>. */
struct ti_place {
    uint32_t kind;
    uint32_t index;
};

/* A place with this kind and index, as the constants of <ti_names.h> are. */
#ifndef __cplusplus
#define TI_PLACE(kind, index) ((struct ti_place){ kind, index })
#elif __cplusplus >= 201103L
#define TI_PLACE(kind, index) (ti_place{ kind, index })
#else
#define TI_PLACE(kind, index) (ti_place_of(kind, index))
#endif

/*
 * Looks up a capability by its name, such as "setaf", and stores it in *found. Returns false and
 * leaves *found unchanged if no capability has exactly this name.
 */
bool ti_capability(const uint8_t *name, size_t size, struct ti_place *found);

/*
 * Stores the name of the capability with this kind and index in *text, which then points into the
 * library. Returns false and leaves *text unchanged if there is no such capability.
 */
bool ti_name(uint32_t kind, uint32_t index, struct ti_text *text);

/*
 * Looks up a capability by its variable in terminfo(5), such as "set_a_foreground", and stores it
 * in *found. Returns false and leaves *found unchanged if no capability has exactly this variable.
 */
bool ti_capability_by_variable(const uint8_t *variable, size_t size, struct ti_place *found);

/*
 * Looks up a capability of a kind by its code in termcap, such as "AF", and stores it in *found:
 * the last one, if two have the code. Returns false and leaves *found unchanged if none of the kind
 * has exactly this code.
 */
bool ti_capability_by_code(uint32_t kind, const uint8_t *code, size_t size, struct ti_place *found);

/*
 * Stores the variable of the capability with this kind and index in *text, as ti_name stores its
 * name.
 */
bool ti_variable_name(uint32_t kind, uint32_t index, struct ti_text *text);

/* Stores the code in termcap of the capability with this kind and index in *text, likewise. */
bool ti_termcap_code(uint32_t kind, uint32_t index, struct ti_text *text);

/* ---- entries: term(5) */

/* A compiled entry. The fields are private to the library. */
struct ti_entry {
    bool wide;
    struct ti_text names;
    struct ti_text flags;
    struct ti_text numbers;
    struct ti_text offsets;
    struct ti_text strings;
    struct ti_text bytes;
};
#define TI_ENTRY_EMPTY \
    { false, TI_NOTHING, TI_NOTHING, TI_NOTHING, TI_NOTHING, TI_NOTHING, TI_NOTHING }

/*
 * Reads a compiled entry in the legacy storage format or the extended number format, in place, in
 * one pass and without allocating memory. Returns TI_OK; or the first of TI_SHORT to TI_BAD_OFFSET
 * that applies, and *entry is unchanged. Bytes after the string table, which the extended storage
 * format of ncurses has, are ignored: see ti_extension_read. The bytes must stay in place and
 * unchanged as long as the entry is in use.
 */
enum ti_status ti_entry_read(const uint8_t *bytes, size_t size, struct ti_entry *entry);

/*
 * Reads an entry from a copy of the bytes, which the caller may then release. Returns TI_OK, and
 * *entry must later be passed to ti_entry_free; or, with *entry unchanged, what ti_entry_read
 * returns or TI_NO_MEMORY.
 */
enum ti_status ti_entry_new(const uint8_t *bytes, size_t size, struct ti_entry **entry);

/*
 * The following functions use an entry from ti_entry_read, ti_entry_new or ti_open, or
 * TI_ENTRY_EMPTY. A text that they store points into the entry's bytes, and is valid as long as
 * these are. An index counts within the kind of the function; use ti_flag_at, ti_number_at and
 * ti_string_at to have the kind of a capability checked.
 */

/* Stores the names field, such as "xterm|xterm terminal emulator", without its NUL, in *text. */
void ti_names(const struct ti_entry *entry, struct ti_text *text);

/* Stores the first name in *text: the names field up to its first `|`, or all of it. */
void ti_first_name(const struct ti_entry *entry, struct ti_text *text);

/* Stores the description in *text: the names field after its last `|`, or all of it. */
void ti_long_name(const struct ti_entry *entry, struct ti_text *text);

/* Returns 1 if a boolean is set, 0 if it is absent or cancelled, -1 if the index is invalid. */
int32_t ti_flag(const struct ti_entry *entry, uint32_t index);

/* Returns a number, -1 if it is absent or cancelled, -2 if the index is invalid. */
int64_t ti_number(const struct ti_entry *entry, uint32_t index);

/*
 * Stores a string in *text and returns 1. The size does not count the NUL that follows the string
 * in the entry. Returns 0 if it is absent or cancelled, -1 if the index is invalid; *text is then
 * unchanged.
 */
int32_t ti_string(const struct ti_entry *entry, uint32_t index, struct ti_text *text);

/* ---- user-defined capabilities: user_caps(5); term(5), "Extended storage format" */

/* The user-defined capabilities of an entry. The fields are private to the library. */
struct ti_extension {
    bool wide;
    struct ti_text flags;
    struct ti_text numbers;
    struct ti_text values;
    struct ti_text names;
    struct ti_text table;
    struct ti_text tail;
};
#define TI_EXTENSION_EMPTY \
    { false, TI_NOTHING, TI_NOTHING, TI_NOTHING, TI_NOTHING, TI_NOTHING, TI_NOTHING }

/* The value of a user-defined capability. */
struct ti_value {
    uint32_t kind;       /* TI_FLAG, TI_NUMBER or TI_STRING */
    bool is_present;     /* false if it is absent or cancelled */
    uint32_t number;     /* the value of a number; 1 for a boolean; else 0 */
    struct ti_text text; /* the value of a string, without its NUL; else empty */
};
#define TI_VALUE_EMPTY { 0, false, 0, TI_NOTHING }

/*
 * Reads the user-defined capabilities of an entry in place, in one pass and without allocating
 * memory. Returns TI_OK, also for an entry that has none; or, with *extension unchanged, what
 * ti_entry_read returns or TI_BAD_EXTENSION. *extension and its texts are valid as long as the
 * entry is.
 */
enum ti_status ti_extension_read(const struct ti_entry *entry, struct ti_extension *extension);

/* Returns the number of user-defined capabilities. */
size_t ti_user_defined_count(const struct ti_extension *extension);

/*
 * Stores the user-defined capability at an index, from 0, in *name and *value: booleans come first,
 * then numbers, then strings, each sorted by name. In the entry a NUL follows the name, and each
 * string. Returns false and leaves *name and *value unchanged if the index is too large.
 */
bool ti_user_defined(const struct ti_extension *extension, size_t index, struct ti_text *name,
                     struct ti_value *value);

/*
 * Looks up a user-defined capability by its name, such as "Tc", and stores its value in *value.
 * Returns false and leaves *value unchanged if it is absent or cancelled. The search is binary.
 */
bool ti_user_defined_named(const struct ti_extension *extension, const uint8_t *name, size_t size,
                           struct ti_value *value);

/* ---- changed entries */

/*
 * A change of an entry: the name of a capability of terminfo(5), such as "smcup", or a user-defined
 * name, which consists of letters, digits and `%&*!`; and the value that it is given. If the value
 * is not present, what the capability has is taken away, whatever its kind. See ti_string_change.
 */
struct ti_change {
    struct ti_text name;
    struct ti_value value;
};
#define TI_CHANGE_EMPTY { TI_NOTHING, TI_VALUE_EMPTY }

/* Stores the bytes of an entry, which include its user-defined capabilities, in *text. */
void ti_entry_bytes(const struct ti_entry *entry, struct ti_text *text);

/*
 * Writes a compiled entry to `out`, which has room for `room` bytes: it has these names, without a
 * NUL, and what `count` changes leave of an entry and its user-defined capabilities. The last
 * change of a name decides; what is not named is as before, and what is cancelled is absent. With
 * TI_ENTRY_EMPTY and TI_EXTENSION_EMPTY it has what the changes say alone. User-defined
 * capabilities come in the order of ti_user_defined. Returns TI_OK and the number of bytes; or,
 * with `out` unchanged,
 *
 * - TI_BAD_NAMES and 0: the names are empty, have a NUL or more than 127 bytes;
 * - TI_BAD_CAPABILITY or TI_BAD_VALUE and the index of the first change that cannot be made: no
 *   capability can have the name; or the value is of another kind than the capability, a number
 *   over 2,147,483,647 or a string with a NUL;
 * - TI_TOO_LARGE and 0: the entry would have more than 4,096 bytes, or more than 32,768 if a number
 *   is over 32,767;
 * - TI_NO_ROOM and the number of bytes needed; or TI_NO_MEMORY and 0.
 */
struct ti_outcome ti_entry_write(const struct ti_entry *entry, const struct ti_extension *extension,
                                 const uint8_t *names, size_t names_size,
                                 const struct ti_change *changes, size_t count, uint8_t *out,
                                 size_t room);

/* ---- parameters: terminfo(5), "Parameterized Strings" */

/* A parameter: a number if `kind` is 0, otherwise a string. */
struct ti_parameter {
    uint32_t kind;
    int32_t number;
    struct ti_text text;
};

/* The parameters that a string takes. */
struct ti_parameters {
    size_t named;    /* the greatest number of a `%p1` to `%p9`; 0 if there is none */
    size_t popped;   /* how many values, at most 9, are popped without having been pushed */
    bool strings[9]; /* for each parameter, whether it is a string: see ti_parameters_of */
};
#define TI_PARAMETERS_EMPTY { 0, 0, { false } }

/*
 * Stores which parameters a string takes in *taken. A parameter is a string if a `%s` or `%l` comes
 * after its `%p` and only bytes are written between them. A string of termcap has no `%p` and takes
 * its parameters from the stack: there are `popped` of them if all its parts are expanded in order.
 * ti_expand does not put parameters there, and gives 0 for each; it takes them if the string has
 * been through ti_named_format. Returns false and leaves *taken unchanged if the string is
 * malformed.
 */
bool ti_parameters_of(const uint8_t *format, size_t format_size, struct ti_parameters *taken);

/* The static variables `A` to `Z`, initially 0. They keep their values between expansions. */
struct ti_variables {
    int32_t values[26];
};

/*
 * Expands a string: writes the bytes that the format produces for these parameters to `out`, which
 * has room for `room` bytes. Missing parameters are the number 0, and those after the ninth are
 * ignored. Padding `$<..>` is copied: see ti_pad. Returns TI_OK and the number of bytes;
 * TI_BAD_FORMAT and the index of the first `%` that does not begin a valid code; TI_STACK_FULL and
 * the index of the `%` of the code that pushes onto 20 values; TI_NO_ROOM and the number of bytes
 * needed; or TI_NO_MEMORY and 0. After all but TI_OK, *variables and `out` are unchanged, so the
 * call can be repeated with enough room.
 */
struct ti_outcome ti_expand(const uint8_t *format, size_t format_size,
                            const struct ti_parameter *params, size_t count,
                            struct ti_variables *variables, uint8_t *out, size_t room);

/* ---- padding: terminfo(5), "Delays and Padding" */

/* The line to the terminal. */
struct ti_line {
    uint32_t rate;      /* in bits per second; a byte takes ten bits */
    uint32_t pad_from;  /* the lowest rate at which padding is written (`pb`) */
    bool xon;           /* the terminal controls the flow: only mandatory padding is written */
    bool has_pad_byte;  /* if false, no padding is written (`npc`) */
    uint8_t pad_byte;   /* the byte that padding consists of (`pad`) */
};
#define TI_LINE_EMPTY { 0, 0, false, false, 0 }

/* Stores the line to a terminal with this entry and a rate in bits per second in *line. */
void ti_line_of(const struct ti_entry *entry, uint32_t rate, struct ti_line *line);

/*
 * Writes a text that affects so many lines of the screen to `out`, which has room for `room` bytes,
 * with each padding `$<..>` replaced by pad bytes. Returns TI_OK and the number of bytes; or, with
 * `out` unchanged, TI_NO_ROOM and the number of bytes needed, TI_TOO_MUCH and 0, or TI_NO_MEMORY
 * and 0.
 */
struct ti_outcome ti_pad(const uint8_t *text, size_t size, uint32_t affected,
                         const struct ti_line *line, uint8_t *out, size_t room);

/* A text split at its first delay `$<..>`. */
struct ti_delay {
    struct ti_text before; /* the bytes before the delay */
    struct ti_text after;  /* the bytes after it, which may have further delays */
    uint64_t tenths;       /* the time that is due, in tenths of a millisecond */
};
#define TI_DELAY_EMPTY { TI_NOTHING, TI_NOTHING, 0 }

/*
 * Splits a text that affects so many lines of the screen at its first delay and stores the parts,
 * which point into the text, in *delay. The time is 0 unless the delay is mandatory, or the
 * terminal does not control the flow and the rate is at least `pad_from`; the pad byte does not
 * matter. Returns false and leaves *delay unchanged if the text has no delay.
 */
bool ti_first_delay(const uint8_t *text, size_t size, uint32_t affected,
                    const struct ti_line *line, struct ti_delay *delay);

/* ---- where entries are: term(5), "Storage location" */

/*
 * Stores the directory at an index of the search order of `ti tput` in *found: the value of
 * TERMINFO, if it is not empty; the parts of TERMINFO_DIRS between colons, if that is set, an empty
 * part meaning /usr/share/terminfo; and /usr/share/terminfo. Returns false and leaves *found
 * unchanged if the index is too large. The text points into an argument or the library.
 */
bool ti_places(const uint8_t *terminfo, size_t terminfo_size, bool dirs_set, const uint8_t *dirs,
               size_t dirs_size, uint32_t index, struct ti_text *found);

/*
 * Stores the directory at an index of the system's list, in which Debian keeps its entries, in
 * *found: /etc/terminfo, /lib/terminfo or /usr/share/terminfo. Returns false and leaves *found
 * unchanged if the index is too large. The text points into the library.
 */
bool ti_system_directories(uint32_t index, struct ti_text *found);

/*
 * Writes the path of the entry with this name below a directory, with a NUL after it, to `out`,
 * which has room for `room` bytes. Returns TI_OK and the number of bytes, the NUL among them; or,
 * with `out` unchanged, TI_NO_ROOM and the number of bytes needed, TI_NO_MEMORY and 0, or
 * TI_BAD_NAME and 0: the name is empty, `.` or `..`, or has a byte that is not printable, a space,
 * or one of `,/|`.
 */
struct ti_outcome ti_path(const uint8_t *dir, size_t dir_size, const uint8_t *name,
                          size_t name_size, uint8_t *out, size_t room);

/* ---- Files: from here on in C on top of the functions above, tested but not proved */

/*
 * Finds and reads the entry of a terminal, as ncurses on Debian does: in the directory TERMINFO of
 * the environment, if it is not empty; in $HOME/.terminfo; in the parts of TERMINFO_DIRS between
 * colons, an empty part meaning /etc/terminfo; and in the directories of ti_system_directories.
 * Below each of them the path is that of ti_path; if no directory has that file, it is looked for
 * below the first byte in hexadecimal, such as 78/xterm. A file that is not an entry or
 * cannot be read is skipped, as is a directory that cannot be searched. If `name` is NULL, TERM is
 * used. Returns TI_OK, and *entry must later be passed to ti_entry_free; or, with *entry unchanged,
 *
 * - TI_TERM_UNSET, TI_EMPTY_NAME, TI_PATH_NAME or TI_BAD_NAME, if no entry can have the name;
 * - if no directory has an entry of the name, the status of the first file that was skipped,
 *   TI_SHORT to TI_BAD_OFFSET or TI_READ_FAILED; or TI_NO_TERMINAL, if there was none;
 * - TI_NO_MEMORY.
 *
 * A file of more than 65,536 bytes is refused, by its first 65,537 bytes or else as TI_COUNTS;
 * anything but a regular file as TI_READ_FAILED. TERMINFO is always the name of a directory: an
 * entry in it, which ncurses reads after `hex:` or `b64:`, is not looked for. In a program with
 * more rights than its user, the variables TERMINFO, TERMINFO_DIRS and HOME are ignored.
 */
enum ti_status ti_open(const char *name, struct ti_entry **entry);

/*
 * Does what ti_open does, and stores the path of the file in *path: of the entry, or of the first
 * file that was skipped if the status is about that. It must later be passed to free. If there is
 * neither, *path is NULL.
 */
enum ti_status ti_open_path(const char *name, struct ti_entry **entry, char **path);

/*
 * Finds and reads the entry of a terminal as `ti tput` does, in the directories of ti_places: the
 * first file of the name counts, whatever it has. If `name` is NULL, TERM is used. Returns what
 * ti_open returns.
 */
enum ti_status ti_open_profile(const char *name, struct ti_entry **entry);

/*
 * Reads the entry of a terminal below a directory, at the path of ti_path. Returns TI_OK; or, with
 * *entry unchanged, TI_EMPTY_NAME, TI_PATH_NAME, TI_BAD_NAME, what ti_entry_new returns,
 * TI_READ_FAILED, or TI_NO_TERMINAL if the directory has no such file or cannot be searched.
 */
enum ti_status ti_open_below(const char *directory, const char *name, struct ti_entry **entry);

/* Frees an entry of ti_entry_new or ti_open, and its texts. NULL is a no-op. */
void ti_entry_free(struct ti_entry *entry);

/* Returns an English sentence for a status; never NULL. */
const char *ti_strerror(enum ti_status status);

/* Returns the version of the library at run time: TI_VERSION of its header. */
const char *ti_version(void);

/* ---- Values by a name or a constant */

/* What the following functions return for a place of another kind. */
enum { TI_WRONG_KIND = -3 };

/* The boolean at a place, as ti_flag returns it; TI_WRONG_KIND. */
int32_t ti_flag_at(const struct ti_entry *entry, struct ti_place place);

/* The number at a place, as ti_number returns it; TI_WRONG_KIND. */
int64_t ti_number_at(const struct ti_entry *entry, struct ti_place place);

/* The string at a place, as ti_string returns it; TI_WRONG_KIND, and *found is unchanged. */
int32_t ti_string_at(const struct ti_entry *entry, struct ti_place place, struct ti_text *found);

/*
 * The following functions take a name of a capability of their kind: that of terminfo(5), such as
 * "cup"; else that of a user-defined capability of the entry, such as "Smulx"; else the variable,
 * such as "cursor_address"; else the code in termcap, such as "cm".
 */

/* The boolean with this name, as ti_flag returns it; -1 if no boolean has the name. */
int32_t ti_flag_named(const struct ti_entry *entry, const char *name);

/* The number with this name, as ti_number returns it; -2 if no number has the name. */
int64_t ti_number_named(const struct ti_entry *entry, const char *name);

/* The string with this name, as ti_string returns it; -1 if no string has the name. */
int32_t ti_string_named(const struct ti_entry *entry, const char *name, struct ti_text *found);

/* ---- Changed entries */

/*
 * Makes an entry of another one with `count` changes, as ti_entry_write does, with the same names.
 * Returns TI_OK and 0, and *changed must later be passed to ti_entry_free; or, with *changed
 * unchanged, TI_BAD_EXTENSION and 0, or what ti_entry_write returns. `changed` may be the pointer
 * that holds the entry; that still has to be freed. ti_entry_bytes has its bytes.
 */
struct ti_outcome ti_entry_change(const struct ti_entry *entry, const struct ti_change *changes,
                                  size_t count, struct ti_entry **changed);

/* Changes that give a capability a value or take it away. They point to their arguments. */
struct ti_change ti_flag_change(const char *name);
struct ti_change ti_number_change(const char *name, uint32_t number);
struct ti_change ti_string_change(const char *name, const char *string);
struct ti_change ti_text_change(const char *name, const uint8_t *bytes, size_t size);
struct ti_change ti_absent_change(const char *name);

/* ---- Output */

/*
 * Writes the format with which ti_expand takes the parameters of a string to `out`, which has room
 * for `room` bytes. It is the string itself, unless that takes parameters from the stack alone, as
 * strings of termcap do: then a `%p` for each comes before it. Returns TI_OK and the number of
 * bytes; or, with `out` unchanged, TI_NO_ROOM and the number of bytes needed, or TI_BAD_FORMAT and
 * the index of the first `%` that does not begin a valid code.
 */
struct ti_outcome ti_named_format(const uint8_t *format, size_t format_size, uint8_t *out,
                                  size_t room);

/*
 * Passes the bytes that ti_pad writes to `put`, one at a time. Returns TI_OK and the number of
 * bytes; TI_NOT_TAKEN and the number of bytes before that for which `put` returned a negative
 * number, after which nothing is passed; or what ti_pad returns, after passing none.
 */
struct ti_outcome ti_puts(const uint8_t *text, size_t size, uint32_t affected,
                          const struct ti_line *line, int (*put)(int));

/*
 * The functions of the caller that send bytes. `put` is passed a block of bytes and returns how
 * many it accepted; if these are fewer, nothing more is passed. If the line has no pad byte or its
 * rate is 0, `wait` is called at each delay that is due, in place of pad bytes: it should flush
 * what `put` has buffered, and sleep for this many tenths of a millisecond. If it is NULL, delays
 * are left out. Both are passed `context`.
 */
struct ti_output {
    size_t (*put)(const uint8_t *bytes, size_t size, void *context);
    void (*wait)(uint64_t tenths, void *context);
    void *context;
};

/*
 * Sends a text that affects so many lines of the screen, with its delays as pad bytes or by `wait`.
 * Returns TI_OK or TI_NOT_TAKEN and the number of bytes accepted; or what ti_pad returns, after
 * passing none.
 */
struct ti_outcome ti_write(const uint8_t *text, size_t size, uint32_t affected,
                           const struct ti_line *line, const struct ti_output *output);

/*
 * Sends a string of the terminal by a name that ti_string_named takes: expands it with `count`
 * parameters and passes it to ti_write. A parameter that is not given is the number 0. A string
 * without parameters is not expanded if `count` is 0: a `%` in it is a plain byte. Parameters of a
 * string of termcap are put onto the stack. Returns what ti_write returns; or, after passing
 * nothing, what ti_expand returns, TI_ABSENT and 0, or TI_BAD_PARAMETER and the number of the
 * parameter, from 1: it is a number, or not given, where the string takes a string, or it is a
 * string where a number is taken. After all but TI_OK and TI_NOT_TAKEN *variables is unchanged.
 */
struct ti_outcome ti_send(const struct ti_entry *entry, struct ti_variables *variables,
                          const struct ti_line *line, const char *name,
                          const struct ti_parameter *params, size_t count, uint32_t affected,
                          const struct ti_output *output);

/*
 * Returns the rate in bits per second of a speed of termios(3), such as B9600, which cfgetospeed
 * returns; 0 if it has none.
 */
uint32_t ti_rate(uint32_t speed);

/* ---- Terminals */

/*
 * A terminal that is opened once: its entry with its user-defined capabilities, its variables, the
 * line to it, and where bytes go. Its size is not part of this interface. Threads may use several
 * terminals at the same time, and one in turn.
 */
struct ti_terminal;

/*
 * Opens a terminal for a file that is open for writing, such as STDOUT_FILENO: finds its entry as
 * ti_open does, by its name or TERM, and asks the file for the rate of the line. Returns TI_OK, and
 * *terminal must later be passed to ti_terminal_close; or, with *terminal unchanged, what ti_open
 * returns. The file stays open.
 */
enum ti_status ti_terminal_open(const char *name, int file, struct ti_terminal **terminal);

/*
 * Makes a terminal of an entry of ti_entry_new or ti_open, at a rate in bits per second, or 0, from
 * which bytes go to `output`. Returns TI_OK, and the entry is then freed by ti_terminal_close; or
 * TI_NO_MEMORY, and *terminal and the entry are unchanged.
 */
enum ti_status ti_terminal_new(struct ti_entry *entry, uint32_t rate,
                               const struct ti_output *output, struct ti_terminal **terminal);

/* Frees a terminal and its entry. NULL is a no-op. */
void ti_terminal_close(struct ti_terminal *terminal);

/* Returns the entry of a terminal, which is valid until that is closed. */
const struct ti_entry *ti_terminal_entry(const struct ti_terminal *terminal);

/* Returns the path of the file of the entry; NULL if ti_terminal_new made the terminal. */
const char *ti_terminal_path(const struct ti_terminal *terminal);

/*
 * Changes the entry of a terminal, as ti_entry_change does, for all that is sent to it later.
 * Returns what that returns. The entry of ti_terminal_entry from before, and its texts, are freed;
 * after all but TI_OK they are as before.
 */
struct ti_outcome ti_terminal_change(struct ti_terminal *terminal, const struct ti_change *changes,
                                     size_t count);

/* The size of a screen, in characters; 0 if it is not known. */
struct ti_size {
    uint32_t height;
    uint32_t width;
};

/*
 * Returns the size of the screen: LINES and COLUMNS of the environment, each if it is a decimal
 * number over 0; else that of the window of the terminal's file; else that of the entry.
 */
struct ti_size ti_terminal_size(const struct ti_terminal *terminal);

/*
 * Sends the string at a place, such as TI_SETAF, to the terminal, as ti_send does, for one line of
 * the screen. Returns what ti_send returns; TI_ABSENT if the place is of another kind. Bytes are
 * written at once, so bytes of stdio have to be flushed before. At a delay of a line without a pad
 * byte or without a rate, it sleeps.
 */
struct ti_outcome ti_put_values(struct ti_terminal *terminal, struct ti_place place,
                                const struct ti_parameter *params, size_t count);

/* Does the same for a name that ti_string_named takes, such as "Smulx" or "cursor_address". */
struct ti_outcome ti_put_named_values(struct ti_terminal *terminal, const char *name,
                                      const struct ti_parameter *params, size_t count);

/* The same, with parameters that are numbers; those after the ninth are ignored. */
struct ti_outcome ti_put_numbers(struct ti_terminal *terminal, struct ti_place place,
                                 const int32_t *numbers, size_t count);
struct ti_outcome ti_put_named_numbers(struct ti_terminal *terminal, const char *name,
                                       const int32_t *numbers, size_t count);

/*
 * Finds the key that bytes from the terminal begin with: the longest of its strings whose name
 * begins with a `k`, such as kcuu1 and the user-defined kUP5. Returns TI_OK and the size of the
 * key's string, and stores its name in *name; TI_ABSENT and 0, with *name unchanged, if no key is
 * there; or TI_UNFINISHED if a longer key has all of the bytes at its front, with the size and the
 * name of the key that is there, or 0 and *name unchanged. A program then waits some time for more.
 */
struct ti_outcome ti_terminal_key(const struct ti_terminal *terminal, const uint8_t *bytes,
                                  size_t size, struct ti_text *name);

/* Sends bytes as they are. Returns TI_OK or TI_NOT_TAKEN and the number of bytes accepted. */
struct ti_outcome ti_put_text(struct ti_terminal *terminal, const uint8_t *bytes, size_t size);

/* ---- Values to pass */

/* The bytes of a C string, without its NUL. */
struct ti_text ti_text_of(const char *text);

/* A place with this kind and index, for C++98, where TI_PLACE calls it. */
struct ti_place ti_place_of(uint32_t kind, uint32_t index);

/* A parameter that is a number. */
struct ti_parameter ti_number_given(int32_t number);

/* A parameter that is a string. */
struct ti_parameter ti_text_given(const uint8_t *bytes, size_t size);

/* A parameter that is a C string. */
struct ti_parameter ti_string_given(const char *text);

#ifdef __cplusplus
}
#endif

/*
 * ti_put(terminal, TI_SETAF, 2) and ti_put_named(terminal, "Smulx", 3) are ti_put_numbers and
 * ti_put_named_numbers with the numbers that come after the string, which are evaluated once.
 * Compilers reject anything but numbers, or warn of it. C++98 does not have them.
 */
#ifndef __cplusplus
#define ti_put(terminal, ...) \
    ti_put_numbers(terminal, TI_FIRST_(__VA_ARGS__, 0), TI_NUMBERS_(__VA_ARGS__, 0))
#define ti_put_named(terminal, ...) \
    ti_put_named_numbers(terminal, TI_FIRST_(__VA_ARGS__, 0), TI_NUMBERS_(__VA_ARGS__, 0))
#define TI_FIRST_(first, ...) first
/* a 0 comes after the numbers, so that there is one if there are none */
#define TI_NUMBERS_(first, ...) \
    (const int32_t[]){ __VA_ARGS__ }, sizeof((const int32_t[]){ __VA_ARGS__ }) / sizeof(int32_t) - 1
#elif __cplusplus >= 201103L
template <typename... Numbers>
inline ti_outcome ti_put(ti_terminal *terminal, ti_place place, Numbers... numbers) {
    const int32_t given[] = { numbers..., 0 };
    return ti_put_numbers(terminal, place, given, sizeof...(numbers));
}
template <typename... Numbers>
inline ti_outcome ti_put_named(ti_terminal *terminal, const char *name, Numbers... numbers) {
    const int32_t given[] = { numbers..., 0 };
    return ti_put_named_numbers(terminal, name, given, sizeof...(numbers));
}
#endif
#endif
