/*
 * The directories of entries, as tic, infocmp and toe of ncurses go through them, and the one that
 * tic writes to.
 */
#include "tinfo.h"

#include <limits.h>
#include <stdio.h>
#include <stdlib.h>
#include <sys/auxv.h>
#include <sys/stat.h>

/* ---- files */

/* Whether a path is that of a file of a type of stat(2). */
static bool is_of_type(const char *path, mode_t type) {
    struct stat found;
    return stat(path, &found) == 0 && (found.st_mode & S_IFMT) == type;
}

EXPORTED bool _nc_is_dir_path(const char *path) { return is_of_type(path, S_IFDIR); }
EXPORTED bool _nc_is_file_path(const char *path) { return is_of_type(path, S_IFREG); }

/* Whether the environment counts: not in a program with more rights than its user. */
EXPORTED bool _nc_env_access(void) { return !getauxval(AT_SECURE); }

/* ---- where tic writes */

/* The directory, once it is chosen; and whether that is final. */
static struct {
    char *directory;
    bool is_final;
} chosen;

static const char *first_of_system(void) {
    struct ti_text directory = TI_NOTHING;
    ti_system_directories(0, &directory);
    /* a NUL follows a text of the library */
    return (const char *)directory.bytes;
}

/* Chooses a directory, or TERMINFO if none was chosen; gives what is chosen, or the system's. */
EXPORTED const char *_nc_tic_dir(const char *path) {
    if (!path && !chosen.directory) path = secure_getenv("TERMINFO");
    char *copy = path && !chosen.is_final ? strdup(path) : NULL;
    if (copy) {
        free(chosen.directory);
        chosen.directory = copy;
    }
    return chosen.directory ? chosen.directory : first_of_system();
}

/* Chooses a directory for good. */
EXPORTED void _nc_keep_tic_dir(const char *path) {
    _nc_tic_dir(path);
    chosen.is_final = true;
}

/* The directory of the user's own entries; NULL if there can be none. */
EXPORTED char *_nc_home_terminfo(void) {
    static char path[PATH_MAX];
    const char *home = secure_getenv("HOME");
    if (!home || strlen(home) + sizeof "/.terminfo" > sizeof path) return NULL;
    snprintf(path, sizeof path, "%s/.terminfo", home);
    return path;
}

/* ---- where entries are */

/* A directory of the list, by its path and by what stat(2) says of it. */
struct directory {
    char *path;
    dev_t device;
    ino_t number;
};
static struct {
    struct directory *rows;
    int count;
} list;

static bool is_listed(const struct stat *found) {
    for (int i = 0; i < list.count; i++)
        if (list.rows[i].device == found->st_dev && list.rows[i].number == found->st_ino)
            return true;
    return false;
}

/* Adds a directory, if it is there and not yet listed. */
static void add_directory(const char *bytes, size_t size) {
    struct stat found;
    char *path = strndup(bytes, size);
    size_t count = (size_t)list.count + 1;
    bool is_new = path && stat(path, &found) == 0 && !is_listed(&found);
    struct directory *rows = is_new ? (struct directory *)realloc(list.rows, count * sizeof *rows)
                                    : NULL;
    if (!rows) {
        free(path);
        return;
    }
    list.rows = rows;
    rows[list.count++] = (struct directory){ path, found.st_dev, found.st_ino };
}

static void add_path(const char *path) {
    if (path && *path) add_directory(path, strlen(path));
}

/* Adds the parts of a list between colons; an empty one is the first directory of the system. */
static void add_parts(const char *parts) {
    for (const char *part = parts; part; part = *part ? part + 1 : NULL) {
        size_t size = strcspn(part, ":");
        if (size) add_directory(part, size);
        else add_path(first_of_system());
        part += size;
    }
}

EXPORTED void _nc_last_db(void) {
    for (int i = 0; i < list.count; i++) free(list.rows[i].path);
    free(list.rows);
    list.rows = NULL;
    list.count = 0;
}

/* Makes the list: the directory that tic writes to, if it was chosen, and those of setupterm. */
EXPORTED void _nc_first_db(int *at, int *offset) {
    struct ti_text directory = TI_NOTHING;
    _nc_last_db();
    *at = *offset = 0;
    add_path(chosen.directory);
    add_path(secure_getenv("TERMINFO"));
    add_path(_nc_home_terminfo());
    if (secure_getenv("TERMINFO_DIRS")) add_parts(secure_getenv("TERMINFO_DIRS"));
    for (uint32_t i = 0; ti_system_directories(i, &directory); i++)
        add_directory((const char *)directory.bytes, directory.size);
}

/* The next directory of the list, which counts in *at; NULL after the last one. */
EXPORTED const char *_nc_next_db(int *at, int *offset) {
    (void)offset;
    return *at < list.count ? list.rows[(*at)++].path : NULL;
}
