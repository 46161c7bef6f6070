/*
 * ti-run.so: what ti-run(1) has the loader begin a program with, so that those that the program
 * starts find the system's libtinfo.so.6 again. It takes what ti-run has said out of the
 * environment; the loader has read it by then. So it does not matter whether the program itself
 * uses the library: a script's shell does not.
 *
 * The environment is looked at by itself: bash has a getenv of its own, which is not ready yet.
 */
#include <stdbool.h>
#include <stddef.h>
#include <string.h>

extern char **environ;

/* What a line of the environment gives a variable, or NULL if it is of another one. */
static char *value_in(char *line, const char *name) {
    size_t size = strlen(name);
    return strncmp(line, name, size) == 0 && line[size] == '=' ? line + size + 1 : NULL;
}

/* Takes so many bytes from the front of a list between colons. Gives whether nothing is left. */
static bool drop_first(char *list, size_t size) {
    if (!list[size]) return true;
    if (list[size] == ':') memmove(list, list + size + 1, strlen(list + size + 1) + 1);
    return false;
}

/* Takes what ti-run has said out of a line of the environment. Gives whether nothing is left. */
static bool is_ours_alone(char *line, const char *directory) {
    static const char file[] = "ti-run.so";
    size_t size = strlen(directory);
    if (value_in(line, "TI_RUN") || value_in(line, "LD_BIND_NOW")) return true;
    char *list = value_in(line, "LD_LIBRARY_PATH");
    if (list) return strncmp(list, directory, size) == 0 && drop_first(list, size);
    list = value_in(line, "LD_PRELOAD");
    if (!list) return false;
    /* the directory is there if it can be */
    size_t at = strncmp(list, directory, size) == 0 && list[size] == '/' ? size + 1 : 0;
    bool is_ours = strncmp(list + at, file, sizeof file - 1) == 0;
    return is_ours && drop_first(list, at + sizeof file - 1);
}

__attribute__((constructor)) static void leave_to_others(void) {
    const char *directory = NULL;
    for (char **at = environ; at && *at && !directory; at++) directory = value_in(*at, "TI_RUN");
    if (!directory) return;
    char **kept = environ;
    for (char **at = environ; *at; at++)
        if (!is_ours_alone(*at, directory)) *kept++ = *at;
    *kept = NULL;
}
