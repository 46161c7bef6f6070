/*
 * Prints what the functions and variables of libtinfo say that tic, infocmp, toe and their library
 * call: names, directories, texts and messages. It is run with each of the two libraries.
 *
 *     searches DIRECTORY NAME..       in a directory that is empty; each NAME is looked up
 */
#include <stdbool.h>
#include <stdio.h>
#include <stdlib.h>
#include <string.h>
#include <sys/stat.h>
#include <unistd.h>

/* As the headers tic.h and term_entry.h of ncurses declare them. */
struct name_table_entry {
    const char *name;
    int type;
    short index, link;
};
struct alias {
    const char *from, *to, *source;
};
struct user_table_entry {
    const char *name;
    int type;
    unsigned argc, args;
    short index, link;
};
struct tinfo_fkeys {
    unsigned offset, code;
};
extern const struct name_table_entry *_nc_get_table(bool);
extern const short *_nc_get_hash_table(bool);
extern const struct name_table_entry *_nc_find_entry(const char *, const short *);
extern const struct name_table_entry *_nc_find_type_entry(const char *, int, bool);
extern const struct alias *_nc_get_alias_table(bool);
extern const struct user_table_entry *_nc_find_user_entry(const char *);
extern const struct tinfo_fkeys _nc_tinfo_fkeys[];
extern const char *_nc_visbuf(const char *), *_nc_visbuf2(int, const char *);
extern char *_nc_first_name(const char *);
extern const char *_nc_tic_dir(const char *);
extern void _nc_keep_tic_dir(const char *);
extern char *_nc_home_terminfo(void);
extern bool _nc_env_access(void), _nc_is_dir_path(const char *), _nc_is_file_path(const char *);
extern void _nc_first_db(int *, int *), _nc_last_db(void);
extern const char *_nc_next_db(int *, int *);
extern void _nc_set_source(const char *), _nc_set_type(const char *), _nc_get_type(char *);
extern void _nc_warning(const char *, ...), _nc_syserr_abort(const char *, ...);
extern int _nc_curr_line, _nc_curr_col, _nc_tparm_err;
extern bool _nc_suppress_warnings, _nc_user_definable;
extern unsigned _nc_tracing;
extern char *_nc_tiparm(int, const char *, ...);

enum { ROWS = 497 };
#define EACH(at, array) for (size_t at = 0; at < sizeof(array) / sizeof *(array); at++)

static void show_row(const char *asked, const struct name_table_entry *row) {
    if (row) printf("%s: %s %d %d\n", asked, row->name, row->type, row->index);
    else printf("%s: none\n", asked);
}

static void try_name(const char *name) {
    for (int is_termcap = 0; is_termcap < 2; is_termcap++) {
        show_row(name, _nc_find_entry(name, _nc_get_hash_table(is_termcap)));
        for (int type = 0; type < 3; type++)
            show_row(name, _nc_find_type_entry(name, type, is_termcap));
    }
    const struct user_table_entry *user = _nc_find_user_entry(name);
    if (user) printf("%s: user %s %d %u %u\n", name, user->name, user->type, user->argc, user->args);
}

/* The row of a capability in a table, whose order does not matter; NULL if there is none. */
static const struct name_table_entry *row_of(bool is_termcap, int type, int index) {
    const struct name_table_entry *rows = _nc_get_table(is_termcap);
    for (int i = 0; i < ROWS; i++)
        if (rows[i].type == type && rows[i].index == index) return &rows[i];
    return NULL;
}

static void try_tables(void) {
    const struct name_table_entry *row;
    for (int is_termcap = 0; is_termcap < 2; is_termcap++) {
        for (int type = 0; type < 3; type++)
            for (int i = 0; (row = row_of(is_termcap, type, i)); i++) {
                show_row("row", row);
                try_name(row->name);
            }
        /* a name that is there twice is the same name */
        const struct alias *before = NULL;
        for (const struct alias *at = _nc_get_alias_table(is_termcap); at->from; before = at++)
            if (!before || strcmp(before->from, at->from) != 0)
                printf("alias %s %s %s\n", at->from, at->to ? at->to : "none", at->source);
    }
    for (const struct tinfo_fkeys *key = _nc_tinfo_fkeys; key->code; key++)
        printf("key %u %o\n", key->offset, key->code);
}

static void try_texts(void) {
    static const char *const texts[] = { "", "plain", "\033[%p1%d;\\\"x\"\n", NULL, (const char *)-1 };
    static char longest[3000];
    char byte[2] = "";
    for (int i = 1; i < 256; i++) {
        byte[0] = (char)i;
        printf("visible %s\n", _nc_visbuf(byte));
    }
    EACH(i, texts) printf("visible %s\n", _nc_visbuf2((int)i % 4, texts[i]));
    const char *one = _nc_visbuf2(1, "one"), *two = _nc_visbuf2(2, "two");
    printf("visible %s %s\n", one, two);
    memset(longest, '\001', sizeof longest - 1);
    printf("visible %s\n", _nc_visbuf(longest));
    printf("first %s\n", _nc_first_name("a|b c"));
    printf("first %s\n", _nc_first_name("alone"));
    printf("first %s\n", _nc_first_name(longest));
}

static void show_directories(const char *terminfo, const char *dirs) {
    int state = 7, offset = 7;
    const char *found;
    if (terminfo) setenv("TERMINFO", terminfo, 1);
    else unsetenv("TERMINFO");
    if (dirs) setenv("TERMINFO_DIRS", dirs, 1);
    else unsetenv("TERMINFO_DIRS");
    _nc_first_db(&state, &offset);
    while ((found = _nc_next_db(&state, &offset))) printf("directory %s\n", found);
    printf("directory %d\n", _nc_next_db(&state, &offset) == NULL);
    _nc_last_db();
}

static void try_directories(void) {
    static const char *const paths[] = { "here", "file", "none", "/dev/null", "" };
    static const char *const dirs[] = { NULL, "", ":", "here", "none:here:/lib/terminfo", "here:./here:", "/etc/../etc/terminfo" };
    EACH(i, paths) printf("%s: %d %d\n", paths[i], _nc_is_dir_path(paths[i]), _nc_is_file_path(paths[i]));
    EACH(i, dirs) {
        show_directories(NULL, dirs[i]);
        show_directories("here", dirs[i]);
        show_directories("none", dirs[i]);
    }
    printf("access %d, home %s\n", _nc_env_access(), _nc_home_terminfo());
    printf("to %s\n", _nc_tic_dir(NULL));
    setenv("TERMINFO", "here", 1);
    printf("to %s\n", _nc_tic_dir(NULL));
    printf("to %s\n", _nc_tic_dir("other"));
    show_directories(NULL, NULL);
    _nc_keep_tic_dir("here");
    printf("to %s %s\n", _nc_tic_dir("third"), _nc_tic_dir(NULL));
    show_directories(NULL, "here");
}

static void try_messages(void) {
    char name[600] = "before";
    printf("%d %d %d %u %d\n", _nc_curr_line, _nc_curr_col, _nc_suppress_warnings, _nc_tracing, _nc_user_definable);
    _nc_warning("a message of %d", 3);
    _nc_set_source("source");
    static const int numbers[] = { 0, -1, 7 };
    static const char *const names[] = { NULL, "", "x", "xterm" };
    EACH(i, numbers) EACH(j, numbers) EACH(k, names) {
        _nc_curr_line = numbers[i];
        _nc_curr_col = numbers[j];
        _nc_set_type(names[k]);
        _nc_warning("%s", "a message");
        _nc_get_type(name);
        fprintf(stderr, "[%s]\n", name);
    }
    static char longest[1000];
    memset(longest, 'x', sizeof longest - 1);
    _nc_set_type(longest);
    _nc_get_type(name);
    fprintf(stderr, "[%s]\n", name);
    _nc_suppress_warnings = true;
    _nc_warning("no message");
    _nc_suppress_warnings = false;
}

static void try_balance(void) {
    static const char *const formats[] = { "", "text", "%p1%d", "%p1", "%{1}", "%+", "%p1%p2%+%d", "%p1%p2%d", "%?%p1%t7%;",
                                           "%?%p1%t%{1}%;", "%?%p9%t%e%d%;", "%p1%PA%gA%d", "%PA", "%p1%p2%p3%d%d%d%d" };
    EACH(i, formats) {
        _nc_tparm_err = 0;
        _nc_tiparm(9, formats[i], 1, 2, 3, 4, 5, 6, 7, 8, 9);
        printf("%s: %d\n", formats[i], _nc_tparm_err != 0);
    }
}

int main(int count, char **words) {
    if (count < 2 || chdir(words[1]) || mkdir("here", 0700)) return 1;
    FILE *file = fopen("file", "w");
    if (!file || fclose(file)) return 1;
    setvbuf(stdout, NULL, _IONBF, 0);
    for (int i = 2; i < count; i++) try_name(words[i]);
    try_tables();
    try_texts();
    try_directories();
    try_messages();
    try_balance();
    _nc_syserr_abort("the end of %d", 1);
}
