/*
 * Prints what the functions of libtinfo answer that libncursesw.so.6 calls, as far as the library
 * over libti has them. It is run with each of the two libraries.
 *
 *     internals NAME DIRECTORY        asks all of them of the terminal NAME; DIRECTORY is empty
 *     internals -abort                only _nc_err_abort
 */
#include <curses.h>
#include <locale.h>
#include <stdio.h>
#include <stdlib.h>
#include <string.h>
#include <term.h>
#include <unistd.h>

/* As ncurses declares them since version 6.0. */
struct tries {
    struct tries *child, *sibling;
    unsigned char ch;
    unsigned short value;
};
struct string_desc {
    char *s_head, *s_tail;
    size_t s_size, s_init;
};
extern int _nc_access(const char *, int);
extern int _nc_add_to_try(struct tries **, const char *, unsigned);
extern void *_nc_doalloc(void *, size_t);
extern void _nc_err_abort(const char *, ...);
extern char *_nc_get_locale(void);
extern int _nc_getenv_num(const char *);
extern int _nc_locale_breaks_acs(TERMINAL *);
extern int _nc_name_match(const char *, const char *, const char *);
extern int _nc_putchar_sp(SCREEN *, int);
extern bool _nc_safe_strcat(struct string_desc *, const char *);
extern bool _nc_safe_strcpy(struct string_desc *, const char *);
extern struct string_desc *_nc_str_copy(struct string_desc *, struct string_desc *);
extern struct string_desc *_nc_str_init(struct string_desc *, char *, size_t);
extern struct string_desc *_nc_str_null(struct string_desc *, size_t);
extern int _nc_unicode_locale(void);

#define EACH(at, array) for (size_t at = 0; at < sizeof(array) / sizeof *(array); at++)

static void try_access(void) {
    static const char *const paths[] = { "file", "none", "inside/none", "no/none", ".", "/none/", "" };
    static const int modes[] = { F_OK, R_OK, W_OK, X_OK, R_OK | W_OK };
    static char longest[5000];
    memset(longest, 'x', sizeof longest - 1);
    printf("access %d %d\n", _nc_access(NULL, R_OK), _nc_access(longest, W_OK));
    EACH(i, paths) EACH(j, modes)
        printf("access %s %d: %d\n", paths[i], modes[j], _nc_access(paths[i], modes[j]));
}

static void try_numbers(void) {
    static const char *const values[] = { "", "0", "7", "-1", "7x", "x", " 8", "010", "0x1f", "8 ",
                                          "2147483647", "2147483648", "4294967296",
                                          "99999999999999999999" };
    printf("number %d\n", _nc_getenv_num("TI_NUMBER"));
    EACH(i, values) {
        setenv("TI_NUMBER", values[i], 1);
        printf("number %s: %d\n", values[i], _nc_getenv_num("TI_NUMBER"));
    }
}

static void try_locale(void) {
    static const char *const locales[] = { "C", "C.UTF-8", "POSIX", "" };
    EACH(i, locales) {
        setlocale(LC_ALL, locales[i]);
        printf("locale %s, UTF-8 %d\n", _nc_get_locale(), _nc_unicode_locale());
    }
}

/* Sets a variable to a value, or takes it away. */
static void set(const char *name, const char *value) {
    if (value) setenv(name, value, 1);
    else unsetenv(name);
}

static void try_acs(void) {
    static const char *const terms[] = { NULL, "xterm", "linux-c", "screen.xterm" };
    static const char *const termcaps[] = { NULL, "screen", "|screen:hhII00:", "hhII00" };
    static const char *const numbers[] = { NULL, "", "0", "5", "x" };
    EACH(i, terms) EACH(j, termcaps) EACH(k, numbers) {
        set("TERM", terms[i]);
        set("TERMCAP", termcaps[j]);
        set("NCURSES_NO_UTF8_ACS", numbers[k]);
        printf("acs %zu %zu %zu: %d\n", i, j, k, _nc_locale_breaks_acs(cur_term));
    }
}

static void try_names(void) {
    static const char *const lists[] = { "", "a", "a|b", "ab|a", "xterm|xterm-old|the one", "|b", "b|",
                                         "a||b", "a:b|c" };
    static const char *const names[] = { "", "a", "b", "ab", "xterm", "xterm-", "the one", "c" };
    static const char *const ends[] = { "|", "|:", "" };
    printf("name %d\n", _nc_name_match(NULL, "a", "|"));
    EACH(i, lists) EACH(j, names) EACH(k, ends)
        printf("name %s, %s, %s: %d\n", lists[i], names[j], ends[k],
               _nc_name_match(lists[i], names[j], ends[k]));
}

static void show(const char *what, const struct string_desc *text, const char *start) {
    printf("%s: %zu of %zu left, end at %td, %s\n", what, text->s_size, text->s_init,
           text->s_head ? text->s_tail - text->s_head : -1, start ? start : "no text");
}

static void try_texts(void) {
    static const char *const parts[] = { "ab", "", "cdefg", "hij", "k", NULL, (const char *)-1 };
    char room[10] = "before";
    struct string_desc text, copy;
    printf("text %d\n", _nc_str_init(NULL, room, sizeof room) == NULL);
    for (int counts = 0; counts < 2; counts++) {
        char *start = counts ? NULL : room;
        if (counts) printf("text %d\n", _nc_str_null(&text, sizeof room) == &text);
        else printf("text %d\n", _nc_str_init(&text, room, sizeof room) == &text);
        show("text", &text, start);
        EACH(i, parts) {
            printf("%d ", _nc_safe_strcat(&text, parts[i]));
            show("more", &text, start);
        }
        printf("text %d\n", _nc_str_copy(&copy, &text) == &copy);
        show("copy", &copy, start);
        EACH(i, parts) {
            printf("%d ", _nc_safe_strcpy(&copy, parts[i]));
            show("whole", &copy, start);
        }
    }
}

static void show_tree(const struct tries *node, int depth) {
    for (; node; node = node->sibling) {
        printf("%*s%d: %d\n", depth, "", node->ch, node->value);
        show_tree(node->child, depth + 1);
    }
}

static void free_tree(struct tries *node) {
    while (node) {
        struct tries *next = node->sibling;
        free_tree(node->child);
        free(node);
        node = next;
    }
}

static void try_tree(void) {
    static const char *const texts[] = { "\033OA", "\033OB", "\033", "\033OA", "a", "\200b", "\033[1~",
                                         "\377", "", "\033[1" };
    struct tries *tree = NULL;
    printf("key %d %d\n", _nc_add_to_try(&tree, "a", 0), _nc_add_to_try(&tree, NULL, 1));
    EACH(i, texts) printf("key %d\n", _nc_add_to_try(&tree, texts[i], 0401 + (unsigned)i));
    printf("key %d\n", _nc_add_to_try(&tree, "z", 70000));
    show_tree(tree, 0);
    free_tree(tree);
}

static void try_memory(void) {
    char *block = (char *)_nc_doalloc(NULL, 8);
    strcpy(block, "kept");
    block = (char *)_nc_doalloc(block, 100000);
    printf("memory %s\n", block);
    /* what is refused is freed */
    printf("memory %d\n", _nc_doalloc(block, (size_t)-1 / 4) == NULL);
    free(_nc_doalloc(NULL, 0));
    printf("memory %d\n", _nc_doalloc(_nc_doalloc(NULL, 5), 0) == NULL);
}

int main(int count, char **words) {
    if (count != 3) {
        /* its words are a format */
        _nc_err_abort("%s, %d", "a message", 7);
        return 9;
    }
    if (setupterm(words[1], 1, NULL) || chdir(words[2])) return 1;
    FILE *file = fopen("file", "w");
    if (!file || fclose(file)) return 1;
    try_access();
    try_numbers();
    try_locale();
    try_acs();
    try_names();
    try_texts();
    try_tree();
    try_memory();
    printf("put %d\n", _nc_putchar_sp(NULL, 'x'));
    del_curterm(cur_term);
    return fflush(stdout) ? 1 : 7;
}
