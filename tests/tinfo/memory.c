/*
 * Each allocation of a series of calls refused in turn: what is answered is as if there were
 * memory, or is the failure of the call, and the calls after it work. The words are the name of an
 * entry with sgr and cup, and the words of cup for the line 5 and the column 9.
 */
#define _GNU_SOURCE
#include <curses.h>
#include <stdio.h>
#include <stdlib.h>
#include <string.h>
#include <term.h>
#include <termcap.h>

extern void *__libc_malloc(size_t), *__libc_calloc(size_t, size_t), *__libc_realloc(void *, size_t);

static long left = -1; /* how many allocations are granted, if it is not negative */
static long refused;

static bool is_granted(void) {
    if (left < 0) return true;
    if (left > 0) return left--;
    refused++;
    return false;
}
void *malloc(size_t size) { return is_granted() ? __libc_malloc(size) : NULL; }
void *calloc(size_t count, size_t size) { return is_granted() ? __libc_calloc(count, size) : NULL; }
void *realloc(void *block, size_t size) {
    return is_granted() ? __libc_realloc(block, size) : NULL;
}

static char written[4096];
static size_t count;

static int put(int byte) {
    if (count < sizeof written - 1) written[count++] = (char)byte;
    return byte;
}

/* Whether a text is written whole, or nothing is and the call says so. */
static bool puts_right(const char *text) {
    count = 0;
    int status = tputs(text, 1, put);
    written[count] = 0;
    return status == OK ? strcmp(written, text) == 0 : count == 0;
}

/* As ncurses declares them since version 6.0. */
struct tries {
    struct tries *child, *sibling;
    unsigned char byte;
    unsigned short code;
};
extern int _nc_add_to_try(struct tries **, const char *, unsigned);
extern void *_nc_doalloc(void *, size_t);

/* Whether a key is added whole, or what is there of it is the code of no key. */
static bool adds_right(bool may_fail) {
    struct tries *tree = NULL;
    bool is_added = _nc_add_to_try(&tree, "\033OA", 7) == OK;
    unsigned short code = 0;
    for (struct tries *node = tree, *next; node; node = next) {
        next = node->child;
        code = node->code;
        free(node);
    }
    return is_added ? code == 7 : may_fail && code == 0;
}

/* Whether a block grows with what is in it; or else it is freed. */
static bool grows_right(bool may_fail) {
    char *block = (char *)_nc_doalloc(NULL, 5);
    if (block) block = (char *)_nc_doalloc(strcpy(block, "kept"), 5000);
    bool right = block ? strcmp(block, "kept") == 0 : may_fail;
    free(block);
    return right;
}

/* Calls all of it. Gives whether each answer is right, or is a failure if that is allowed. */
static bool call_all(const char *name, const char *wanted, bool may_fail) {
    static char long_text[3000];
    int result = 77;
    memset(long_text, 'x', sizeof long_text - 1);
    int status = setupterm(name, 1, &result);
    if (status != OK) return may_fail && result <= 0;
    TERMINAL *first = cur_term;
    char *cup = tparm(tigetstr("cup"), 4L, 8L);
    bool right = cup ? strcmp(cup, wanted) == 0 : may_fail;
    char *termcap = tgoto("%d;%d", 8, 4);
    right = right && (termcap ? strcmp(termcap, "4;8") == 0 : may_fail);
    right = right && puts_right("abc") && puts_right(long_text);
    right = right && adds_right(may_fail) && grows_right(may_fail);
    if (tgetent(NULL, name) == 1) right = right && tgetstr("me", NULL) && tgetnum("co") > 0;
    else right = right && may_fail;
    if (cur_term != first) del_curterm(first);
    return right && del_curterm(cur_term) == OK;
}

int main(int words, char **given) {
    if (words != 3 || !call_all(given[1], given[2], false)) return 2;
    long granted = 0, before = -1;
    for (; refused != before; granted++) {
        before = refused;
        left = granted;
        bool right = call_all(given[1], given[2], true);
        left = -1;
        if (!right || !call_all(given[1], given[2], false)) {
            printf("wrong if %ld allocations are granted\n", granted);
            return 1;
        }
    }
    printf("%ld refused\n", refused);
    return refused < 5;
}
