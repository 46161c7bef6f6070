/*
 * Damaged entries: each byte of an entry set to other values, and the entry cut at each size. Each
 * is read by setupterm and tgetent, which take it or refuse it, and whatever it says is asked for.
 * Its words are the entry's file, and the name and the path under which it is to be put. Run it
 * under a sanitizer.
 */
#define _GNU_SOURCE
#include <curses.h>
#include <stdio.h>
#include <stdlib.h>
#include <string.h>
#include <term.h>
#include <termcap.h>
#include <time.h>

static long taken, refused;
static unsigned long seen;

int nanosleep(const struct timespec *asked, struct timespec *left) {
    (void)left;
    seen += (unsigned long)asked->tv_sec;
    return 0;
}

static int put(int byte) {
    seen += (unsigned long)byte;
    return byte;
}

static void look_at(const char *text) {
    if (!text || text == (char *)-1) return;
    seen += strlen(text);
    tputs(text, 24, put);
    /* texts are given as numbers if that is what the format takes */
    if (!strchr(text, 's') && !strchr(text, 'l')) look_at(NULL), tputs(tgoto(text, 9, 4), 1, put);
    else seen += (unsigned long)(tparm(text, "a", "b", "c", "d", "e", "f", "g", "h", "i") != NULL);
}

static void look_through(void) {
    const TERMTYPE *type = &cur_term->type;
    int names = type->ext_Booleans + type->ext_Numbers + type->ext_Strings;
    seen += strlen(ttytype) + strlen(longname()) + strlen(type->term_names);
    for (int i = 0; i < type->num_Booleans; i++) seen += (unsigned long)type->Booleans[i];
    for (int i = 0; i < type->num_Numbers; i++) seen += (unsigned long)type->Numbers[i];
    for (int i = 0; i < type->num_Strings; i++) look_at(type->Strings[i]);
    for (int i = 0; i < names; i++) {
        const char *name = type->ext_Names[i];
        seen += (unsigned long)(tigetflag(name) + tigetnum(name) + (tigetstr(name) != NULL));
        seen += (unsigned long)(tgetflag(name) + tgetnum(name));
        look_at(tgetstr(name, NULL));
    }
}

static void read_as(const char *path, const char *name, const char *bytes, size_t size) {
    int result = 77;
    FILE *file = fopen(path, "wb");
    if (!file || fwrite(bytes, 1, size, file) != size || fclose(file)) abort();
    setupterm(name, 1, &result);
    if (result != 1 && result != 0) abort();
    if (result == 1) {
        taken++;
        look_through();
        del_curterm(cur_term);
    } else {
        refused++;
    }
    if (tgetent(NULL, name) == 1) look_at(tgetstr("me", NULL));
}

int main(int count, char **words) {
    static const char values[] = { 0x00, 0x01, 0x7f, (char)0x80, (char)0xff };
    static char bytes[40000];
    if (count != 5) return 2;
    FILE *file = fopen(words[1], "rb");
    size_t size = file ? fread(bytes, 1, sizeof bytes, file) : 0;
    size_t step = (size_t)atoi(words[4]);
    if (!size || fclose(file)) return 2;
    for (size_t at = 0; at < size; at += step) {
        char before = bytes[at];
        for (int i = 0; i < 5; i++) {
            bytes[at] = values[i];
            read_as(words[3], words[2], bytes, size);
        }
        bytes[at] = before;
        read_as(words[3], words[2], bytes, at);
    }
    read_as(words[3], words[2], bytes, size);
    printf("%ld taken, %ld refused\n", taken, refused);
    return taken == 0 || refused == 0;
}
