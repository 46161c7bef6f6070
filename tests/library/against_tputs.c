/*
 * Compares ti_send and ti_pad with the tputs of ncurses: each string of each entry, at several
 * rates, on one and on 24 lines. A string without parameters is sent by its name. Standard input is
 * as that of against_ncurses.c. The bytes that are no padding are to be the same, and the pad bytes
 * are to be at the same places. How many they are differs: ncurses takes whole milliseconds and
 * nine bits a byte, and rounds down; libti takes tenths and ten bits, and rounds up, so that its
 * count is the one that follows from the other within these bounds.
 */
#include "ti.h"

#include <curses.h>
#include <stdio.h>
#include <stdlib.h>
#include <string.h>
#include <term.h>
#include <termcap.h>
#include <termios.h>

enum { ROOM = 1 << 20, PAD = 0x80 };

static const struct { speed_t code; uint32_t rate; } speeds[] = { { B1200, 1200 }, { B38400, 38400 } };

static uint8_t ours[ROOM], theirs[ROOM];
static size_t their_size;
static long compared, differences, padded, apart, with_percent;

static int put(int byte) {
    if (their_size < ROOM) theirs[their_size++] = (uint8_t)byte;
    return byte;
}

static size_t run_of_pads(const uint8_t *bytes, size_t size, size_t at) {
    size_t count = 0;
    while (at + count < size && bytes[at + count] == PAD) count++;
    return count;
}

/* Whether the two are alike, within the bounds, at a rate. */
static bool is_alike(size_t size, uint32_t rate) {
    size_t i = 0, j = 0;
    while (i < size || j < their_size) {
        size_t a = run_of_pads(ours, size, i), b = run_of_pads(theirs, their_size, j);
        /* bits: ncurses loses less than a millisecond and a byte of nine, libti adds under ten */
        if (b * 9 > a * 10 + 9 || a * 10 > b * 9 + 9 + 10 + rate / 1000 + 1) return false;
        padded += a > 0;
        i += a, j += b;
        if ((i < size) != (j < their_size)) return false;
        if (i < size && ours[i++] != theirs[j++]) return false;
    }
    return true;
}

static size_t take(const uint8_t *bytes, size_t size, void *context) {
    memcpy((uint8_t *)context, bytes, size);
    return size;
}

/* What libti makes of a string of an entry. */
static struct ti_outcome ours_of(const struct ti_entry *entry, const char *name, const char *text,
                                 struct ti_line line, int affected) {
    struct ti_text given = ti_text_of(text);
    struct ti_output output = { take, NULL, ours };
    struct ti_variables variables = { { 0 } };
    if (strstr(text, "%p"))
        return ti_pad(given.bytes, given.size, (uint32_t)affected, &line, ours, ROOM);
    with_percent += strchr(text, '%') != NULL;
    return ti_send(entry, &variables, &line, name, NULL, 0, (uint32_t)affected, &output);
}

static void compare_text(const struct ti_entry *entry, const char *name, const char *text,
                         struct ti_line line, int affected) {
    struct ti_outcome o = ours_of(entry, name, text, line, affected);
    their_size = 0;
    tputs(text, affected, put);
    compared++;
    if (o.status == TI_OK && is_alike(o.size, line.rate)) return;
    differences++;
    printf("%s: %zu bytes, status %u, tputs %zu: %s\n", name, o.size, o.status, their_size, text);
}

static void compare_entry(const struct ti_entry *entry) {
    for (uint32_t i = 0; i < TI_STRINGS; i++) {
        const char *text = tigetstr((char *)strnames[i]);
        if (!text || text == (char *)-1) continue;
        /*
         * A byte 0x80 of the string itself looks like padding. A time without a whole digit, as
         * `$<.7*>`, is no padding for libti, and tputs waits; in `$$<9>` libti alone sees one.
         */
        if (strchr(text, PAD) || strstr(text, "$<.") || strstr(text, "$$<")) {
            apart++;
            continue;
        }
        for (int speed = 0; speed < 2; speed++) {
            struct ti_line line = TI_LINE_EMPTY;
            ospeed = (NCURSES_OSPEED)speeds[speed].code;
            PC = (char)PAD;
            ti_line_of(entry, speeds[speed].rate, &line);
            line.pad_byte = PAD;
            /* without a screen tputs pads whatever `pb` and `xon` say */
            line.pad_from = 0, line.xon = false;
            for (int affected = 1; affected < 25; affected += 23)
                compare_text(entry, strnames[i], text, line, affected);
        }
    }
}

int main(void) {
    static uint8_t bytes[70000];
    static char line[4096];
    use_env(FALSE);
    while (fgets(line, sizeof line, stdin)) {
        char *blank = strchr(line, ' ');
        int error = 0;
        line[strcspn(line, "\n")] = 0;
        if (!blank) return 2;
        *blank = 0;
        FILE *file = fopen(blank + 1, "rb");
        if (!file) return 2;
        size_t size = fread(bytes, 1, sizeof bytes, file);
        fclose(file);
        struct ti_entry entry = TI_ENTRY_EMPTY;
        long before = differences;
        if (ti_entry_read(bytes, size, &entry) || setupterm(line, 1, &error) != OK) continue;
        /* tputs sleeps if the terminal has no pad byte */
        if (ti_flag_named(&entry, "npc") == 1) apart++;
        else compare_entry(&entry);
        if (differences != before) printf("of %s\n", blank + 1);
        del_curterm(cur_term);
    }
    printf("%ld comparisons, %ld differences; %ld paddings alike; %ld with a %% of its own; "
           "%ld taken otherwise\n", compared, differences, padded, with_percent, apart);
    return differences != 0;
}
