/* What the tests of libti share: checks that count, and entries made as term(5) lays them out. */
#ifndef TEST_H
#define TEST_H

#include "ti.h"

#include <stdio.h>
#include <stdlib.h>
#include <string.h>

static int checks, failures;

#define CHECK(fact) check(fact, #fact, __FILE__, __LINE__)

static inline bool check(bool holds, const char *fact, const char *file, int line) {
    checks++;
    if (!holds) failures++, printf("%s:%d: not so: %s\n", file, line, fact);
    return holds;
}

/* The closing line, and the exit status. */
static inline int close_checks(void) {
    printf("%d checks, %d failures\n", checks, failures);
    return failures != 0;
}

static inline bool is_text(struct ti_text text, const char *bytes, size_t size) {
    return text.size == size && memcmp(text.bytes, bytes, size) == 0;
}

/* An entry before it is laid out. Strings are given by index and offset in the table. */
struct parts {
    bool wide;
    const char *names;
    size_t flag_count, number_count, string_count, table_size;
    const uint8_t *flags;
    const int32_t *numbers;
    const int16_t *offsets;
    const char *table;
};

static inline size_t put_word(uint8_t *out, size_t at, unsigned number) {
    out[at] = number & 255;
    out[at + 1] = number >> 8 & 255;
    return at + 2;
}

/* Lays an entry out as term(5) has it, and gives its size. */
static inline size_t put_entry(uint8_t *out, const struct parts *parts) {
    size_t names = strlen(parts->names) + 1, at = 0;
    at = put_word(out, at, parts->wide ? 542 : 282);
    at = put_word(out, at, (unsigned)names);
    at = put_word(out, at, (unsigned)parts->flag_count);
    at = put_word(out, at, (unsigned)parts->number_count);
    at = put_word(out, at, (unsigned)parts->string_count);
    at = put_word(out, at, (unsigned)parts->table_size);
    memcpy(out + at, parts->names, names);
    at += names;
    memcpy(out + at, parts->flags, parts->flag_count);
    at += parts->flag_count;
    if (at % 2) out[at++] = 0;
    for (size_t i = 0; i < parts->number_count; i++) {
        uint32_t number = (uint32_t)parts->numbers[i];
        at = put_word(out, at, number & 65535);
        if (parts->wide) at = put_word(out, at, number >> 16);
    }
    for (size_t i = 0; i < parts->string_count; i++)
        at = put_word(out, at, (uint16_t)parts->offsets[i]);
    memcpy(out + at, parts->table, parts->table_size);
    return at + parts->table_size;
}

enum { BEL = 1, CR = 2, CUP = 10, CUD1 = 11, DIM = 30, DUMB_STRINGS = 31, DUMB_TABLE = 36 };

/*
 * A small terminal: am, cols#80, lines cancelled, bel=^G, cr=^M$<20>, cup, cud1=^J, dim cancelled.
 * The table begins with that of bel: two offsets may lead into one string.
 */
static inline struct parts dumb(void) {
    static const uint8_t flags[] = { 0, 1, 0xfe, 0xff };
    static const int32_t numbers[] = { 80, -1, -2 };
    static int16_t offsets[DUMB_STRINGS];
    static const char table[DUMB_TABLE] = "\a\0\r$<20>\0\n\0\033[%i%p1%d;%p2%dH\0rest\0";
    for (int i = 0; i < DUMB_STRINGS; i++) offsets[i] = -1;
    offsets[0] = 1, offsets[BEL] = 0, offsets[CR] = 2, offsets[CUD1] = 9, offsets[CUP] = 11;
    offsets[DIM] = -2;
    struct parts parts = { false, "dumb|tty|80-column dumb tty", 4, 3, DUMB_STRINGS, DUMB_TABLE,
                           flags, numbers, offsets, table };
    return parts;
}

#endif
