/*
 * Prints what tgoto answers of formats of termcap: each sequence of up to three codes, with numbers
 * of all kinds, with and without a BC that goes back. It is run with each of the two libraries.
 */
#include <curses.h>
#include <stdio.h>
#include <string.h>
#include <term.h>
#include <termcap.h>

static const char *const codes[] = { "%d", "%2", "%3", "%.", "%+ ", "%+\n", "%>\012\024", "%r",
                                     "%i", "%n", "%B", "%D", "%%", "x", "%q" };
enum { CODES = sizeof codes / sizeof *codes };
static const int moves[][2] = { { 0, 0 },   { 5, 9 },     { 79, 23 },
                                { 10, 11 }, { 200, 131 }, { 1234, 99 } };
enum { MOVES = sizeof moves / sizeof *moves };

static void show(const char *format, const char *text) {
    for (const char *at = format; *at; at++) printf(*at > 32 ? "%c" : "\\%03o", *at);
    printf(":");
    for (; text && *text; text++) printf(" %d", *text & 255);
    printf(text ? "\n" : " NULL\n");
}

static void try_all(const char *format) {
    for (int i = 0; i < MOVES; i++) show(format, tgoto(format, moves[i][0], moves[i][1]));
}

static void try_codes(void) {
    char format[64];
    for (int i = 0; i < CODES; i++) {
        try_all(codes[i]);
        for (int j = 0; j < CODES; j++) {
            snprintf(format, sizeof format, "\033[%s;%sH", codes[i], codes[j]);
            try_all(format);
            for (int k = 0; k < CODES; k++) {
                snprintf(format, sizeof format, "%s%s%s", codes[i], codes[j], codes[k]);
                try_all(format);
            }
        }
    }
}

int main(void) {
    static char back[] = "\b";
    /* those of terminals that termcap had */
    static const char *const others[] = {
        "", "\033=%+ %+ ", "\033&a%r%dc%dY", "\033Y%+ %+ ", "%r%.%.", "\033[%i%2;%2H", "%", "a%",
        "\016%B%.%B%.", "\020%.\033Y%+ ", "~\021%r%.%.", "\033F%r%3%3", "\033a%i%dR%dC",
        "\033m%n%.%.",
    };
    for (int i = 0; i < 14; i++) try_all(others[i]);
    try_codes();
    BC = back;
    try_codes();
    return 0;
}
