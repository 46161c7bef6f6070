/*
 * What setupterm or tgetent says of the terminal that TERM or the second word names, if that is not
 * taken: the first word is `ask`, by which the answers are printed, `end`, by which setupterm ends
 * the program with a line on standard error, or `termcap`.
 */
#include <curses.h>
#include <stdio.h>
#include <string.h>
#include <term.h>
#include <termcap.h>

int main(int count, char **words) {
    char *name = count > 2 ? words[2] : NULL;
    int result = 77;
    if (count < 2) return 2;
    if (!strcmp(words[1], "termcap")) {
        printf("tgetent %d\n", tgetent(NULL, name));
        return 0;
    }
    int status = setupterm(name, 1, !strcmp(words[1], "ask") ? &result : NULL);
    printf("setupterm %d, result %d, terminal %d\n", status, result, cur_term != NULL);
    if (cur_term) printf("%s, cols %d, lines %d\n", ttytype, tigetnum("cols"), tigetnum("lines"));
    return 0;
}
