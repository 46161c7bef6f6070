/* What the program of the everyday tools asks the system before it begins: how large the window of
   its terminal is. It is linked after the proved object (build/build.py), and says what it found in
   two variables of its own, which it first removes from the environment. Without it the program
   goes by COLUMNS, LINES and the entry.

   Like ncurses it asks the first of standard error, output and input that is a terminal. */
#include <stdio.h>
#include <stdlib.h>
#include <sys/ioctl.h>
#include <unistd.h>

/* the environment and its strings are in memory that may run out; status 255 is that of a fault */
#define OUT_OF_MEMORY 255

static const char columns_name[] = "TI_WINDOW_COLUMNS";
static const char lines_name[] = "TI_WINDOW_LINES";

static void say(const char *name, unsigned short number) {
    char digits[sizeof "65535"];
    snprintf(digits, sizeof digits, "%hu", number);
    if (setenv(name, digits, 1) != 0) {
        fputs("out of memory\n", stderr);
        _exit(OUT_OF_MEMORY);
    }
}

static void __attribute__((constructor)) say_window(void) {
    static const int streams[] = { STDERR_FILENO, STDOUT_FILENO, STDIN_FILENO };
    struct winsize window;
    size_t at = 0;
    unsetenv(columns_name);
    unsetenv(lines_name);
    while (at < sizeof streams / sizeof *streams && !isatty(streams[at])) at++;
    if (at == sizeof streams / sizeof *streams || ioctl(streams[at], TIOCGWINSZ, &window) != 0) return;
    say(columns_name, window.ws_col);
    say(lines_name, window.ws_row);
}
