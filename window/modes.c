/* What the program of the everyday tools does to the modes of the line to its terminal. It is linked
   after the proved object (build/border.py), since the program cannot read and set modes. Without this
   part they stay as they are. The terminal is the first of standard error, output and input that is
   one, else /dev/tty.

   ti-tput sets them after it has written the strings of `init` and `reset`. If its words have one of
   these, there is a file in memory, whose path is put into a variable of its own before it begins, and
   in which it says what is to be done; that is done when it has ended, as by ncurses's tput.

   ti-tset and ti-reset change them more than once. Before they begin, such a file tells them the modes,
   the rate of the line and the size of the window. Whenever they write new ones into a pipe, a thread
   sets them, and answers in another pipe. What is set they decide alone. */
#define _GNU_SOURCE
#include <errno.h>
#include <fcntl.h>
#include <pthread.h>
#include <stdint.h>
#include <stdio.h>
#include <stdlib.h>
#include <string.h>
#include <sys/ioctl.h>
#include <sys/mman.h>
#include <termios.h>
#include <unistd.h>

/* status 255 is that of a fault */
#define OUT_OF_MEMORY 255

/* what the program says: whether it is a reset, whether the terminal's newline is a line feed alone,
   and the character that erases */
struct said {
    char wanted;
    char newline;
    char erase;
};
#define RESET 'r'
#define LINE_FEED 'f'

static const char modes_name[] = "TI_MODES";
static int modes_file = -1;

static int is_unset(cc_t character) {
    return character == (cc_t)_POSIX_VDISABLE;
}

static void set_if_unset(struct termios *modes, int place, cc_t usual) {
    if (is_unset(modes->c_cc[place])) modes->c_cc[place] = usual;
}

/* the modes of a line that is to be reset */
static void make_sane(struct termios *modes) {
    static const struct { int place; cc_t usual; } characters[] = {
        { VEOF, 'D' & 037 }, { VQUIT, '\\' & 037 }, { VSTART, 'Q' & 037 }, { VSTOP, 'S' & 037 },
        { VSUSP, 'Z' & 037 }, { VREPRINT, 'R' & 037 }, { VDISCARD, 'O' & 037 }, { VWERASE, 'W' & 037 },
        { VLNEXT, 'V' & 037 },
    };
    for (size_t at = 0; at < sizeof characters / sizeof *characters; at++)
        set_if_unset(modes, characters[at].place, characters[at].usual);
    modes->c_iflag &= ~(tcflag_t)(IGNBRK | PARMRK | INPCK | ISTRIP | INLCR | IGNCR | IUCLC | IXANY | IXOFF);
    modes->c_iflag |= BRKINT | IGNPAR | ICRNL | IXON | IMAXBEL;
    modes->c_oflag &= ~(tcflag_t)(OLCUC | OCRNL | ONOCR | ONLRET | OFILL | OFDEL | NLDLY | CRDLY | TABDLY | BSDLY | VTDLY | FFDLY);
    modes->c_oflag |= OPOST | ONLCR;
    modes->c_cflag &= ~(tcflag_t)(CSIZE | CSTOPB | PARENB | PARODD | CLOCAL);
    modes->c_cflag |= CS8 | CREAD;
    modes->c_lflag &= ~(tcflag_t)(ECHONL | NOFLSH | TOSTOP | XCASE);
    modes->c_lflag |= ISIG | ICANON | ECHO | ECHOE | ECHOK | ECHOCTL | ECHOKE;
}

/* the modes of a line after `init`, and after what a reset does */
static void make_usual(struct termios *modes, const struct said *said) {
    set_if_unset(modes, VERASE, (cc_t)said->erase);
    set_if_unset(modes, VINTR, 'C' & 037);
    set_if_unset(modes, VKILL, 'U' & 037);
    modes->c_oflag |= ONLCR;
    modes->c_iflag |= ICRNL;
    modes->c_lflag |= ECHO | ECHOE | ECHOK;
    if (said->newline == LINE_FEED) {
        modes->c_oflag &= ~(tcflag_t)ONLCR;
        modes->c_iflag &= ~(tcflag_t)ICRNL;
    }
}

/* a terminal, whose modes are read, or -1 */
static int terminal(struct termios *modes) {
    static const int streams[] = { STDERR_FILENO, STDOUT_FILENO, STDIN_FILENO };
    int opened;
    for (size_t at = 0; at < sizeof streams / sizeof *streams; at++)
        if (tcgetattr(streams[at], modes) == 0) return streams[at];
    opened = open("/dev/tty", O_RDWR | O_CLOEXEC);
    return opened >= 0 && tcgetattr(opened, modes) == 0 ? opened : -1;
}

static void set_modes(void) {
    struct said said;
    struct termios modes;
    int at;
    if (pread(modes_file, &said, sizeof said, 0) != sizeof said) return;
    at = terminal(&modes);
    if (at < 0) return;
    if (said.wanted == RESET) make_sane(&modes);
    make_usual(&modes, &said);
    tcsetattr(at, TCSADRAIN, &modes);
}

static int asks_for_modes(int count, char **words) {
    for (int at = 1; at < count; at++)
        if (!strcmp(words[at], "init") || !strcmp(words[at], "reset")) return 1;
    return 0;
}

static void end_without_memory(void) {
    fputs("out of memory\n", stderr);
    _exit(OUT_OF_MEMORY);
}

/* puts the path of an open file into a variable */
static void say_path(const char *name, int file) {
    char path[sizeof "/proc/self/fd/-2147483648"];
    snprintf(path, sizeof path, "/proc/self/fd/%d", file);
    if (setenv(name, path, 1) != 0) end_without_memory();
}

/* glibc passes the words of the command line */
static void __attribute__((constructor)) offer_modes(int count, char **words) {
    unsetenv(modes_name);
    if (!asks_for_modes(count, words)) return;
    modes_file = memfd_create("modes", MFD_CLOEXEC);
    if (modes_file < 0) return;
    say_path(modes_name, modes_file);
    if (atexit(set_modes) != 0) end_without_memory();
}

/* ---- ti-tset and ti-reset */

/* the places of the characters, in the order in which they are told and asked for */
static const int places[] = { VINTR, VQUIT, VERASE, VKILL, VEOF, VSTART, VSTOP, VSUSP, VREPRINT, VDISCARD, VWERASE, VLNEXT };
#define CHARACTERS (sizeof places / sizeof *places)

/* the flags and the characters of a line */
struct line {
    uint32_t input, output, control, local;
    uint32_t characters[CHARACTERS];
};
/* what the program is told: whether there is a terminal, and else why not; the code for its rate; the
   size of its window; its modes; and the pipes in which changes are asked for and answered */
struct told {
    uint32_t is_terminal, error, rate, lines, columns;
    struct line line;
    uint32_t asked, answered;
};
/* what it asks for: new modes, or another size of the window */
struct asked {
    uint32_t what, lines, columns;
    struct line line;
};
#define NEW_MODES 1

static const char line_name[] = "TI_LINE";
static int line_terminal = -1;
static struct termios line_modes;
static int asked_pipe[2], answered_pipe[2];

static void set_line(const struct line *line) {
    struct termios modes = line_modes;
    modes.c_iflag = line->input;
    modes.c_oflag = line->output;
    modes.c_cflag = line->control;
    modes.c_lflag = line->local;
    for (size_t at = 0; at < CHARACTERS; at++) modes.c_cc[places[at]] = (cc_t)line->characters[at];
    tcsetattr(line_terminal, TCSADRAIN, &modes);
}

static void set_window(const struct asked *asked) {
    struct winsize window;
    if (ioctl(line_terminal, TIOCGWINSZ, &window) != 0) return;
    window.ws_row = (unsigned short)asked->lines;
    window.ws_col = (unsigned short)asked->columns;
    ioctl(line_terminal, TIOCSWINSZ, &window);
}

/* does what is asked for, until the program ends */
static void *serve(void *unused) {
    struct asked asked;
    while (read(asked_pipe[0], &asked, sizeof asked) == sizeof asked) {
        if (asked.what == NEW_MODES) set_line(&asked.line);
        else set_window(&asked);
        if (write(answered_pipe[1], "", 1) != 1) break;
    }
    return unused;
}

static void tell_line(struct told *told) {
    struct winsize window;
    errno = 0;
    line_terminal = terminal(&line_modes);
    told->error = (uint32_t)errno;
    if (line_terminal < 0) return;
    told->is_terminal = 1;
    told->rate = (uint32_t)cfgetospeed(&line_modes);
    if (ioctl(line_terminal, TIOCGWINSZ, &window) == 0) {
        told->lines = window.ws_row;
        told->columns = window.ws_col;
    }
    told->line.input = (uint32_t)line_modes.c_iflag;
    told->line.output = (uint32_t)line_modes.c_oflag;
    told->line.control = (uint32_t)line_modes.c_cflag;
    told->line.local = (uint32_t)line_modes.c_lflag;
    for (size_t at = 0; at < CHARACTERS; at++) told->line.characters[at] = line_modes.c_cc[places[at]];
}

/* the name of a tool without directories and without "ti-" */
static const char *short_name(const char *word) {
    const char *slash = strrchr(word, '/'), *name = slash ? slash + 1 : word;
    return strncmp(name, "ti-", 3) ? name : name + 3;
}

static int is_tset(const char *word) {
    return !strcmp(short_name(word), "tset") || !strcmp(short_name(word), "reset");
}

static int is_other(const char *word) {
    static const char *const names[] = { "tic", "infocmp", "tput", "clear", "toe", "tabs", "fmt", "lint" };
    for (size_t at = 0; at < sizeof names / sizeof *names; at++)
        if (!strcmp(short_name(word), names[at])) return 1;
    return 0;
}

/* the second word is the name of the tool if the first one is not */
static int calls_tset(int count, char **words) {
    if (count > 0 && is_tset(words[0])) return 1;
    return count > 1 && !is_other(words[0]) && is_tset(words[1]);
}

static void __attribute__((constructor)) offer_line(int count, char **words) {
    struct told told = { 0 };
    pthread_t thread;
    int file;
    unsetenv(line_name);
    if (!calls_tset(count, words)) return;
    if (pipe2(asked_pipe, O_CLOEXEC) != 0 || pipe2(answered_pipe, O_CLOEXEC) != 0) return;
    tell_line(&told);
    told.asked = (uint32_t)asked_pipe[1];
    told.answered = (uint32_t)answered_pipe[0];
    file = memfd_create("line", MFD_CLOEXEC);
    if (file < 0 || write(file, &told, sizeof told) != sizeof told) return;
    if (pthread_create(&thread, NULL, serve, NULL) != 0) return;
    say_path(line_name, file);
}
