/*
 * A terminal that is opened once: what is sent to a file and to functions, its size, and each
 * refusal. `terminal NAME` opens an entry that has cup, setaf, sgr0 and the user-defined Smulx and
 * Ms, as `tmux-256color` has; without a name it is `dumb` alone.
 */
#define _GNU_SOURCE /* for posix_openpt */
#include "test.h"

#include "ti_names.h"

#include <errno.h>
#include <fcntl.h>
#include <sys/ioctl.h>
#include <termios.h>
#include <unistd.h>

static char read_bytes[4096];

/* What was written to a pipe. */
static const char *read_all(int file) {
    ssize_t count = read(file, read_bytes, sizeof read_bytes - 1);
    read_bytes[count > 0 ? count : 0] = 0;
    return read_bytes;
}

static bool is_sent(struct ti_outcome outcome, int file, const char *wanted) {
    return outcome.status == TI_OK && outcome.size == strlen(wanted) &&
           (!*wanted || !strcmp(read_all(file), wanted));
}

static bool is_refused(struct ti_outcome outcome, enum ti_status status, size_t size) {
    return outcome.status == status && outcome.size == size;
}

/* What a terminal with parameters and user-defined strings is sent. */
static void sends(struct ti_terminal *terminal, int from) {
    struct ti_parameter texts[2] = { ti_string_given("c"), ti_string_given("aGk=") };
    const int32_t numbers[3] = { 4, 9, 77 };
    CHECK(is_sent(ti_put(terminal, TI_CUP, 4, 9), from, "\033[5;10H"));
    CHECK(is_sent(ti_put(terminal, TI_CUP, 4), from, "\033[5;1H") && is_sent(ti_put(terminal, TI_CUP), from, "\033[1;1H"));
    CHECK(is_sent(ti_put_numbers(terminal, TI_CUP, numbers, 3), from, "\033[5;10H"));
    CHECK(is_sent(ti_put(terminal, TI_SETAF, 2), from, "\033[32m"));
    CHECK(is_sent(ti_put_named(terminal, "Smulx", 3), from, "\033[4:3m"));
    CHECK(is_sent(ti_put_named(terminal, "cursor_address", 4, 9), from, "\033[5;10H"));
    CHECK(is_sent(ti_put_named(terminal, "cm", 4, 9), from, "\033[5;10H"));
    CHECK(is_sent(ti_put_named_values(terminal, "Ms", texts, 2), from, "\033]52;c;aGk=\a"));
    CHECK(is_sent(ti_put_text(terminal, (const uint8_t *)"100%$<5>", 8), from, "100%$<5>"));
    CHECK(is_refused(ti_put_named(terminal, "Ms"), TI_BAD_PARAMETER, 1));
    CHECK(is_refused(ti_put_named(terminal, "Ms", 1, 2), TI_BAD_PARAMETER, 1));
    CHECK(is_refused(ti_put_named_values(terminal, "Ms", texts, 1), TI_BAD_PARAMETER, 2));
    CHECK(is_refused(ti_put_values(terminal, TI_CUP, texts, 2), TI_BAD_PARAMETER, 1));
    /* each number is evaluated once */
    int32_t row = 4;
    CHECK(is_sent(ti_put(terminal, TI_CUP, row++, row * 0), from, "\033[5;1H") && row == 5);
}

/* Whether bytes begin with a key of this name. */
static bool is_key(const struct ti_terminal *terminal, const char *bytes, enum ti_status status,
                   size_t size, const char *wanted) {
    struct ti_text name = ti_string_given("as it was").text;
    struct ti_outcome found =
        ti_terminal_key(terminal, (const uint8_t *)bytes, strlen(bytes), &name);
    return is_refused(found, status, size) && is_text(name, wanted, strlen(wanted));
}

static void keys(const struct ti_terminal *terminal) {
    CHECK(is_key(terminal, "\033OA", TI_OK, 3, "kcuu1") && is_key(terminal, "\033OAx\033", TI_OK, 3, "kcuu1"));
    CHECK(is_key(terminal, "\033[1;5A", TI_OK, 6, "kUP5") && is_key(terminal, "\033[3~", TI_OK, 4, "kdch1"));
    CHECK(is_key(terminal, "\033", TI_UNFINISHED, 0, "as it was"));
    CHECK(is_key(terminal, "\033[1;", TI_UNFINISHED, 0, "as it was"));
    CHECK(is_key(terminal, "x", TI_ABSENT, 0, "as it was") && is_key(terminal, "\033x", TI_ABSENT, 0, "as it was"));
    CHECK(is_key(terminal, "", TI_UNFINISHED, 0, "as it was"));
    /* a string that is not of a key */
    CHECK(is_key(terminal, "\a", TI_ABSENT, 0, "as it was"));
}

/* A key that is the front of another one. */
static void keys_within_keys(void) {
    static uint8_t bytes[400];
    static const char table[] = "a\0ab";
    static const uint8_t flags[] = { 0 };
    static const int32_t none[] = { -1 };
    int16_t offsets[57];
    for (int i = 0; i < 57; i++) offsets[i] = -1;
    offsets[TI_KBS.index] = 0, offsets[TI_KTBC.index] = 2;
    struct parts parts = { false, "t", 1, 1, 57, sizeof table, flags, none, offsets, table };
    struct ti_entry *entry = NULL;
    struct ti_terminal *terminal = NULL;
    struct ti_output output = { NULL, NULL, NULL };
    CHECK(ti_entry_new(bytes, put_entry(bytes, &parts), &entry) == TI_OK);
    CHECK(ti_terminal_new(entry, 0, &output, &terminal) == TI_OK);
    CHECK(is_key(terminal, "ab", TI_OK, 2, "ktbc") && is_key(terminal, "ax", TI_OK, 1, "kbs"));
    CHECK(is_key(terminal, "a", TI_UNFINISHED, 1, "kbs") && is_key(terminal, "b", TI_ABSENT, 0, "as it was"));
    ti_terminal_close(terminal);
}

/* Of a terminal of any entry. */
static void refuses(struct ti_terminal *terminal) {
    CHECK(is_refused(ti_put(terminal, TI_AM), TI_ABSENT, 0) && is_refused(ti_put(terminal, TI_COLS), TI_ABSENT, 0));
    CHECK(is_refused(ti_put_named(terminal, "am"), TI_ABSENT, 0));
    CHECK(is_refused(ti_put_named(terminal, "nosuch", 1), TI_ABSENT, 0));
    CHECK(is_refused(ti_put(terminal, TI_PLACE(TI_STRING, TI_STRINGS)), TI_ABSENT, 0));
}

/* A file that takes nothing, and one that does not block. */
static void files(const char *name) {
    struct ti_terminal *terminal = NULL;
    int nothing = open("/dev/full", O_WRONLY), ends[2];
    if (CHECK(nothing >= 0 && ti_terminal_open(name, nothing, &terminal) == TI_OK)) {
        CHECK(is_refused(ti_put_text(terminal, (const uint8_t *)"ab", 2), TI_NOT_TAKEN, 0) && errno == ENOSPC);
        CHECK(ti_put(terminal, TI_BEL).status == TI_NOT_TAKEN);
    }
    ti_terminal_close(terminal);
    close(nothing);
    /* a reader that takes a pipe's bytes while the writer waits for room */
    static uint8_t many[200000];
    memset(many, 'x', sizeof many);
    if (!CHECK(pipe(ends) == 0)) return;
    pid_t child = fork();
    if (child == 0) {
        close(ends[1]);
        size_t left = sizeof many;
        usleep(20000);
        while (left) {
            ssize_t count = read(ends[0], read_bytes, sizeof read_bytes);
            if (count <= 0) break;
            left -= (size_t)count;
        }
        _exit(left != 0);
    }
    close(ends[0]);
    fcntl(ends[1], F_SETFL, O_NONBLOCK);
    CHECK(ti_terminal_open(name, ends[1], &terminal) == TI_OK);
    CHECK(is_refused(ti_put_text(terminal, many, sizeof many), TI_OK, sizeof many));
    ti_terminal_close(terminal);
    close(ends[1]);
}

/* ---- the size of the screen */

static bool has_size(const struct ti_terminal *terminal, const char *lines, const char *columns,
                     uint32_t height, uint32_t width) {
    unsetenv("LINES"), unsetenv("COLUMNS");
    if (lines) setenv("LINES", lines, 1);
    if (columns) setenv("COLUMNS", columns, 1);
    struct ti_size size = ti_terminal_size(terminal);
    return size.height == height && size.width == width;
}

static void sizes(const char *name, uint32_t height) {
    struct ti_terminal *terminal = NULL;
    int window = posix_openpt(O_RDWR | O_NOCTTY);
    struct winsize size = { 33, 111, 0, 0 };
    if (CHECK(ti_terminal_open(name, -1, &terminal) == TI_OK)) {
        CHECK(has_size(terminal, NULL, NULL, height, 80) && has_size(terminal, "50", "132", 50, 132));
        CHECK(has_size(terminal, "12x", "-5", height, 80) && has_size(terminal, "0", "", height, 80));
        CHECK(has_size(terminal, "99999999999", " 5", height, 80) && has_size(terminal, "0x10", "7", height, 7));
    }
    ti_terminal_close(terminal);
    if (window < 0) return;
    CHECK(ioctl(window, TIOCSWINSZ, &size) == 0 && ti_terminal_open(name, window, &terminal) == TI_OK);
    CHECK(has_size(terminal, NULL, NULL, 33, 111) && has_size(terminal, "50", NULL, 50, 111));
    size.ws_row = 0;
    CHECK(ioctl(window, TIOCSWINSZ, &size) == 0 && has_size(terminal, NULL, NULL, height, 111));
    ti_terminal_close(terminal);
    close(window);
}

/* ---- functions of the caller */

static size_t count_put;
static uint64_t waited;

static size_t count_bytes(const uint8_t *bytes, size_t size, void *context) {
    (void)bytes, (void)context;
    count_put += size;
    return size;
}

static void count_wait(uint64_t tenths, void *context) {
    (void)context;
    waited += tenths;
}

static void functions(void) {
    static uint8_t bytes[400];
    struct parts parts = dumb();
    struct ti_entry *entry = NULL;
    struct ti_terminal *terminal = NULL;
    struct ti_output output = { count_bytes, count_wait, NULL };
    CHECK(ti_entry_new(bytes, put_entry(bytes, &parts), &entry) == TI_OK);
    CHECK(ti_terminal_new(entry, 0, &output, &terminal) == TI_OK);
    CHECK(ti_terminal_entry(terminal) == entry && ti_terminal_path(terminal) == NULL);
    CHECK(is_refused(ti_put(terminal, TI_CR), TI_OK, 1) && count_put == 1 && waited == 200);
    CHECK(has_size(terminal, NULL, NULL, 0, 80));
    refuses(terminal);
    ti_terminal_close(terminal);
    ti_terminal_close(NULL);
}

int main(int argc, char **argv) {
    struct ti_terminal *terminal = NULL;
    int ends[2];
    const char *name = argc > 1 ? argv[1] : "dumb";
    CHECK(ti_terminal_open("no-such", 1, &terminal) == TI_NO_TERMINAL && !terminal);
    CHECK(ti_terminal_open("a/b", 1, &terminal) == TI_PATH_NAME && !terminal);
    if (!CHECK(pipe(ends) == 0 && ti_terminal_open(name, ends[1], &terminal) == TI_OK)) return close_checks();
    CHECK(strstr(ti_terminal_path(terminal), name) && ti_flag_at(ti_terminal_entry(terminal), TI_AM) == 1);
    if (argc > 1) sends(terminal, ends[0]), keys(terminal);
    CHECK(is_sent(ti_put(terminal, TI_BEL), ends[0], "\a"));
    refuses(terminal);
    ti_terminal_close(terminal);
    files(name);
    sizes(name, argc > 1 ? 24 : 0);
    functions();
    keys_within_keys();
    return close_checks();
}
