/*
 * Writes in true color and with a curly underline, where the terminal has them, and then prints the
 * name of each key that is pressed, until q.
 *
 *     cc styles.c -lti -o styles && ./styles
 */
#include <stdio.h>
#include <string.h>
#include <termios.h>
#include <ti.h>
#include <ti_names.h>
#include <unistd.h>

static struct ti_terminal *terminal;

static void put_words(const char *words) {
    struct ti_text text = ti_text_of(words);
    ti_put_text(terminal, text.bytes, text.size);
}

/* Chooses a color by red, green and blue, if the terminal takes these, or else the nearest of 8. */
static void choose(int red, int green, int blue) {
    const struct ti_entry *entry = ti_terminal_entry(terminal);
    if (ti_flag_named(entry, "RGB") == 1)
        ti_put(terminal, TI_SETAF, red << 16 | green << 8 | blue);
    else if (ti_put_named(terminal, "setrgbf", red, green, blue).status != TI_OK)
        ti_put(terminal, TI_SETAF, (red > 127) + 2 * (green > 127) + 4 * (blue > 127));
}

static void write_styles(void) {
    choose(255, 140, 0);
    put_words("orange\r\n");
    ti_put(terminal, TI_SGR0);
    if (ti_put_named(terminal, "Smulx", 3).status != TI_OK) ti_put(terminal, TI_SMUL);
    put_words("curly");
    ti_put(terminal, TI_SGR0);
    put_words("\r\n");
}

/*
 * Takes one key or byte off the front of what was read. Returns its size, or 0 if more is to come.
 * An escape alone is not waited for: it is that key, or the program would have read more.
 */
static size_t take_key(const uint8_t *bytes, size_t size) {
    struct ti_text name = TI_NOTHING;
    struct ti_outcome key = ti_terminal_key(terminal, bytes, size, &name);
    if (key.status == TI_UNFINISHED && size > 1) return 0;
    if (!key.size) return 1;
    ti_put_text(terminal, name.bytes, name.size);
    put_words("\r\n");
    return key.size;
}

/* Prints the names of keys until a q or the end. */
static void print_keys(void) {
    uint8_t bytes[64];
    size_t size = 0;
    for (;;) {
        ssize_t count = read(STDIN_FILENO, bytes + size, sizeof bytes - size);
        if (count <= 0) return;
        size += (size_t)count;
        while (size) {
            if (bytes[0] == 'q') return;
            size_t taken = take_key(bytes, size);
            if (!taken && size < sizeof bytes) break;
            if (!taken) taken = 1;
            size -= taken;
            memmove(bytes, bytes + taken, size);
        }
    }
}

int main(void) {
    struct termios before;
    enum ti_status refusal = ti_terminal_open(NULL, STDOUT_FILENO, &terminal);
    if (refusal != TI_OK) return fprintf(stderr, "styles: %s\n", ti_strerror(refusal)), 1;
    bool is_terminal = tcgetattr(STDIN_FILENO, &before) == 0;
    if (is_terminal) {
        struct termios raw = before;
        cfmakeraw(&raw);
        tcsetattr(STDIN_FILENO, TCSADRAIN, &raw);
    }
    write_styles();
    ti_put(terminal, TI_SMKX);
    print_keys();
    ti_put(terminal, TI_RMKX);
    if (is_terminal) tcsetattr(STDIN_FILENO, TCSADRAIN, &before);
    ti_terminal_close(terminal);
    return 0;
}
