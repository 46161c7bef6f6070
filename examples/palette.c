/*
 * Draws the colors of the terminal, 256 at most, in rows of 16 by libti alone, and moves the
 * cursor.
 *
 *     cc palette.c -lti -o palette && ./palette
 */
#include <stdio.h>
#include <ti.h>

static struct ti_entry *terminal;
static struct ti_line line = TI_LINE_EMPTY;
static struct ti_variables variables;

static size_t put(const uint8_t *bytes, size_t size, void *file) {
    return fwrite(bytes, 1, size, (FILE *)file);
}

/* Sends a string of the terminal with some parameters, if it has the string. */
static void send(const char *name, const struct ti_parameter *params, size_t count) {
    struct ti_output output = { put, NULL, stdout };
    ti_send(terminal, &variables, &line, name, params, count, 1, &output);
}

static void move_to(int32_t row, int32_t column) {
    struct ti_parameter place[2] = { ti_number_given(row), ti_number_given(column) };
    send("cup", place, 2);
}

int main(void) {
    enum ti_status refusal = ti_open(NULL, &terminal);
    if (refusal != TI_OK) return fprintf(stderr, "palette: %s\n", ti_strerror(refusal)), 1;
    int64_t colors = ti_number_named(terminal, "colors"); /* negative if there are none */
    if (colors > 256) colors = 256;
    if (colors < 8) {
        fprintf(stderr, "palette: the terminal has no colors\n");
        ti_entry_free(terminal);
        return 1;
    }
    ti_line_of(terminal, 38400, &line);
    send("clear", NULL, 0);
    for (int32_t color = 0; color < colors; color++) {
        struct ti_parameter chosen = ti_number_given(color);
        move_to(1 + color / 16, 2 + 4 * (color % 16));
        send("setaf", &chosen, 1);
        printf("%03d", (int)color);
    }
    send("sgr0", NULL, 0);
    move_to(18, 0);
    ti_entry_free(terminal);
    return 0;
}
