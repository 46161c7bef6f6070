/*
 * Each allocation refused in turn: link with --wrap of malloc, realloc and free. After a refusal
 * the call says so, nothing has changed and no block is left.
 */
#include "test.h"

void *__real_malloc(size_t size);
void *__real_realloc(void *block, size_t size);
void __real_free(void *block);

static long allowed, asked, blocks;

/* Whether one more allocation is refused. */
static bool refuses_now(void) { return asked++ == allowed; }

void *__wrap_malloc(size_t size) {
    void *block = refuses_now() ? NULL : __real_malloc(size);
    blocks += block != NULL;
    return block;
}

void *__wrap_realloc(void *block, size_t size) {
    void *grown = refuses_now() ? NULL : __real_realloc(block, size);
    blocks += grown && !block;
    return grown;
}

void __wrap_free(void *block) {
    blocks -= block != NULL;
    __real_free(block);
}

enum { ROOM = 4096, MOST = 100 };
static uint8_t bytes[ROOM], out[ROOM];
static size_t size;

/* A call, and whether it was refused memory. */
typedef bool call(void);

static bool copies(void) {
    struct ti_entry *entry = NULL;
    enum ti_status answer = ti_entry_new(bytes, size, &entry);
    CHECK(answer == 0 || (answer == TI_NO_MEMORY && !entry));
    ti_entry_free(entry);
    return answer != 0;
}

static bool opens(void) {
    struct ti_entry *entry = NULL;
    enum ti_status answer = ti_open("dumb", &entry);
    CHECK(answer == 0 || (answer == TI_NO_MEMORY && !entry));
    ti_entry_free(entry);
    return answer != 0;
}

static bool opens_terminal(void) {
    struct ti_terminal *terminal = NULL;
    enum ti_status status = ti_terminal_open("dumb", 1, &terminal);
    CHECK(status == TI_OK || (status == TI_NO_MEMORY && !terminal));
    ti_terminal_close(terminal);
    return status != TI_OK;
}

static bool opens_otherwise(void) {
    struct ti_entry *entry = NULL;
    enum ti_status status = ti_open_profile("dumb", &entry);
    CHECK(status == TI_OK || (status == TI_NO_MEMORY && !entry));
    ti_entry_free(entry);
    if (status != TI_OK) return true;
    status = ti_open_below(getenv("TERMINFO"), "dumb", &entry);
    CHECK(status == TI_OK || status == TI_NO_MEMORY);
    if (status == TI_OK) ti_entry_free(entry);
    return status != TI_OK;
}

static bool expands(void) {
    /* over 64 bytes, since fewer take no memory */
    const char *format = "%p1%PA\033[%i%p1%70d;%p2%dH";
    struct ti_parameter params[2] = { ti_number_given(4), ti_number_given(9) };
    struct ti_variables variables = { { 0 } };
    memset(out, 1, ROOM);
    struct ti_outcome outcome =
        ti_expand((const uint8_t *)format, strlen(format), params, 2, &variables, out, ROOM);
    CHECK(outcome.status == TI_OK || (outcome.status == TI_NO_MEMORY && out[0] == 1 && !variables.values[0]));
    return outcome.status != TI_OK;
}

static bool pads(void) {
    struct ti_line line = { 9600, 0, false, true, 0 };
    memset(out, 1, ROOM);
    struct ti_outcome outcome = ti_pad((const uint8_t *)"a$<5>b", 6, 1, &line, out, ROOM);
    CHECK(outcome.status == TI_OK || (outcome.status == TI_NO_MEMORY && out[0] == 1));
    return outcome.status != TI_OK;
}

static bool finds_paths(void) {
    memset(out, 1, ROOM);
    struct ti_outcome outcome = ti_path((const uint8_t *)"/usr", 4, (const uint8_t *)"dumb", 4, out, ROOM);
    CHECK(outcome.status == TI_OK || (outcome.status == TI_NO_MEMORY && out[0] == 1));
    return outcome.status != TI_OK;
}

static int handed;

static int put(int byte) {
    handed++;
    return byte;
}

static bool puts_bytes(void) {
    struct ti_line line = { 9600, 0, false, true, 0 };
    handed = 0;
    struct ti_outcome outcome = ti_puts((const uint8_t *)"a$<500>b", 8, 1, &line, put);
    CHECK((outcome.status == TI_OK && handed == 482) || (outcome.status == TI_NO_MEMORY && !handed));
    return outcome.status != TI_OK;
}

static size_t take(const uint8_t *given, size_t count, void *context) {
    (void)given, (void)context;
    handed += (int)count;
    return count;
}

/* A string whose bytes are more than what ti_send has room for without memory of its own. */
static bool sends(void) {
    struct ti_parameter numbers[] = { ti_number_given(4), ti_number_given(9) };
    static uint8_t long_entry[ROOM];
    static char table[8 + 12 * 300];
    static int16_t offsets[1] = { 0 };
    static const uint8_t flags[1] = { 0 };
    static const int32_t none[1] = { -1 };
    struct ti_entry entry = TI_ENTRY_EMPTY;
    struct ti_variables variables = { { 0 } };
    struct ti_line line = { 9600, 0, false, true, 0 };
    struct ti_output output = { take, NULL, NULL };
    strcpy(table, "%p1%PA");
    for (int i = 0; i < 300; i++) strcat(table, "ab%p2%d");
    struct parts parts = { false, "long", 1, 1, 1, strlen(table) + 1, flags, none, offsets, table };
    size_t count = put_entry(long_entry, &parts);
    if (!CHECK(ti_entry_read(long_entry, count, &entry) == 0)) return false;
    handed = 0;
    struct ti_outcome outcome = ti_send(&entry, &variables, &line, "cbt", numbers, 2, 1, &output);
    CHECK((outcome.status == TI_OK && handed == 900) ||
          (outcome.status == TI_NO_MEMORY && !handed && !variables.values[0]));
    return outcome.status != TI_OK;
}

/* A terminal whose entry is changed: it has what it had if that is refused. */
static bool changes(void) {
    const struct ti_output output = { take, NULL, NULL };
    const struct ti_change given[] = { ti_string_change("cup", "ab"), ti_string_change("XX", "abc"),
                                       ti_flag_change("AX"), ti_number_change("cols", 70000) };
    struct ti_entry *own = NULL;
    struct ti_terminal *terminal = NULL;
    struct ti_outcome changed = { TI_NO_MEMORY, 0 };
    if (ti_entry_new(bytes, size, &own) != TI_OK) return true;
    if (ti_terminal_new(own, 0, &output, &terminal) == TI_OK) {
        changed = ti_terminal_change(terminal, given, sizeof given / sizeof *given);
        handed = 0;
        ti_put_named(terminal, "XX");
        CHECK(changed.status == TI_OK ? handed == 3 : changed.status == TI_NO_MEMORY && !handed);
        ti_terminal_close(terminal);
    } else {
        ti_entry_free(own);
    }
    return changed.status != TI_OK;
}

/* Makes a call with each of its allocations refused, until none is. Gives how many it has. */
static long refuse_each(call *made) {
    for (allowed = 0; allowed < MOST; allowed++) {
        asked = 0;
        bool refused = made();
        CHECK(blocks == 0);
        if (!refused) return allowed;
    }
    CHECK(false);
    return MOST;
}

int main(void) {
    struct parts parts = dumb();
    size = put_entry(bytes, &parts);
    /* run.py has put the same entry into the directory of TERMINFO */
    long counts[] = { refuse_each(copies), refuse_each(opens), refuse_each(opens_terminal),
                      refuse_each(opens_otherwise), refuse_each(expands), refuse_each(pads),
                      refuse_each(finds_paths), refuse_each(puts_bytes), refuse_each(sends),
                      refuse_each(changes) };
    for (size_t i = 0; i < sizeof counts / sizeof *counts; i++) {
        CHECK(counts[i] >= 1);
        printf("%ld allocations refused\n", counts[i]);
    }
    allowed = -1;
    return close_checks();
}
