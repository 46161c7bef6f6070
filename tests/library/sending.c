/* Strings sent by their names, delays that are waited for, look-ups by place, and rates. */
#include "test.h"

#include "ti_names.h"

#include <termios.h>

/* ---- what is passed: the bytes, and between them each wait as `[tenths]` */

struct taken {
    char bytes[140000];
    size_t size, limit, passed; /* of `bytes`; and how many are taken at most, and so far */
    int blocks;
};

static struct taken taken;

static size_t take(const uint8_t *bytes, size_t size, void *context) {
    struct taken *to = (struct taken *)context;
    size_t room = to->limit - to->passed, count = size < room ? size : room;
    memcpy(to->bytes + to->size, bytes, count);
    to->size += count, to->passed += count, to->blocks++;
    return count;
}

static void note_wait(uint64_t tenths, void *context) {
    struct taken *to = (struct taken *)context;
    to->size += (size_t)sprintf(to->bytes + to->size, "[%llu]", (unsigned long long)tenths);
}

static const struct ti_output sink = { take, NULL, &taken }, waiting = { take, note_wait, &taken };

static void clear_taken(size_t limit) {
    taken.size = 0, taken.passed = 0, taken.blocks = 0, taken.limit = limit;
}

static bool took(const char *bytes) {
    return taken.size == strlen(bytes) && !memcmp(taken.bytes, bytes, taken.size);
}

static const struct ti_line padded = { 9600, 0, false, true, '.' };
static const struct ti_line silent = { 9600, 0, false, false, 0 };
static const struct ti_line unknown = { 0, 0, false, true, '.' };
static const struct ti_line busy = { 9600, 0, true, false, 0 };

/* ---- delays */

static bool cuts(const char *text, uint32_t lines, struct ti_line line, const char *before,
                 uint64_t tenths, const char *after) {
    struct ti_delay delay = TI_DELAY_EMPTY;
    bool found = ti_first_delay((const uint8_t *)text, strlen(text), lines, &line, &delay);
    return found && is_text(delay.before, before, strlen(before)) && delay.tenths == tenths &&
           is_text(delay.after, after, strlen(after)) &&
           delay.before.bytes == (const uint8_t *)text;
}

static void delays(void) {
    CHECK(cuts("\033[?5h$<100/>\033[?5l", 1, silent, "\033[?5h", 1000, "\033[?5l"));
    CHECK(cuts("a$<2.5>b$<3>c", 1, padded, "a", 25, "b$<3>c") && cuts("$<3*>", 9, silent, "", 270, ""));
    CHECK(cuts("a$<2>b", 1, busy, "a", 0, "b") && cuts("a$<2/>b", 1, busy, "a", 20, "b"));
    struct ti_line slow = { 1200, 9600, false, false, 0 };
    CHECK(cuts("a$<2>b", 1, slow, "a", 0, "b") && cuts("$<>$<2/>b", 1, slow, "$<>", 20, "b"));
    CHECK(cuts("$<99999.9*>", UINT32_MAX, silent, "", 999999 * (uint64_t)UINT32_MAX, ""));
    struct ti_delay delay = { { NULL, 7 }, { NULL, 8 }, 9 };
    static const char *const without[] = { "", "plain", "$", "$<", "$<>$<.5>", "a$<5" };
    for (int i = 0; i < 6; i++) {
        struct ti_text text = ti_text_of(without[i]);
        CHECK(!ti_first_delay(text.bytes, text.size, 1, &padded, &delay));
    }
    CHECK(!ti_first_delay(NULL, 0, 1, &padded, &delay));
    CHECK(delay.before.size == 7 && delay.after.size == 8 && delay.tenths == 9);
}

/* ---- writing */

static bool writes(const char *text, uint32_t lines, struct ti_line line,
                   const struct ti_output *output, const char *wanted, size_t size) {
    clear_taken(sizeof taken.bytes);
    struct ti_outcome outcome =
        ti_write((const uint8_t *)text, strlen(text), lines, &line, output);
    return outcome.status == TI_OK && outcome.size == size && took(wanted);
}

static void writing(void) {
    CHECK(writes("a$<2>b", 1, padded, &sink, "a..b", 4) && taken.blocks == 1);
    CHECK(writes("a$<2>b", 1, padded, &waiting, "a..b", 4));
    CHECK(writes("a$<2>b", 1, silent, &sink, "ab", 2) && writes("a$<2>b", 1, unknown, &sink, "ab", 2));
    CHECK(writes("a$<2>b", 1, silent, &waiting, "a[20]b", 2) && taken.blocks == 2);
    CHECK(writes("a$<2*>b", 3, unknown, &waiting, "a[60]b", 2));
    CHECK(writes("$<2>$<3>b$<1>", 1, silent, &waiting, "[20][30]b[10]", 1) && taken.blocks == 1);
    CHECK(writes("a$<2>b$<3/>c", 1, busy, &waiting, "ab[30]c", 3));
    CHECK(writes("", 1, padded, &sink, "", 0) && taken.blocks == 0);
    CHECK(writes("", 1, silent, &waiting, "", 0) && taken.blocks == 0);
    CHECK(ti_write(NULL, 0, 1, &padded, &sink).status == TI_OK && taken.blocks == 0);
    /* what is not taken */
    const uint8_t *text = (const uint8_t *)"a$<2>b$<9>c";
    clear_taken(3);
    struct ti_outcome outcome = ti_write(text, 11, 1, &padded, &sink);
    CHECK(outcome.status == TI_NOT_TAKEN && outcome.size == 3 && took("a.."));
    clear_taken(2);
    outcome = ti_write(text, 11, 1, &silent, &waiting);
    CHECK(outcome.status == TI_NOT_TAKEN && outcome.size == 2 && took("a[20]b[90]"));
    clear_taken(0);
    outcome = ti_write(text, 11, 1, &silent, &waiting);
    CHECK(outcome.status == TI_NOT_TAKEN && outcome.size == 0 && taken.blocks == 1);
    /* as many pad bytes as there may be, and one more */
    clear_taken(sizeof taken.bytes);
    struct ti_line fast = { 655360, 0, false, true, '.' };
    outcome = ti_write((const uint8_t *)"a$<1000>", 8, 1, &fast, &sink);
    CHECK(outcome.status == TI_OK && outcome.size == 65537 && taken.size == 65537);
    outcome = ti_write((const uint8_t *)"$<1000.1>", 9, 1, &fast, &sink);
    CHECK(outcome.status == TI_TOO_MUCH && outcome.size == 0 && taken.size == 65537);
}

/* ---- sending */

/*
 * An entry with bel=100%, cr=^M$<20>, cup, cud1=%, dim cancelled, and further formats in the
 * strings 12 to 16. Se=\E[2 q and Ss=\E[%p1%d q are user-defined, and XM is a boolean.
 */
static size_t put_sendable(uint8_t *bytes) {
    static const char table[] = "100%\0\r$<20>\0\033[%i%p1%d;%p2%dH\0%\0%p1%PA$<5>\0%gA%d\0%p1%z\0"
                                "a%%p1\0%'%'%c$<3/>";
    static const uint8_t extension[] = {
        1, 0, 0, 0, 2, 0, 5, 0, 25, 0, 1, 0, 0, 0, 6, 0, 0, 0, 3, 0, 6, 0,
        033, '[', '2', ' ', 'q', 0, 033, '[', '%', 'p', '1', '%', 'd', ' ', 'q', 0,
        'X', 'M', 0, 'S', 'e', 0, 'S', 's', 0
    };
    static const uint8_t flags[] = { 0, 1 };
    static const int32_t numbers[] = { 80 };
    int16_t offsets[DUMB_STRINGS];
    for (int i = 0; i < DUMB_STRINGS; i++) offsets[i] = -1;
    offsets[BEL] = 0, offsets[CR] = 5, offsets[CUP] = 12, offsets[CUD1] = 29, offsets[DIM] = -2;
    offsets[12] = 31, offsets[13] = 42, offsets[14] = 48, offsets[15] = 54, offsets[16] = 60;
    struct parts parts = { false, "sendable", 2, 1, DUMB_STRINGS, sizeof table, flags, numbers,
                           offsets, table };
    size_t size = put_entry(bytes, &parts);
    if (size % 2) bytes[size++] = 0;
    memcpy(bytes + size, extension, sizeof extension);
    return size + sizeof extension;
}

static struct ti_entry entry = TI_ENTRY_EMPTY;
static struct ti_variables variables;

static struct ti_outcome send(const char *name, const int32_t *numbers, size_t count,
                              const struct ti_line *line, size_t limit) {
    struct ti_parameter params[10];
    clear_taken(limit);
    for (size_t i = 0; i < count; i++) params[i] = ti_number_given(numbers[i]);
    return ti_send(&entry, &variables, line, name, params, count, 1, &waiting);
}

static bool sends(const char *name, const int32_t *numbers, size_t count, const char *wanted) {
    struct ti_outcome outcome = send(name, numbers, count, &padded, sizeof taken.bytes);
    return outcome.status == TI_OK && outcome.size == strlen(wanted) && took(wanted);
}

/* Whether nothing is sent, for this reason, and no variable is changed. */
static bool refuses(const char *name, const int32_t *numbers, size_t count, enum ti_status status,
                    size_t size) {
    struct ti_variables before = variables;
    struct ti_outcome outcome = send(name, numbers, count, &padded, sizeof taken.bytes);
    return outcome.status == status && outcome.size == size && took("") &&
           !memcmp(&before, &variables, sizeof before);
}

/* The name of a string by its index. */
static const char *name_of(uint32_t index) {
    static char name[8];
    struct ti_text text = TI_NOTHING;
    CHECK(ti_name(TI_STRING, index, &text) && text.size < sizeof name);
    memcpy(name, text.bytes, text.size), name[text.size] = 0;
    return name;
}

static void sending(void) {
    static uint8_t bytes[400];
    static const int32_t numbers[10] = { 4, 9, 0, 0, 0, 0, 0, 0, 0, 77 };
    CHECK(ti_entry_read(bytes, put_sendable(bytes), &entry) == 0);
    CHECK(sends("cup", numbers, 2, "\033[5;10H") && sends("cup", numbers, 10, "\033[5;10H"));
    CHECK(sends("cup", numbers, 1, "\033[5;1H") && sends("cup", NULL, 0, "\033[1;1H"));
    /* a string that takes no parameter is a format only if it is given some */
    CHECK(sends("bel", NULL, 0, "100%") && sends("cud1", NULL, 0, "%") && sends(name_of(15), NULL, 0, "a%%p1"));
    CHECK(refuses("bel", numbers, 1, TI_BAD_FORMAT, 3) && sends(name_of(15), numbers, 1, "a%p1"));
    CHECK(sends("cr", NULL, 0, "\r....................") && sends("cr", numbers, 2, "\r...................."));
    CHECK(send("cr", NULL, 0, &silent, 100).size == 1 && took("\r[200]"));
    CHECK(sends(name_of(16), numbers, 1, "%...") && sends(name_of(16), NULL, 0, "%'%'%c..."));
    /* user-defined strings */
    CHECK(sends("Se", NULL, 0, "\033[2 q") && sends("Ss", numbers, 1, "\033[4 q"));
    /* variables */
    CHECK(sends(name_of(12), numbers, 1, ".....") && variables.values[0] == 4 && sends(name_of(13), numbers, 1, "4"));
    /* a refusal after the expansion */
    struct ti_line fast = { UINT32_MAX, 0, false, true, '.' };
    static const int32_t other[] = { 5 };
    struct ti_outcome outcome = send(name_of(12), other, 1, &fast, 100);
    CHECK(outcome.status == TI_TOO_MUCH && outcome.size == 0 && taken.size == 0);
    CHECK(variables.values[0] == 4);
    CHECK(refuses(name_of(14), numbers, 1, TI_BAD_FORMAT, 3));
    /* what is not there: a name that is no capability, of another kind, absent or cancelled */
    CHECK(refuses("nosuch", NULL, 0, TI_ABSENT, 0) && refuses("am", NULL, 0, TI_ABSENT, 0));
    CHECK(refuses("cols", numbers, 1, TI_ABSENT, 0) && refuses("XM", NULL, 0, TI_ABSENT, 0));
    CHECK(refuses("clear", NULL, 0, TI_ABSENT, 0) && refuses("dim", NULL, 0, TI_ABSENT, 0));
    CHECK(refuses("", NULL, 0, TI_ABSENT, 0));
    /* what is not taken */
    outcome = send("cup", numbers, 2, &padded, 3);
    CHECK(outcome.status == TI_NOT_TAKEN && outcome.size == 3 && took("\033[5"));
}

/* ---- sending strings: Ms of user_caps(5) and pfkey of terminfo(5) take one */

/* What a string of an entry that has only this one gives for some parameters. */
static struct ti_outcome send_alone(const char *text, const struct ti_parameter *params,
                                    size_t count) {
    static uint8_t bytes[200];
    static const uint8_t flags[] = { 0 };
    static const int32_t none[] = { -1 };
    static const int16_t offsets[] = { 0 };
    struct ti_entry alone = TI_ENTRY_EMPTY;
    struct parts parts = { false, "t", 1, 1, 1, strlen(text) + 1, flags, none, offsets, text };
    CHECK(ti_entry_read(bytes, put_entry(bytes, &parts), &alone) == TI_OK);
    clear_taken(sizeof taken.bytes);
    return ti_send(&alone, &variables, &padded, "cbt", params, count, 1, &sink);
}

static bool sends_alone(const char *text, const struct ti_parameter *params, size_t count,
                        const char *wanted) {
    struct ti_outcome outcome = send_alone(text, params, count);
    return outcome.status == TI_OK && outcome.size == strlen(wanted) && took(wanted);
}

/* Whether a parameter is refused, and nothing is sent. */
static bool refuses_alone(const char *text, const struct ti_parameter *params, size_t count,
                          size_t number) {
    struct ti_outcome outcome = send_alone(text, params, count);
    return outcome.status == TI_BAD_PARAMETER && outcome.size == number && took("");
}

static void sending_strings(void) {
    const char *ms = "\033]52;%p1%s;%p2%s\a", *pfkey = "\033[%p1%d;%p2%5.3sp";
    struct ti_parameter texts[2] = { ti_string_given("c"), ti_string_given("aGk=") };
    struct ti_parameter mixed[2] = { ti_number_given(4), ti_text_given((const uint8_t *)"ls", 2) };
    struct ti_parameter empty[2] = { ti_string_given(""), ti_string_given("") };
    CHECK(sends_alone(ms, texts, 2, "\033]52;c;aGk=\a") && sends_alone(ms, empty, 2, "\033]52;;\a"));
    CHECK(refuses_alone(ms, NULL, 0, 1) && refuses_alone(ms, texts, 1, 2));
    CHECK(refuses_alone(ms, mixed, 2, 1) && refuses_alone(pfkey, texts, 2, 1));
    CHECK(sends_alone(pfkey, mixed, 2, "\033[4;   lsp") && refuses_alone(pfkey, mixed, 1, 2));
    CHECK(refuses_alone("%p1%d", texts, 1, 1) && refuses_alone("plain", texts, 1, 1));
    /* the length of a string, and a string that a `%p` before it does not give */
    CHECK(sends_alone("%p1%l%d", texts + 1, 1, "4") && refuses_alone("%p1%l%d", mixed, 1, 1));
    /* parameters of termcap */
    CHECK(sends_alone("%s", texts, 1, "c") && refuses_alone("%s", mixed, 1, 1));
    struct ti_parameter numbers[2] = { ti_number_given(4), ti_number_given(9) };
    CHECK(sends_alone("\033[%i%d;%dH", numbers, 2, "\033[5;10H"));
    CHECK(sends_alone("\033[%d;%dH", NULL, 0, "\033[%d;%dH"));
}

/* ---- look-ups by place and by name */

static void look_ups(void) {
    struct ti_text text = TI_NOTHING;
    CHECK(ti_flag_at(&entry, TI_AM) == 1 && ti_flag_at(&entry, TI_BW) == 0);
    CHECK(ti_number_at(&entry, TI_COLS) == 80 && ti_number_at(&entry, TI_COLORS) == -1);
    CHECK(ti_string_at(&entry, TI_BEL, &text) == 1 && is_text(text, "100%", 4));
    CHECK(ti_string_at(&entry, TI_CLEAR, &text) == 0);
    CHECK(ti_flag_at(&entry, TI_CUP) == TI_WRONG_KIND && ti_flag_at(&entry, TI_COLS) == TI_WRONG_KIND);
    CHECK(ti_number_at(&entry, TI_AM) == TI_WRONG_KIND && ti_number_at(&entry, TI_CUP) == TI_WRONG_KIND);
    CHECK(ti_string_at(&entry, TI_AM, &text) == TI_WRONG_KIND && is_text(text, "100%", 4));
    CHECK(ti_string_at(&entry, TI_PLACE(3, 0), &text) == TI_WRONG_KIND);
    CHECK(ti_flag_at(&entry, TI_PLACE(TI_FLAG, TI_FLAGS)) == -1);
    CHECK(ti_number_at(&entry, TI_PLACE(TI_NUMBER, TI_NUMBERS)) == -2);
    CHECK(ti_string_at(&entry, TI_PLACE(TI_STRING, TI_STRINGS), &text) == -1);
    /* user-defined ones by name, of their kind */
    CHECK(ti_flag_named(&entry, "XM") == 1 && ti_number_named(&entry, "XM") == -2);
    CHECK(ti_string_named(&entry, "Se", &text) == 1 && is_text(text, "\033[2 q", 5));
    CHECK(ti_string_named(&entry, "XM", &text) == -1 && ti_flag_named(&entry, "Se") == -1);
}

/* A NUL follows each string of an entry, and each user-defined name. */
static void ends(void) {
    struct ti_text text = TI_NOTHING;
    struct ti_extension extension = TI_EXTENSION_EMPTY;
    struct ti_value value = TI_VALUE_EMPTY;
    for (uint32_t i = 0; i < TI_STRINGS; i++)
        if (ti_string(&entry, i, &text) == 1)
            CHECK(text.bytes[text.size] == 0 && strlen((const char *)text.bytes) == text.size);
    CHECK(ti_extension_read(&entry, &extension) == 0);
    for (size_t i = 0; ti_user_defined(&extension, i, &text, &value); i++) {
        CHECK(text.bytes[text.size] == 0);
        if (value.kind == TI_STRING) CHECK(value.text.bytes[value.text.size] == 0);
    }
    ti_names(&entry, &text);
    CHECK(text.bytes[text.size] == 0);
}

static void rates(void) {
    CHECK(ti_rate(B0) == 0 && ti_rate(B50) == 50 && ti_rate(B134) == 134 && ti_rate(B9600) == 9600);
    CHECK(ti_rate(B38400) == 38400 && ti_rate(B115200) == 115200 && ti_rate(B4000000) == 4000000);
    CHECK(ti_rate(UINT32_MAX) == 0 && ti_rate(12345) == 0);
}

int main(void) {
    delays();
    writing();
    sending();
    sending_strings();
    look_ups();
    ends();
    rates();
    return close_checks();
}
