/*
 * Keys and characters: their names (keyname, unctrl), and the keys that a program defines
 * (define_key and what is around it).
 */
#include "tinfo.h"

#include <ctype.h>
#include <stdio.h>
#include <stdlib.h>

enum { BYTES = 256 };

/* ---- curs_util(3x) */

/* The name of a byte as unctrl gives it: `^A`, `~A` and `M-A` for what cannot be printed. */
static void name_byte(char *name, int byte) {
    if (byte < 32) sprintf(name, "^%c", byte + 64);
    else if (byte == 127) strcpy(name, "^?");
    else if (byte < 128) sprintf(name, "%c", byte);
    else if (byte < 160) sprintf(name, "~%c", byte - 64);
    else if (byte < 255) sprintf(name, "M-%c", byte - 128);
    else strcpy(name, "~?");
}

/* For a screen, a byte that the locale can print is its own name. */
EXPORTED const char *unctrl_sp(SCREEN *screen, chtype character) {
    static char names[BYTES][sizeof "M-A"], printed[BYTES][2];
    int byte = (int)(character & (BYTES - 1));
    if (screen && byte >= 160 && isprint(byte)) {
        printed[byte][0] = (char)byte;
        return printed[byte];
    }
    name_byte(names[byte], byte);
    return names[byte];
}
EXPORTED const char *unctrl(chtype character) { return unctrl_sp(NULL, character); }

/* The codes of keys, of which the last follow each other. */
enum { KEY_BREAK = 0401, KEY_F0 = 0410, KEY_DL = 0510, FUNCTION_KEYS = 64 };

/* The name of a key by its code alone; NULL if it has none. */
static const char *name_of_key(int code) {
    static const char *const first[] = {
        "KEY_BREAK", "KEY_DOWN", "KEY_UP", "KEY_LEFT", "KEY_RIGHT", "KEY_HOME", "KEY_BACKSPACE",
    };
    static const char *const later[] = {
        "KEY_DL", "KEY_IL", "KEY_DC", "KEY_IC", "KEY_EIC", "KEY_CLEAR", "KEY_EOS", "KEY_EOL",
        "KEY_SF", "KEY_SR", "KEY_NPAGE", "KEY_PPAGE", "KEY_STAB", "KEY_CTAB", "KEY_CATAB",
        "KEY_ENTER", "KEY_SRESET", "KEY_RESET", "KEY_PRINT", "KEY_LL", "KEY_A1", "KEY_A3", "KEY_B2",
        "KEY_C1", "KEY_C3", "KEY_BTAB", "KEY_BEG", "KEY_CANCEL", "KEY_CLOSE", "KEY_COMMAND",
        "KEY_COPY", "KEY_CREATE", "KEY_END", "KEY_EXIT", "KEY_FIND", "KEY_HELP", "KEY_MARK",
        "KEY_MESSAGE", "KEY_MOVE", "KEY_NEXT", "KEY_OPEN", "KEY_OPTIONS", "KEY_PREVIOUS",
        "KEY_REDO", "KEY_REFERENCE", "KEY_REFRESH", "KEY_REPLACE", "KEY_RESTART", "KEY_RESUME",
        "KEY_SAVE", "KEY_SBEG", "KEY_SCANCEL", "KEY_SCOMMAND", "KEY_SCOPY", "KEY_SCREATE",
        "KEY_SDC", "KEY_SDL", "KEY_SELECT", "KEY_SEND", "KEY_SEOL", "KEY_SEXIT", "KEY_SFIND",
        "KEY_SHELP", "KEY_SHOME", "KEY_SIC", "KEY_SLEFT", "KEY_SMESSAGE", "KEY_SMOVE", "KEY_SNEXT",
        "KEY_SOPTIONS", "KEY_SPREVIOUS", "KEY_SPRINT", "KEY_SREDO", "KEY_SREPLACE", "KEY_SRIGHT",
        "KEY_SRSUME", "KEY_SSAVE", "KEY_SSUSPEND", "KEY_SUNDO", "KEY_SUSPEND", "KEY_UNDO",
        "KEY_MOUSE", "KEY_RESIZE",
    };
    enum { LATER = sizeof later / sizeof *later };
    static char functions[FUNCTION_KEYS][sizeof "KEY_F(63)"];
    if (code >= KEY_BREAK && code < KEY_F0) return first[code - KEY_BREAK];
    if (code >= KEY_DL && code - KEY_DL < LATER) return later[code - KEY_DL];
    if (code < KEY_F0 || code >= KEY_F0 + FUNCTION_KEYS) return NULL;
    char *name = functions[code - KEY_F0];
    snprintf(name, sizeof *functions, "KEY_F(%d)", code - KEY_F0);
    return name;
}

/* The name of a byte as keyname gives it: `^A`, and with `M-` before it from 128 on. */
static const char *name_of_byte(const SCREEN *screen, int byte) {
    static char names[2][BYTES][sizeof "M-^A"];
    char *name = names[screen != NULL][byte], *at = name;
    if (byte >= 128 && !screen) {
        at = stpcpy(at, "M-");
        byte -= 128;
    }
    if (byte < 32) sprintf(at, "^%c", byte + '@');
    else if (byte == 127) strcpy(at, "^?");
    else sprintf(at, "%c", byte);
    return name;
}

/* ---- curs_extend(3x): define_key, key_defined, keybound, keyok */

static void drop_key(struct keys *keys, size_t at) {
    free(keys->rows[at].text);
    keys->count--;
    memmove(keys->rows + at, keys->rows + at + 1, (keys->count - at) * sizeof *keys->rows);
}

/* Adds a key, in place of one that sends the same. False if there is no memory for it. */
static bool add_key(struct keys *keys, const char *text, int code) {
    char *copy = strdup(text);
    struct key *rows = (struct key *)realloc(keys->rows, (keys->count + 1) * sizeof *rows);
    if (rows) keys->rows = rows;
    if (!copy || !rows) {
        free(copy);
        return false;
    }
    for (size_t i = keys->count; i > 0; i--)
        if (strcmp(rows[i - 1].text, text) == 0) drop_key(keys, i - 1);
    rows[keys->count++] = (struct key){ copy, code };
    return true;
}

/* The place of the `count`th key with a code; the number of keys if there is none. */
static size_t key_with(const struct keys *keys, int code, int count) {
    size_t at = 0;
    while (at < keys->count && (keys->rows[at].code != code || count-- > 0)) at++;
    return at;
}

/* Drops the keys that send a text. Gives whether there is one. */
static bool drop_text(struct keys *keys, const char *text) {
    size_t before = keys->count;
    for (size_t i = keys->count; i > 0; i--)
        if (strcmp(keys->rows[i - 1].text, text) == 0) drop_key(keys, i - 1);
    return keys->count < before;
}

/*
 * The code of the key that sends a text, or else of the longest one with which it begins; 0 if
 * there is none. ERR for a text with which one begins that is longer.
 */
EXPORTED int key_defined_sp(SCREEN *screen, const char *text) {
    size_t longest = 0;
    int code = 0;
    if (!screen || !text) return ERR;
    for (size_t i = 0; *text && i < screen->defined.count; i++) {
        const struct key *key = &screen->defined.rows[i];
        size_t size = strlen(key->text);
        if (size > strlen(text) && strncmp(key->text, text, strlen(text)) == 0) return ERR;
        if (size <= longest || strncmp(text, key->text, size) != 0) continue;
        longest = size;
        code = key->code;
    }
    return code;
}
EXPORTED int key_defined(const char *text) { return key_defined_sp(NULL, text); }

/* The text of the `count`th key with a code, for free to be given; NULL if there is none. */
EXPORTED char *keybound_sp(SCREEN *screen, int code, int count) {
    if (!screen || code <= 0 || count < 0) return NULL;
    size_t at = key_with(&screen->defined, code, count);
    return at < screen->defined.count ? strdup(screen->defined.rows[at].text) : NULL;
}
EXPORTED char *keybound(int code, int count) { return keybound_sp(NULL, code, count); }

EXPORTED int has_key_sp(SCREEN *screen, int code) {
    return screen && key_with(&screen->defined, code, 0) < screen->defined.count;
}
EXPORTED int has_key(int code) { return has_key_sp(NULL, code); }

/* Takes the definitions of a code away. */
static int undefine(struct keys *keys, int code) {
    int answer = ERR;
    for (size_t at; (at = key_with(keys, code, 0)) < keys->count; answer = OK) drop_key(keys, at);
    return answer;
}

/* Without a code it takes the definition of the text away, and without a text those of the code. */
EXPORTED int define_key_sp(SCREEN *screen, const char *text, int code) {
    if (!screen || !terminal_for(screen)) return ERR;
    if (!text) return code > 0 ? undefine(&screen->defined, code) : ERR;
    bool was_defined = drop_text(&screen->defined, text);
    if (code <= 0) return was_defined ? OK : ERR;
    if (!*text || key_defined_sp(screen, text) != 0) return ERR;
    return add_key(&screen->defined, text, code) ? OK : ERR;
}
EXPORTED int define_key(const char *text, int code) { return define_key_sp(NULL, text, code); }

/* Moves the definitions of a code between those that count and those that do not. */
EXPORTED int keyok_sp(SCREEN *screen, int code, bool counts) {
    int answer = ERR;
    if (!screen || !screen->terminal || code <= 0) return ERR;
    struct keys *from = counts ? &screen->disabled : &screen->defined;
    struct keys *to = counts ? &screen->defined : &screen->disabled;
    for (size_t at; (at = key_with(from, code, 0)) < from->count;) {
        answer = add_key(to, from->rows[at].text, code) ? OK : ERR;
        if (answer != OK) break;
        drop_key(from, at);
    }
    return answer;
}
EXPORTED int keyok(int code, bool counts) { return keyok_sp(NULL, code, counts); }

/* The name of the user-defined string that a screen has as a key with a code, or NULL. */
static const char *user_key(SCREEN *screen, int code) {
    const TERMTYPE *type = &screen->terminal->type;
    char **names = type->ext_Names + type->ext_Booleans + type->ext_Numbers;
    for (size_t i = 0; i < screen->defined.count; i++) {
        const struct key *key = &screen->defined.rows[i];
        for (int j = 0; key->code == code && j < type->ext_Strings; j++) {
            const char *text = type->Strings[TI_STRINGS + j];
            if (text && strcmp(text, key->text) == 0) return names[j];
        }
    }
    return NULL;
}

/* The name of a key or a byte; NULL if it has none. */
EXPORTED const char *keyname_sp(SCREEN *screen, int code) {
    if (code == -1) return "-1";
    if (code >= 0 && code < BYTES) return name_of_byte(screen, code);
    const char *name = name_of_key(code);
    return name || !screen || !screen->terminal ? name : user_key(screen, code);
}
EXPORTED const char *keyname(int code) { return keyname_sp(NULL, code); }
