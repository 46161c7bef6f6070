/*
 * What libtic knows of names that are not those of terminfo(5): what other systems call a
 * capability, and user-defined capabilities, which user_caps(5) describes.
 */
#include "tinfo.h"

/* ---- names of other systems */

/* A name, that of terminfo or termcap for it, if there is one, and the system that has it. */
struct alias {
    const char *from, *to, *source;
};

static const struct alias of_terminfo[] = {
    { "font0", "s0ds", "IBM" }, { "font1", "s1ds", "IBM" }, { "font2", "s2ds", "IBM" },
    { "font3", "s3ds", "IBM" }, { "kbtab", "kcbt", "IBM" }, { "ksel", "kslt", "IBM" },
    { NULL, NULL, NULL },
};
static const struct alias of_termcap[] = {
    { "sb", "sr", "BSD" }, { "BO", "mr", "AT&T" }, { "CI", "vi", "AT&T" }, { "CV", "ve", "AT&T" },
    { "DS", "mh", "AT&T" }, { "FE", "LF", "AT&T" }, { "FL", "LO", "AT&T" }, { "XS", "mk", "AT&T" },
    { "EE", "mh", "XENIX" }, { "GE", "ae", "XENIX" }, { "GS", "as", "XENIX" },
    { "CF", "vi", "XENIX" }, { "CO", "ve", "XENIX" }, { "EN", "@7", "XENIX" },
    { "HM", "kh", "XENIX" }, { "LD", "kL", "XENIX" }, { "PD", "kN", "XENIX" },
    { "PN", "po", "XENIX" }, { "PS", "pf", "XENIX" }, { "PU", "kP", "XENIX" },
    { "RT", "@8", "XENIX" }, { "UP", "ku", "XENIX" }, { "G6", NULL, "XENIX" },
    { "G7", NULL, "XENIX" }, { "G5", NULL, "XENIX" }, { "G8", NULL, "XENIX" },
    { "Gr", NULL, "XENIX" }, { "Gu", NULL, "XENIX" },
    { "Gd", NULL, "XENIX" }, { "Gh", NULL, "XENIX" }, { "Gv", NULL, "XENIX" },
    { "Gc", NULL, "XENIX" }, { "GG", NULL, "XENIX" }, { "kq", "%1", "IBM" }, { "HS", "mh", "IRIS" },
    { "KA", "k;", "Tek" }, { "KB", "F1", "Tek" }, { "KC", "F2", "Tek" }, { "KD", "F3", "Tek" },
    { "KE", "F4", "Tek" }, { "KF", "F5", "Tek" }, { "BC", "Sb", "Tek" }, { "FC", "Sf", "Tek" },
    { NULL, NULL, NULL },
};

EXPORTED const struct alias *_nc_get_alias_table(bool is_termcap) {
    return is_termcap ? of_termcap : of_terminfo;
}

/* ---- user-defined capabilities */

/* A name, the kinds that it may have, and how many parameters it takes, with a bit for a string. */
struct user_table_entry {
    const char *name;
    int kinds;
    unsigned parameters, strings;
    short index, next; /* of a table that is searched */
};
enum { IS_FLAG = 1, IS_NUMBER = 2, IS_STRING = 4, IS_ANY = 7 };

static const struct user_table_entry users[] = {
    { "CO", IS_NUMBER, 0, 0, 0, -1 }, { "E3", IS_STRING, 0, 0, 0, -1 },
    { "NQ", IS_FLAG, 0, 0, 0, -1 }, { "RGB", IS_ANY, 0, 0, 0, -1 },
    { "TS", IS_STRING, 0, 0, 0, -1 }, { "U8", IS_NUMBER, 0, 0, 0, -1 },
    { "XM", IS_STRING, 1, 0, 0, -1 }, { "grbom", IS_STRING, 0, 0, 0, -1 },
    { "gsbom", IS_STRING, 0, 0, 0, -1 }, { "xm", IS_STRING, 8, 8, 0, -1 },
    { "Rmol", IS_STRING, 0, 0, 0, -1 }, { "Smol", IS_STRING, 0, 0, 0, -1 },
    { "blink2", IS_STRING, 0, 0, 0, -1 }, { "norm", IS_STRING, 0, 0, 0, -1 },
    { "opaq", IS_STRING, 0, 0, 0, -1 }, { "setal", IS_STRING, 1, 0, 0, -1 },
    { "smul2", IS_STRING, 0, 0, 0, -1 }, { "AN", IS_FLAG, 0, 0, 0, -1 },
    { "AX", IS_FLAG, 0, 0, 0, -1 }, { "C0", IS_STRING, 0, 0, 0, -1 },
    { "C8", IS_FLAG, 0, 0, 0, -1 }, { "CE", IS_STRING, 0, 0, 0, -1 },
    { "CS", IS_STRING, 0, 0, 0, -1 }, { "E0", IS_STRING, 0, 0, 0, -1 },
    { "G0", IS_FLAG, 0, 0, 0, -1 }, { "KJ", IS_STRING, 1, 1, 0, -1 },
    { "OL", IS_NUMBER, 0, 0, 0, -1 }, { "S0", IS_STRING, 1, 1, 0, -1 },
    { "TF", IS_FLAG, 0, 0, 0, -1 }, { "WS", IS_STRING, 2, 0, 0, -1 },
    { "XC", IS_STRING, 1, 1, 0, -1 }, { "XT", IS_FLAG, 0, 0, 0, -1 },
    { "Z0", IS_STRING, 0, 0, 0, -1 }, { "Z1", IS_STRING, 0, 0, 0, -1 },
    { "Cr", IS_STRING, 0, 0, 0, -1 }, { "Cs", IS_STRING, 1, 1, 0, -1 },
    { "Csr", IS_STRING, 1, 0, 0, -1 }, { "Ms", IS_STRING, 2, 3, 0, -1 },
    { "Se", IS_STRING, 0, 0, 0, -1 }, { "Smulx", IS_STRING, 1, 0, 0, -1 },
    { "Ss", IS_STRING, 1, 0, 0, -1 }, { "rmxx", IS_STRING, 0, 0, 0, -1 },
    { "smxx", IS_STRING, 0, 0, 0, -1 }, { "csl", IS_STRING, 0, 0, 0, -1 },
    { "kDC3", IS_STRING, 0, 0, 0, -1 }, { "kDC4", IS_STRING, 0, 0, 0, -1 },
    { "kDC5", IS_STRING, 0, 0, 0, -1 }, { "kDC6", IS_STRING, 0, 0, 0, -1 },
    { "kDC7", IS_STRING, 0, 0, 0, -1 }, { "kDN", IS_STRING, 0, 0, 0, -1 },
    { "kDN3", IS_STRING, 0, 0, 0, -1 }, { "kDN4", IS_STRING, 0, 0, 0, -1 },
    { "kDN5", IS_STRING, 0, 0, 0, -1 }, { "kDN6", IS_STRING, 0, 0, 0, -1 },
    { "kDN7", IS_STRING, 0, 0, 0, -1 }, { "kEND3", IS_STRING, 0, 0, 0, -1 },
    { "kEND4", IS_STRING, 0, 0, 0, -1 }, { "kEND5", IS_STRING, 0, 0, 0, -1 },
    { "kEND6", IS_STRING, 0, 0, 0, -1 }, { "kEND7", IS_STRING, 0, 0, 0, -1 },
    { "kHOM3", IS_STRING, 0, 0, 0, -1 }, { "kHOM4", IS_STRING, 0, 0, 0, -1 },
    { "kHOM5", IS_STRING, 0, 0, 0, -1 }, { "kHOM6", IS_STRING, 0, 0, 0, -1 },
    { "kHOM7", IS_STRING, 0, 0, 0, -1 }, { "kIC3", IS_STRING, 0, 0, 0, -1 },
    { "kIC4", IS_STRING, 0, 0, 0, -1 }, { "kIC5", IS_STRING, 0, 0, 0, -1 },
    { "kIC6", IS_STRING, 0, 0, 0, -1 }, { "kIC7", IS_STRING, 0, 0, 0, -1 },
    { "kLFT3", IS_STRING, 0, 0, 0, -1 }, { "kLFT4", IS_STRING, 0, 0, 0, -1 },
    { "kLFT5", IS_STRING, 0, 0, 0, -1 }, { "kLFT6", IS_STRING, 0, 0, 0, -1 },
    { "kLFT7", IS_STRING, 0, 0, 0, -1 }, { "kNXT3", IS_STRING, 0, 0, 0, -1 },
    { "kNXT4", IS_STRING, 0, 0, 0, -1 }, { "kNXT5", IS_STRING, 0, 0, 0, -1 },
    { "kNXT6", IS_STRING, 0, 0, 0, -1 }, { "kNXT7", IS_STRING, 0, 0, 0, -1 },
    { "kPRV3", IS_STRING, 0, 0, 0, -1 }, { "kPRV4", IS_STRING, 0, 0, 0, -1 },
    { "kPRV5", IS_STRING, 0, 0, 0, -1 }, { "kPRV6", IS_STRING, 0, 0, 0, -1 },
    { "kPRV7", IS_STRING, 0, 0, 0, -1 }, { "kRIT3", IS_STRING, 0, 0, 0, -1 },
    { "kRIT4", IS_STRING, 0, 0, 0, -1 }, { "kRIT5", IS_STRING, 0, 0, 0, -1 },
    { "kRIT6", IS_STRING, 0, 0, 0, -1 }, { "kRIT7", IS_STRING, 0, 0, 0, -1 },
    { "kUP", IS_STRING, 0, 0, 0, -1 }, { "kUP3", IS_STRING, 0, 0, 0, -1 },
    { "kUP4", IS_STRING, 0, 0, 0, -1 }, { "kUP5", IS_STRING, 0, 0, 0, -1 },
    { "kUP6", IS_STRING, 0, 0, 0, -1 }, { "kUP7", IS_STRING, 0, 0, 0, -1 },
    { "ka2", IS_STRING, 0, 0, 0, -1 }, { "kb1", IS_STRING, 0, 0, 0, -1 },
    { "kb3", IS_STRING, 0, 0, 0, -1 }, { "kc2", IS_STRING, 0, 0, 0, -1 },
};

/* A user-defined capability that is known by a name; NULL if none is. */
EXPORTED const struct user_table_entry *_nc_find_user_entry(const char *name) {
    for (size_t i = 0; i < sizeof users / sizeof *users; i++)
        if (strcmp(users[i].name, name) == 0) return &users[i];
    return NULL;
}
