/* The header for C++: what is sent to a pipe, values, and each kind of error. */
#include "ti.hpp"

#include <cstdio>
#include <cstring>
#include <unistd.h>
#include <utility>

static int checks, failures;

#define CHECK(fact) check(fact, #fact, __LINE__)

static void check(bool holds, const char *fact, int line) {
    checks++;
    if (!holds) failures++, std::printf("%d: not so: %s\n", line, fact);
}

/* The status of the exception that a call throws, or TI_OK. */
template <typename Call> static ti_status thrown(Call call) {
    try {
        call();
    } catch (const ti::error &error) {
        CHECK(std::strlen(error.what()) > 0);
        return error.status();
    }
    return TI_OK;
}

static std::string read_all(int file) {
    char bytes[4096];
    const ssize_t count = read(file, bytes, sizeof bytes);
    return std::string(bytes, count > 0 ? static_cast<std::size_t>(count) : 0);
}

static void sends(int to, int from) {
    ti::terminal out(to, "tmux-256color");
    CHECK(out.put(TI_CUP, 4, 9) && read_all(from) == "\033[5;10H");
    CHECK(out.put("Smulx", 3) && read_all(from) == "\033[4:3m");
    CHECK(out.put("Ms", { ti::parameter("c"), ti::parameter("aGk=") }) && read_all(from) == "\033]52;c;aGk=\a");
    CHECK(!out.put("nosuch") && !out.put(TI_AM));
    CHECK(out.put_text("a").put_text("b").put(TI_BEL) && read_all(from) == "ab\a");
    CHECK(thrown([&] { out.put("Ms", 1, 2); }) == TI_BAD_PARAMETER);
    const ti::key up = out.key_of("\033OAx"), begun = out.key_of("\033["), none = out.key_of("x");
    CHECK(up.name == "kcuu1" && up.size == 3 && !up.is_unfinished && begun.size == 0 && begun.is_unfinished);
    CHECK(none.name.empty() && none.size == 0 && !none.is_unfinished);
    CHECK(out.all().flag("am") && out.all().number("colors") == 256 && !out.all().number("nosuch"));
    CHECK(out.all().string("bel") == "\a" && !out.all().string("am") && out.size().width > 0);
    out.change({ ti::change("Smulx", "<%p1%d>"), ti::removal("bel") });
    CHECK(out.put("Smulx", 3) && read_all(from) == "<3>" && !out.put(TI_BEL));
    CHECK(thrown([&] { out.change({ ti::change("Smulx", "other"), ti::change("a b") }); }) == TI_BAD_CAPABILITY);
    CHECK(out.put("Smulx", 4) && read_all(from) == "<4>");
    out.change({ ti::change("bel", "\a") });
    ti::terminal moved = std::move(out);
    CHECK(moved.put(TI_BEL) && read_all(from) == "\a" && moved.path().find("tmux-256color") != std::string::npos);
}

static void entries() {
    ti::entry found("tmux-256color");
    ti::entry copy = ti::entry::of_bytes(found.bytes());
    ti::entry moved = std::move(copy);
    CHECK(moved.all().names() == found.all().names() && moved.all().first_name() == "tmux-256color");
    CHECK(!moved.all().long_name().empty() && moved.path().empty() && !found.path().empty());
    const ti::entry changed = found.changed({ ti::change("RGB"), ti::change("colors", 1 << 24), ti::change("Tc", "no") });
    CHECK(changed.all().flag("RGB") && changed.all().number("colors") == 1 << 24 && changed.all().string("Tc") == "no");
    CHECK(ti::entry::of_bytes(changed.bytes()).all().number("cols") == 80 && !found.all().flag("RGB"));
    CHECK(thrown([&] { found.changed({ ti::change("cup", 1) }); }) == TI_BAD_VALUE);
    CHECK(thrown([] { ti::entry("no-such"); }) == TI_NO_TERMINAL && thrown([] { ti::entry("a/b"); }) == TI_PATH_NAME);
    CHECK(thrown([] { ti::entry::of_bytes("no entry"); }) == TI_SHORT);
    CHECK(thrown([] { ti::terminal(1, ""); }) == TI_EMPTY_NAME);
}

int main() {
    int ends[2];
    if (pipe(ends) != 0) return 1;
    sends(ends[1], ends[0]);
    entries();
    std::printf("%d checks, %d failures\n", checks, failures);
    return failures != 0;
}
