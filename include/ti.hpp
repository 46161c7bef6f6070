/*
 * libti for C++17: an entry and a terminal that free themselves, and errors as exceptions. It is
 * one header over ti.h. Names are those that ti_string_named takes.
 *
 *     ti::terminal out(STDOUT_FILENO);
 *     if (!out.put(TI_SETAF, 2)) out.put_text("no colors");
 *     out.put_text("green").put(TI_SGR0);
 *     out.change({ ti::change("Smulx", "\033[4:%p1%dm"), ti::removal("smxx") });
 */
#ifndef TI_HPP
#define TI_HPP

#include "ti.h"
#include "ti_names.h"

#include <cstdlib>
#include <initializer_list>
#include <memory>
#include <optional>
#include <stdexcept>
#include <string>
#include <string_view>

namespace ti {

/* A call that failed, other than by an absent capability. */
class error : public std::runtime_error {
public:
    explicit error(ti_status status, const std::string &what = std::string())
        : std::runtime_error(sentence(status, what)), status_(status) {}

    ti_status status() const noexcept { return status_; }

private:
    static std::string sentence(ti_status status, const std::string &what) {
        return what.empty() ? ti_strerror(status) : what + ": " + ti_strerror(status);
    }

    ti_status status_;
};

inline std::string_view view_of(ti_text text) {
    return { reinterpret_cast<const char *>(text.bytes), text.size };
}

inline const uint8_t *bytes_of(std::string_view text) {
    return reinterpret_cast<const uint8_t *>(text.data());
}

/* The values of an entry of the library, which has to be there as long. */
class values {
public:
    explicit values(const ti_entry *entry) noexcept : entry_(entry) {}

    bool flag(const char *name) const { return ti_flag_named(entry_, name) == 1; }

    std::optional<int64_t> number(const char *name) const {
        const int64_t found = ti_number_named(entry_, name);
        return found < 0 ? std::nullopt : std::optional<int64_t>(found);
    }

    std::optional<std::string_view> string(const char *name) const {
        ti_text text = TI_NOTHING;
        if (ti_string_named(entry_, name, &text) != 1) return std::nullopt;
        return view_of(text);
    }

    std::string_view names() const { return text(ti_names); }
    std::string_view first_name() const { return text(ti_first_name); }
    std::string_view long_name() const { return text(ti_long_name); }

private:
    std::string_view text(void (*store)(const ti_entry *, ti_text *)) const {
        ti_text found = TI_NOTHING;
        store(entry_, &found);
        return view_of(found);
    }

    const ti_entry *entry_;
};

/* A change of an entry, which points to its arguments: a boolean, a number or a string is given. */
inline ti_change change(const char *name) { return ti_flag_change(name); }
inline ti_change change(const char *name, uint32_t number) {
    return ti_number_change(name, number);
}
inline ti_change change(const char *name, std::string_view text) {
    return ti_text_change(name, bytes_of(text), text.size());
}

/* A change that takes away what a capability has. */
inline ti_change removal(const char *name) { return ti_absent_change(name); }

/* An entry that frees itself. */
class entry {
public:
    /* The entry of a name, or of TERM. */
    explicit entry(const char *name = nullptr) : path_() {
        ti_entry *found = nullptr;
        char *path = nullptr;
        const ti_status status = ti_open_path(name, &found, &path);
        const std::unique_ptr<char, void (*)(void *)> where(path, std::free);
        if (status != TI_OK) throw error(status, path ? path : name ? name : "");
        held_.reset(found);
        path_ = path;
    }

    /* The entry that bytes are, of which it has a copy. */
    static entry of_bytes(std::string_view bytes) {
        ti_entry *found = nullptr;
        const ti_status status = ti_entry_new(bytes_of(bytes), bytes.size(), &found);
        if (status != TI_OK) throw error(status);
        return entry(found);
    }

    /* The entry with changes; the last one of a name decides. */
    entry changed(const ti_change *changes, std::size_t count) const {
        ti_entry *made = nullptr;
        const ti_outcome outcome = ti_entry_change(held_.get(), changes, count, &made);
        if (outcome.status != TI_OK) throw error(outcome.status);
        return entry(made);
    }
    entry changed(std::initializer_list<ti_change> changes) const {
        return changed(changes.begin(), changes.size());
    }

    /* The bytes of the compiled entry. */
    std::string_view bytes() const {
        ti_text found = TI_NOTHING;
        ti_entry_bytes(held_.get(), &found);
        return view_of(found);
    }

    values all() const noexcept { return values(held_.get()); }
    const ti_entry *get() const noexcept { return held_.get(); }
    const std::string &path() const noexcept { return path_; }

private:
    explicit entry(ti_entry *found) : held_(found, ti_entry_free), path_() {}

    std::unique_ptr<ti_entry, void (*)(ti_entry *)> held_{ nullptr, ti_entry_free };
    std::string path_;
};

/* What bytes from a terminal begin with: the longest key, and how many of them it is, or 0; and
   whether they may be the front of a longer key, so that a program waits for more. */
struct key {
    std::string_view name;
    std::size_t size;
    bool is_unfinished;
};

/* A terminal that closes itself. Its file stays open. */
class terminal {
public:
    /* The terminal of a name, or of TERM, to which a file leads. */
    explicit terminal(int file, const char *name = nullptr) {
        ti_terminal *opened = nullptr;
        const ti_status status = ti_terminal_open(name, file, &opened);
        if (status != TI_OK) throw error(status, name ? name : "");
        held_.reset(opened);
    }

    /* Sends a string. Returns false if the terminal does not have it. */
    template <typename... Numbers> bool put(ti_place place, Numbers... numbers) {
        return is_sent(ti_put(held_.get(), place, numbers...));
    }
    template <typename... Numbers> bool put(const char *name, Numbers... numbers) {
        return is_sent(ti_put_named(held_.get(), name, numbers...));
    }

    /* Sends a string by a name, with parameters that may be strings. */
    bool put(const char *name, std::initializer_list<ti_parameter> params) {
        return is_sent(ti_put_named_values(held_.get(), name, params.begin(), params.size()));
    }

    terminal &put_text(std::string_view text) {
        is_sent(ti_put_text(held_.get(), bytes_of(text), text.size()));
        return *this;
    }

    /* Changes its entry, for what is sent later; values of all() from before are no longer valid. */
    terminal &change(std::initializer_list<ti_change> changes) {
        is_sent(ti_terminal_change(held_.get(), changes.begin(), changes.size()));
        return *this;
    }

    /* The key that bytes from the terminal begin with. */
    key key_of(std::string_view bytes) const {
        ti_text name = TI_NOTHING;
        const ti_outcome found = ti_terminal_key(held_.get(), bytes_of(bytes), bytes.size(), &name);
        return { view_of(name), found.size, found.status == TI_UNFINISHED };
    }

    ti_size size() const { return ti_terminal_size(held_.get()); }
    values all() const { return values(ti_terminal_entry(held_.get())); }
    std::string path() const { return ti_terminal_path(held_.get()); }
    ti_terminal *get() const noexcept { return held_.get(); }

private:
    static bool is_sent(ti_outcome outcome) {
        if (outcome.status == TI_OK) return true;
        if (outcome.status == TI_ABSENT) return false;
        throw error(outcome.status);
    }

    std::unique_ptr<ti_terminal, void (*)(ti_terminal *)> held_{ nullptr, ti_terminal_close };
};

/* A parameter of a put with a list of them. */
inline ti_parameter parameter(int32_t number) { return ti_number_given(number); }
inline ti_parameter parameter(std::string_view text) {
    return ti_text_given(bytes_of(text), text.size());
}

} // namespace ti

#endif
