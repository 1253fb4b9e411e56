// Cosvigle for C++, from C++11 on. This header has a class and functions that make the calls of cosvigle.h. That
// header says what a caller must keep to. Nothing here is proved.
//
// From C++17 on the names optional and string_view below are those of std. Before C++17 they are small classes with
// some of the members of these. A symbol may be a const char * (not NULL) or a std::string as well.
//
// With exceptions a failed allocation throws std::bad_alloc, a symbol that needs more memory than the limit throws a
// cosvigle::limit_error, and any other fault throws a cosvigle::error. Without exceptions (-fno-exceptions) a call that
// fails returns no value, and demangler::status() says why. COSVIGLE_NO_ANSWER and COSVIGLE_NOT_UTF8 are no faults. The
// functions without a demangler have no status.
#ifndef COSVIGLE_HPP
#define COSVIGLE_HPP

#include "cosvigle.h"

#include <cstddef>
#include <cstdint>
#include <cstdlib>
#include <cstring>
#include <new>
#include <stdexcept>
#include <string>
#include <utility>

#if defined(_MSVC_LANG) ? _MSVC_LANG >= 201703L : __cplusplus >= 201703L
#define COSVIGLE_HAS_VIEWS 1
#include <optional>
#include <string_view>
#else
#define COSVIGLE_HAS_VIEWS 0
#include <ostream>
#endif

#if defined(__cpp_exceptions) || defined(__EXCEPTIONS)
#define COSVIGLE_HAS_EXCEPTIONS 1
#else
#define COSVIGLE_HAS_EXCEPTIONS 0
#endif

namespace cosvigle {

// The inline namespace depends on C++17 and on exceptions, so that objects built with different flags can be linked
// without ODR violations.
#if COSVIGLE_HAS_VIEWS && COSVIGLE_HAS_EXCEPTIONS
inline namespace views_and_exceptions {
#elif COSVIGLE_HAS_VIEWS
inline namespace views {
#elif COSVIGLE_HAS_EXCEPTIONS
inline namespace exceptions {
#else
inline namespace neither {
#endif

#if COSVIGLE_HAS_VIEWS
using std::nullopt;
using std::nullopt_t;
using std::optional;
using std::string_view;
#else
// Borrowed bytes.
class string_view {
  public:
    string_view() noexcept : at(""), len(0) {}
    string_view(const char *text) : at(text), len(std::strlen(text)) {}
    string_view(std::nullptr_t) = delete;
    string_view(const char *text, std::size_t length) noexcept : at(text), len(length) {}
    string_view(const std::string &text) noexcept : at(text.data()), len(text.size()) {}

    const char *data() const noexcept { return at; }
    std::size_t size() const noexcept { return len; }
    bool empty() const noexcept { return len == 0; }
    const char *begin() const noexcept { return at; }
    const char *end() const noexcept { return at + len; }
    explicit operator std::string() const { return std::string(at, len); }

    friend bool operator==(string_view left, string_view right) noexcept {
        return left.len == right.len && (left.len == 0 || std::memcmp(left.at, right.at, left.len) == 0);
    }
    friend bool operator!=(string_view left, string_view right) noexcept { return !(left == right); }
    friend std::ostream &operator<<(std::ostream &out, string_view text) {
        return out.write(text.at, static_cast<std::streamsize>(text.len));
    }

  private:
    const char *at;
    std::size_t len;
};

struct nullopt_t {};
static const nullopt_t nullopt = nullopt_t();

// A value, or none.
template <class T> class optional {
  public:
    optional() : is_there(false), it() {}
    optional(nullopt_t) : is_there(false), it() {}
    optional(T value) : is_there(true), it(std::move(value)) {}

    bool has_value() const noexcept { return is_there; }
    explicit operator bool() const noexcept { return is_there; }
    const T &operator*() const & { return it; }
    T &operator*() & { return it; }
    const T *operator->() const { return &it; }
    T value_or(T other) const { return is_there ? it : other; }

  private:
    bool is_there;
    T it;
};
#endif

// Thrown if a call returns a status that it shouldn't: one that is unknown or that the call never returns,
// COSVIGLE_BAD_CALL for a pointer that may not be NULL, or COSVIGLE_NO_ROOM although the memory is as large as the
// call has asked for.
class error : public std::runtime_error {
  public:
    explicit error(int status)
        : std::runtime_error("cosvigle: unexpected status " + std::to_string(status)), number(status) {}
    int status() const noexcept { return number; }

  protected:
    error(const char *text, int status) : std::runtime_error(text), number(status) {}

  private:
    int number;
};

// Thrown if a symbol needs more memory than options::memory_limit.
class limit_error : public error {
  public:
    limit_error() : error("cosvigle: the symbol needs more memory than the limit", COSVIGLE_OVER_LIMIT) {}
};

// Whose texts are printed: those of c++filt; the same with the abbreviations of std as they are, as in c++filt -i and
// in __cxa_demangle of GCC; or those of LLVM.
enum class style { gnu = COSVIGLE_GNU, gnu_short = COSVIGLE_GNU_SHORT, llvm = COSVIGLE_LLVM };

// What is read, and what is printed of it.
struct options {
    cosvigle::style style = cosvigle::style::gnu;
    bool parameters = true;       // the parameters of a function, with its return type and its qualifiers
    bool returns = true;          // the return type of a function, which only symbols of function templates have
    bool types = false;           // what has no symbol's prefix is read as a type: int for i
    std::size_t memory_limit = 0; // the bytes of memory that may be taken to read a symbol; 0 is the default
};

// What a symbol stands for.
enum class kind { function = COSVIGLE_FUNCTION, data = COSVIGLE_DATA, special = COSVIGLE_SPECIAL };

// The parts of a symbol. A part that the symbol doesn't have is empty, and so are all of a special name, such as that
// of a table, a thunk or a guard variable.
struct symbol_parts {
    cosvigle::kind kind = cosvigle::kind::special;
    bool has_qualifiers = false; // a member function with qualifiers, such as const or &&
    std::string base_name;       // bar of void Foo::bar<int>(int)
    std::string context;         // Foo
    std::string parameters;      // (int)
    std::string return_type;     // void
};

// Demangles symbol after symbol, and keeps its memory from one symbol to the next. It can be moved, also to another
// thread, but only one thread may use it at a time.
class demangler {
  public:
    demangler() noexcept = default;
    explicit demangler(const options &wanted) noexcept : chosen(wanted) {}
    demangler(demangler &&other) noexcept { swap(other); }
    demangler &operator=(demangler &&other) noexcept {
        swap(other);
        return *this;
    }
    demangler(const demangler &) = delete;
    demangler &operator=(const demangler &) = delete;
    ~demangler() {
        cosvigle_free(&handle);
        std::free(text);
    }

    // The declaration of a symbol, or none if the symbol isn't read or isn't UTF-8. It is valid until the next call.
    // The symbol may not be a text that this demangler returned. After an error the demangler can be used again.
    optional<string_view> demangle(string_view symbol) { return asked(printing(), symbol); }

    // A type alone, as typeid(x).name() has it. What has a symbol's prefix is read as a symbol. All else is as above.
    optional<string_view> demangle_type(string_view type) { return asked(printing() | COSVIGLE_TYPES, type); }

    // The parts of a symbol, or none if the symbol has no declaration. Here and in the next two a std::string that gets
    // no memory throws std::bad_alloc, and without exceptions ends the program.
    optional<symbol_parts> parts(string_view symbol) {
        symbol_parts made;
        if (!demangle(symbol)) return nullopt;
        made.kind = static_cast<kind>(cosvigle_kind(&handle));
        made.has_qualifiers = cosvigle_has_qualifiers(&handle);
        if (get(COSVIGLE_BASE_NAME, made.base_name) && get(COSVIGLE_CONTEXT, made.context) &&
            get(COSVIGLE_PARAMETERS, made.parameters) && get(COSVIGLE_RETURN_TYPE, made.return_type)) {
            return optional<symbol_parts>(std::move(made));
        }
        fault();
        return nullopt;
    }

    // Returns the text. Each symbol in its words is replaced by its declaration, as the program cosvigle does. With
    // strip one more underscore stands in front of a symbol. A symbol that needs more memory than the limit stays.
    // After a fault there is no value.
    optional<std::string> replace(string_view given, bool strip = false) {
        std::string made(given.size() + given.size() / 2, '\0');
        std::size_t needed = 0;
        if (!set_limit()) return nullopt;
        last = cosvigle_replace(&handle, printing(), strip, given.data(), given.size(), &made[0], made.size(), &needed);
        return finish(made, needed);
    }

    // Returns the lines. Each line that is a symbol is replaced by its declaration. All else is as above.
    optional<std::string> filter(string_view lines) {
        std::string made(lines.size() + lines.size() / 2, '\0');
        std::size_t needed = 0;
        if (!set_limit()) return nullopt;
        last = cosvigle_filter(&handle, printing(), lines.data(), lines.size(), &made[0], made.size(), &needed);
        return finish(made, needed);
    }

    // The status of the last call, as cosvigle.h has them. COSVIGLE_OK before the first.
    int status() const noexcept { return last; }

  private:
    options chosen;
    bool is_limited = false;
    cosvigle_handle handle = COSVIGLE_NONE;
    char *text = nullptr;
    std::size_t room = 0;
    int last = COSVIGLE_OK;

    void swap(demangler &other) noexcept {
        std::swap(chosen, other.chosen);
        std::swap(is_limited, other.is_limited);
        std::swap(handle, other.handle);
        std::swap(text, other.text);
        std::swap(room, other.room);
        std::swap(last, other.last);
    }

    // The options as a sum of flags.
    std::uint32_t printing() const noexcept {
        int flags = static_cast<int>(chosen.style);
        if (!chosen.parameters) flags |= COSVIGLE_NAME;
        else if (!chosen.returns) flags |= COSVIGLE_NO_RETURN;
        if (chosen.types) flags |= COSVIGLE_TYPES;
        return static_cast<std::uint32_t>(flags);
    }

    // Sets the limit of the handle, if there is one, before its first call.
    bool set_limit() {
        if (chosen.memory_limit == 0 || is_limited) return true;
        last = cosvigle_limit(&handle, chosen.memory_limit);
        is_limited = last == COSVIGLE_OK;
        if (!is_limited) fault();
        return is_limited;
    }

    // Asks for a symbol, and asks again with more memory if the text was longer than the capacity.
    optional<string_view> asked(std::uint32_t flags, string_view symbol) {
        std::size_t needed = 0;
        if (!set_limit()) return nullopt;
        if (text != nullptr || grow(256)) ask(flags, symbol, needed);
        if (last == COSVIGLE_NO_ROOM && needed > room && grow(needed)) ask(flags, symbol, needed);
        if (last == COSVIGLE_OK) return string_view(text, needed);
        if (last != COSVIGLE_NO_ANSWER && last != COSVIGLE_NOT_UTF8) fault();
        return nullopt;
    }

    void ask(std::uint32_t flags, string_view symbol, std::size_t &needed) noexcept {
        last = cosvigle_ask(&handle, flags, symbol.data(), symbol.size(), text, room, &needed);
    }

    // A part of the last symbol, which is empty if there is no such part.
    bool get(std::uint32_t part, std::string &into) {
        std::size_t needed = 0;
        last = cosvigle_part(&handle, part, printing(), text, room, &needed);
        if (last == COSVIGLE_NO_ROOM && needed > room && grow(needed)) {
            last = cosvigle_part(&handle, part, printing(), text, room, &needed);
        }
        if (last == COSVIGLE_NO_ANSWER) last = COSVIGLE_OK;
        if (last == COSVIGLE_OK) into.assign(text, needed);
        return last == COSVIGLE_OK;
    }

    bool grow(std::size_t wanted) noexcept {
        char *larger = static_cast<char *>(std::realloc(text, wanted));
        if (larger == nullptr) {
            last = COSVIGLE_NO_MEMORY;
            return false;
        }
        text = larger;
        room = wanted;
        return true;
    }

    // The text that a call made. The handle keeps it if it was longer than the capacity.
    optional<std::string> finish(std::string &made, std::size_t needed) {
        if (last == COSVIGLE_NO_ROOM && needed > made.size()) {
            made.resize(needed);
            last = cosvigle_take(&handle, &made[0], made.size(), &needed);
        }
        if (last == COSVIGLE_OK) {
            made.resize(needed);
            return optional<std::string>(std::move(made));
        }
        fault();
        return nullopt;
    }

    // Throws what the status says, where there are exceptions.
    void fault() const {
#if COSVIGLE_HAS_EXCEPTIONS
        if (last == COSVIGLE_NO_MEMORY) throw std::bad_alloc();
        if (last == COSVIGLE_OVER_LIMIT) throw limit_error();
        throw error(last);
#endif
    }
};

// The same for one symbol or text, as a string of its own.
inline optional<std::string> demangle(string_view symbol, const options &chosen = options()) {
    demangler once(chosen);
    const auto text = once.demangle(symbol);
    if (!text) return nullopt;
    return optional<std::string>(std::string(*text));
}

inline optional<std::string> demangle_type(string_view type, const options &chosen = options()) {
    demangler once(chosen);
    const auto text = once.demangle_type(type);
    if (!text) return nullopt;
    return optional<std::string>(std::string(*text));
}

inline optional<symbol_parts> parts(string_view symbol, const options &chosen = options()) {
    demangler once(chosen);
    return once.parts(symbol);
}

inline optional<std::string> replace(string_view text, const options &chosen = options(), bool strip = false) {
    demangler once(chosen);
    return once.replace(text, strip);
}

inline optional<std::string> filter(string_view lines, const options &chosen = options()) {
    demangler once(chosen);
    return once.filter(lines);
}

// The version of the library: the major version times 1,000,000, the minor times 1,000, and the patch, added up.
inline std::uint32_t version() noexcept { return cosvigle_version(); }

} // inline namespace
} // namespace cosvigle

#endif
