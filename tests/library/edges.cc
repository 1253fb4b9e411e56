// What cosvigle.hpp promises at the edges, with exceptions and without: kinds of symbols, moves, bytes that aren't
// UTF-8, out of memory, and statuses. Prints each promise that doesn't hold, then 'N passed, M failed'. If the
// environment names an allocation that fails (refuse.c), a call may fail once, and is made again. The status is then
// 2 if one has failed, 0 if none has, and 1 if a promise doesn't hold. Without exceptions a std::string ends the
// program there, so only what makes none is then called.
#include <cosvigle.hpp>

#include <cstdio>
#include <utility>

// How many blocks of memory aren't freed, where refuse.c counts them.
extern "C" long refuse_live(void) __attribute__((weak));

static int passed, failed, thrown;

static void holds(bool is, const char *what) {
    if (is) passed++;
    else failed++, std::printf("edges: not so: %s\n", what);
}

// A call that may be out of memory, and the same call again if it was. Without exceptions the value tells whether it
// was.
template <class Call> static auto again(const cosvigle::demangler *value, Call call) -> decltype(call()) {
#if COSVIGLE_HAS_EXCEPTIONS
    (void)value;
    try {
        return call();
    } catch (const std::bad_alloc &) {
        thrown++;
        return call();
    }
#else
    auto found = call();
    if (value == nullptr || value->status() != COSVIGLE_NO_MEMORY) return found;
    thrown++;
    return call();
#endif
}

// What the value answered, and its status: so, or not at all where the answer is null.
static void answered(const cosvigle::demangler &value, cosvigle::optional<cosvigle::string_view> found,
                     const char *answer) {
    holds(found.has_value() == (answer != nullptr), "whether there is an answer");
    holds(static_cast<bool>(found) == found.has_value(), "the same as a condition");
    if (answer != nullptr) holds(found.value_or("") == answer && value.status() == COSVIGLE_OK, answer);
    else holds(value.status() == COSVIGLE_NO_ANSWER || value.status() == COSVIGLE_NOT_UTF8, "the status without one");
}

static void answers(cosvigle::demangler &value, cosvigle::string_view symbol, const char *answer) {
    answered(value, again(&value, [&] { return value.demangle(symbol); }), answer);
}

static void types(cosvigle::demangler &value, cosvigle::string_view type, const char *text) {
    answered(value, again(&value, [&] { return value.demangle_type(type); }), text);
}

// What needs no std::string.
static void try_views() {
    cosvigle::demangler first;
    answers(first, "_ZN3Foo3barEv", "Foo::bar()");
    answers(first, "malloc", nullptr);
    answers(first, "_Z1\xff", nullptr);
    holds(first.status() == COSVIGLE_NOT_UTF8, "the status of what isn't UTF-8");
    answers(first, cosvigle::string_view(), nullptr);
    answers(first, cosvigle::string_view("_Z3foo\0bar", 10), nullptr);
    answers(first, "_Z3fooi.cold", "foo(int) [clone .cold]");
    answers(first, "_Z1fIJicEEvDpRKT_", "void f<int, char>(int const&, char const&)");
    answers(first, "_Z3foo_", nullptr);

    // Types, and what isn't one.
    types(first, "PFivE", "int (*)()");
    types(first, "_Z3foov", "foo()");
    types(first, "_Z3foo_", nullptr);
    types(first, "", nullptr);
    answers(first, "PFivE", nullptr);

    // A moved value answers on, the one that it was moved from too, and one that is assigned keeps nothing of its
    // own.
    cosvigle::demangler second(std::move(first));
    answers(second, "_Z3bar", "bar");
    answers(first, "_Z4quux", "quux");
    first = std::move(second);
    answers(first, "_Z3foo", "foo");
    answers(second, "_Z3bar", "bar");
    cosvigle::demangler &same = first;
    first = std::move(same);
    answers(first, "_ZN3Foo3barEv", "Foo::bar()");

    // An answer that is longer than the room that a value begins with.
    static char symbol[1007];
    static char name[1001];
    std::memcpy(symbol, "_Z1000", 6);
    std::memset(symbol + 6, 'a', 1000);
    std::memset(name, 'a', 1000);
    answers(second, symbol, name);
    answers(first, symbol, name);
}

static void is_over_limit(cosvigle::demangler &value, cosvigle::string_view symbol) {
    bool is_right = false;
#if COSVIGLE_HAS_EXCEPTIONS
    try {
        again(&value, [&] { return value.demangle(symbol); });
    } catch (const cosvigle::limit_error &error) {
        is_right = error.status() == COSVIGLE_OVER_LIMIT;
    }
#else
    is_right = !again(&value, [&] { return value.demangle(symbol); });
#endif
    holds(is_right && value.status() == COSVIGLE_OVER_LIMIT, "a symbol over the limit");
}

// Each option. They go with a value that is moved.
static void try_options() {
    static const char symbol[] = "_ZN1AIiE1fIiEEvSs";
    cosvigle::options options;
    options.style = cosvigle::style::gnu_short;
    cosvigle::demangler shorter(options);
    answers(shorter, symbol, "void A<int>::f<int>(std::string)");
    options.style = cosvigle::style::llvm;
    options.returns = false;
    cosvigle::demangler llvm(options);
    answers(llvm, "_Z1fISt6vectorIS0_IiEEEvv", "f<std::vector<std::vector<int>>>()");
    cosvigle::demangler moved(std::move(llvm));
    answers(moved, symbol, "A<int>::f<int>(std::string)");
    options.parameters = false;
    cosvigle::demangler names(options);
    answers(names, symbol, "A<int>::f<int>");
    options = cosvigle::options();
    options.types = true;
    cosvigle::demangler types(options);
    answers(types, "i", "int");

    // A limit that is too low, and one that isn't. It is no limit for what isn't read at all.
    options.memory_limit = 1;
    cosvigle::demangler none(options);
    is_over_limit(none, "_Z3fooi");
    is_over_limit(none, "i");
    answers(none, "1", nullptr);
    options.memory_limit = 1000000;
    cosvigle::demangler enough(options);
    answers(enough, "_Z3fooi", "foo(int)");
    enough = std::move(none);
    is_over_limit(enough, "_Z3fooi");
}

static void is(const cosvigle::optional<std::string> &made, const char *text) {
    holds(made.has_value() && *made == text, text);
}

static void are(const cosvigle::optional<cosvigle::symbol_parts> &made, const cosvigle::symbol_parts &parts) {
    holds(made.has_value() && made->kind == parts.kind && made->has_qualifiers == parts.has_qualifiers &&
              made->base_name == parts.base_name && made->context == parts.context &&
              made->parameters == parts.parameters && made->return_type == parts.return_type,
          parts.base_name.c_str());
}

static void try_parts() {
    cosvigle::demangler value;
    cosvigle::symbol_parts parts;
    are(again(&value, [&] { return value.parts("_ZTV1A"); }), parts);
    parts.kind = cosvigle::kind::function;
    parts.has_qualifiers = true;
    parts.base_name = "bar";
    parts.context = "Foo";
    parts.parameters = "(int)";
    parts.return_type = "void";
    are(again(&value, [&] { return value.parts("_ZNK3Foo3barIiEEvT_"); }), parts);
    holds(value.status() == COSVIGLE_OK, "the status of parts");
    are(again(&value, [&] { return cosvigle::parts("_ZNK3Foo3barIiEEvT_"); }), parts);
    parts = cosvigle::symbol_parts();
    parts.kind = cosvigle::kind::data;
    parts.base_name = std::string(1000, 'a');
    are(again(&value, [&] { return value.parts("_Z1000" + parts.base_name); }), parts);
    holds(!again(&value, [&] { return value.parts("malloc"); }), "no parts");
    holds(value.status() == COSVIGLE_NO_ANSWER, "their status");
}

static void try_strings() {
    cosvigle::demangler value;
    cosvigle::options llvm;
    llvm.style = cosvigle::style::llvm;
    const std::string symbol("_ZNSt6vectorIS_IS_IiEEE4sizeEv");
    const std::string name("std::vector<std::vector<std::vector<int> > >::size()");
    const std::string lines = symbol + "\nx " + symbol + "\n", text = "(" + symbol + "+0x1) \xff";
    answers(value, symbol, name.c_str());
    is(again(&value, [&] { return cosvigle::demangle(symbol); }), name.c_str());
    is(again(&value, [&] { return cosvigle::demangle("_Z3foo"); }), "foo");
    is(again(&value, [&] { return cosvigle::demangle(symbol, llvm); }),
       "std::vector<std::vector<std::vector<int>>>::size()");
    holds(!again(&value, [] { return cosvigle::demangle("malloc"); }), "no owned answer");
    is(again(&value, [&] { return cosvigle::demangle_type("PKc"); }), "char const*");
    holds(!again(&value, [] { return cosvigle::demangle_type("Q"); }), "no owned type");
    const std::string own(*again(&value, [&] { return value.demangle(symbol); }));
    holds(own == name, "a string of a lent answer");
    is(again(&value, [&] { return value.replace(text); }), ("(" + name + "+0x1) \xff").c_str());
    is(again(&value, [&] { return value.replace("x___Z3foo"); }), "x___Z3foo");
    is(again(&value, [&] { return value.replace("___Z3foo", true); }), "foo");
    is(again(&value, [&] { return value.replace(""); }), "");
    is(again(&value, [&] { return value.filter(lines); }), (name + "\nx " + symbol + "\n").c_str());
    is(again(&value, [&] { return cosvigle::replace(text); }), ("(" + name + "+0x1) \xff").c_str());
    is(again(&value, [&] { return cosvigle::replace("(_Z3foov)", llvm, true); }), "(_Z3foov)");
    is(again(&value, [&] { return cosvigle::filter(lines); }), (name + "\nx " + symbol + "\n").c_str());
    llvm.memory_limit = 1;
    is(again(&value, [&] { return cosvigle::replace(text, llvm); }), text.c_str());
    is(again(&value, [&] { return cosvigle::filter(lines, llvm); }), lines.c_str());
    answers(value, symbol, name.c_str());
    holds(cosvigle::version() == COSVIGLE_VERSION, "the version");
}

int main() {
    // The standard output has a buffer here, so that it allocates none: each allocation that fails is that of a value.
    static char room[BUFSIZ];
    std::setvbuf(stdout, room, _IOFBF, sizeof room);
    const long live = refuse_live ? refuse_live() : 0;
    try_views();
    try_options();
#if COSVIGLE_HAS_EXCEPTIONS
    // The strings that these functions themselves make may be out of memory too.
    again(nullptr, [] { return try_strings(), try_parts(), 0; });
#else
    if (!std::getenv("REFUSE")) try_strings(), try_parts();
#endif
    holds(!refuse_live || refuse_live() == live, "all memory is freed");
    std::printf("%d passed, %d failed\n", passed, failed);
    return failed != 0 ? 1 : thrown != 0 ? 2 : 0;
}
