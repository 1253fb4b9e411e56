// The declarations of the symbols in wrong-types.tsv, for which other demanglers print wrong types. The text of each
// symbol follows from its declaration. Each assertion says what the types are.
#include <type_traits>
#include <vector>

// A function that is passed a closure of another function template.
template <class T> void take(T &) {}
template <class T> void run(T &t) {
    auto closure = [&t] { return t; };
    static_assert(std::is_same_v<decltype(take<decltype(closure)>), void(decltype(closure) &)>);
    take(closure);
}

// A function that is passed pointers to a local class of another function template.
template <class T> void exchange(T *, T *) {}
template <class T> void sort(T) {
    struct Local {};
    static_assert(std::is_same_v<decltype(exchange<Local>), void(Local *, Local *)>);
    Local a, b;
    exchange(&a, &b);
}

// A function template with a template as its argument.
template <template <class...> class C, class T> C<T> wrap(T value) { return C<T>{value}; }
static_assert(std::is_same_v<decltype(wrap<std::vector, int>), std::vector<int>(int)>);

// A generic lambda of a function template. Its parameter isn't that of the function.
template <class T> void apply(T) {
    auto closure = [](auto value) { return value; };
    static_assert(std::is_same_v<decltype(&decltype(closure)::template operator()<double>),
        double (decltype(closure)::*)(double) const>);
    closure(2.5);
}

// A lambda with a parameter of a local class, which belongs to a function with arguments.
template <class T> void each(T) {
    struct Local {};
    auto closure = [](Local) {};
    static_assert(std::is_same_v<decltype(&decltype(closure)::operator()), void (decltype(closure)::*)(Local) const>);
    closure(Local());
}

// A constructor template with an ABI tag, such as libc++'s.
struct Path {
    template <class T> [[gnu::abi_tag("v2")]] Path(T const &, int) {}
};
static_assert(std::is_constructible_v<Path, char const (&)[2], int> && !std::is_constructible_v<Path, int>);

// An empty pack in front of another argument.
template <int... None, class... T> int hash(T const &...) { return sizeof...(None); }
static_assert(std::is_same_v<decltype(hash<>(1L)), int>);

void use() {
    int number = 1;
    run(number);
    sort(1);
    wrap<std::vector>(1);
    apply(1);
    each(1);
    Path("a", 1);
    hash(1L);
}
