// A program that instantiates much of the standard library, for tests/comparison/comparison. It is compiled and never
// run. What a library doesn't have yet is left out, by its feature test macros.
#include <algorithm>
#include <any>
#include <array>
#include <bitset>
#include <chrono>
#include <concepts>
#include <condition_variable>
#include <deque>
#include <filesystem>
#include <fstream>
#include <functional>
#include <future>
#include <iostream>
#include <list>
#include <map>
#include <memory>
#include <mutex>
#include <numeric>
#include <optional>
#include <random>
#include <regex>
#include <set>
#include <shared_mutex>
#include <span>
#include <sstream>
#include <string>
#include <string_view>
#include <thread>
#include <tuple>
#include <unordered_map>
#include <unordered_set>
#include <variant>
#include <vector>
#include <version>
#if __has_include(<coroutine>) && defined(__cpp_impl_coroutine)
#include <coroutine>
#endif
#ifdef __cpp_lib_ranges
#include <ranges>
#endif
#ifdef __cpp_lib_format
#include <format>
#endif
#ifdef __cpp_lib_expected
#include <expected>
#endif
#ifdef __cpp_lib_mdspan
#include <mdspan>
#endif
#ifdef __cpp_lib_print
#include <print>
#endif

namespace app {

// Classes: bases, virtual bases, thunks, covariant results, inherited constructors.
struct Size {};
struct Shape {
    explicit Shape(std::string name) : name(std::move(name)) {}
    explicit Shape(int number) : name(std::to_string(number)) {}
    Shape(Size, std::string name, Size) : name(std::move(name)) {}
    virtual ~Shape() = default;
    virtual double area() const = 0;
    virtual Shape *copy() const = 0;
    std::string name;
};
struct Left : virtual Shape {
    using Shape::Shape;
    Left() : Shape(1) {}
    double area() const override { return 1; }
    Left *copy() const override { return nullptr; }
};
struct Right : virtual Shape {
    Right() : Shape(2) {}
    double area() const override { return 2; }
    Right *copy() const override { return nullptr; }
};
struct Both : Left, Right {
    Both() : Shape(3) {}
    double area() const override { return 3; }
    Both *copy() const override { return new Both(*this); }
};
struct Inherits : Left {
    using Left::Left;
    template <class T> Inherits(T const &, int) : Shape(4) {}
    Inherits *copy() const override { return new Inherits(*this); }
};
template <class T> struct Inner : T {
    using T::T;
};

// Operators, conversions, qualifiers of methods.
struct Number {
    long value = 0;
    Number &operator+=(Number const &b) & { return value += b.value, *this; }
    Number operator+=(Number const &b) && { return Number{value + b.value}; }
    friend Number operator+(Number a, Number const &b) { return a += b; }
    auto operator<=>(Number const &) const = default;
    bool operator==(Number const &) const = default;
    explicit operator bool() const noexcept { return value != 0; }
    template <class T> operator T() const volatile { return T(value); }
    template <class T> operator std::vector<T>() const { return {T(value)}; }
    Number operator()(int a, int b) const && { return Number{a * b}; }
    int &operator[](std::size_t) { static int one; return one; }
    Number *operator->() { return this; }
    long operator->*(int) const { return value; }
    void *operator new(std::size_t n) { return ::operator new(n); }
    void operator delete(void *p) { ::operator delete(p); }
};
constexpr Number operator""_n(unsigned long long value) { return Number{long(value)}; }
constexpr double operator""_half(long double value) { return double(value / 2); }

// Packs, references to packs, arrays, functions, members.
template <class... Args> int count(Args const &...) { return sizeof...(Args); }
template <class... Args> int count_forward(Args &&...args) { return count(args...); }
template <class... Args> int count_pointers(Args *..., Args **...) { return sizeof...(Args); }
template <class First, class... Rest> First first(First a, Rest const &...) { return a; }
template <class T, std::size_t N> std::size_t length(T (&)[N]) { return N; }
template <class T, std::size_t N> T (&same(T (&array)[N]))[N] { return array; }
template <class R, class... Args> R apply(R (*function)(Args...), Args... args) { return function(args...); }
template <class R, class C, class... Args> R member(C &c, R (C::*method)(Args...) const, Args... args) {
    return (c.*method)(args...);
}
template <class T, class C> T get(C &c, T C::*field) { return c.*field; }
template <class... Fs> struct Overloaded : Fs... {
    using Fs::operator()...;
};
template <class... Fs> Overloaded(Fs...) -> Overloaded<Fs...>;
template <template <class...> class C, class T> C<T> wrap(T t) { return C<T>{t}; }
template <auto... Values> int sum() { return (0 + ... + int(Values)); }
template <class T> auto twice(T t) -> decltype(t + t) { return t + t; }
template <class F, class... Args> auto call(F &&f, Args &&...args) -> decltype(f(std::forward<Args>(args)...)) {
    return f(std::forward<Args>(args)...);
}
template <class T> typename T::value_type front(T const &t) { return *t.begin(); }
template <class T, class = std::enable_if_t<(sizeof(T) > 2)>> T big(T t) { return t; }
int (*choose(bool which))(int) {
    return which ? +[](int a) { return a; } : +[](int a) { return -a; };
}
void quiet(void (*f)() noexcept) { f(); }
template <class T> void local(T t) {
    struct Local {
        T t;
        struct {
            int a;
            int get() const { return a; }
        } unnamed{};
        int get() const { return unnamed.get(); }
    };
    static Local kept{t};
    auto inner = [&](auto u) { return [=](auto v) { return u + v + kept.get(); }; };
    std::vector<Local> locals{kept};
    std::sort(locals.begin(), locals.end(), [](Local const &a, Local const &b) { return a.t < b.t; });
    inner(1)(2.0);
}

// Concepts, constrained and abbreviated templates, template parameters of lambdas, classes as template arguments.
template <class T> concept Addable = requires(T a, T b) { { a + b } -> std::convertible_to<T>; };
template <Addable T> T add(T a, T b) { return a + b; }
template <class T> requires Addable<T> && (sizeof(T) > 2) T add_big(T a, T b) { return a + b; }
auto add_auto(Addable auto a, auto... rest) { return (a + ... + rest); }
struct Point {
    int x, y;
    constexpr bool operator==(Point const &) const = default;
};
template <int N> struct Fixed {
    int value[N] = {};
};
#if __cpp_nontype_template_args >= 201911L
template <Point P> int norm() { return P.x * P.x + P.y * P.y; }
template <double D> double scaled() { return D * 2; }
#endif
template <int *P, int (*F)(int), int Point::*M, bool B, char C, unsigned long L> int arguments() {
    return *P + F(1) + B + C + int(L);
}
int global = 1;
int negate(int a) { return -a; }
thread_local std::string per_thread = "a";
enum class Colour : unsigned char { red, green };
template <Colour C> Colour colour() { return C; }
namespace {
struct Hidden {
    int a;
    template <class T> T get() const { return T(a); }
};
int hidden(Hidden const &h) { return h.get<int>() + int(h.get<double>()); }
} // namespace
inline namespace v2 {
struct [[gnu::abi_tag("tagged")]] Tagged {
    template <class T> explicit Tagged(T const &, int) {}
    [[gnu::abi_tag("a", "b")]] int get() const { return 1; }
};
[[gnu::abi_tag("old")]] Tagged make_tagged() { return Tagged(1, 2); }
} // namespace v2

#ifdef __cpp_explicit_this_parameter
struct Explicit {
    template <class Self> auto &&get(this Self &&self) { return self.a; }
    int plain(this Explicit const &self, int b) { return self.a + b; }
    int a;
};
int explicits() {
    Explicit e{1};
    return e.get() + Explicit{2}.get() + e.plain(1);
}
#endif

#ifdef __cpp_lib_coroutine
template <class T> struct Generator {
    struct promise_type {
        T value;
        Generator get_return_object() { return {std::coroutine_handle<promise_type>::from_promise(*this)}; }
        std::suspend_always initial_suspend() { return {}; }
        std::suspend_always final_suspend() noexcept { return {}; }
        std::suspend_always yield_value(T v) { return value = v, std::suspend_always{}; }
        void return_void() {}
        void unhandled_exception() { std::terminate(); }
    };
    std::coroutine_handle<promise_type> handle;
};
Generator<int> numbers(int n) {
    for (int i = 0; i < n; i++) co_yield i;
}
#endif

void containers(std::vector<std::string> const &words) {
    std::map<std::string, std::vector<std::function<int(int)>>> map;
    map["a"].push_back([n = words.size()](int a) { return a + int(n); });
    map["b"].emplace_back(negate);
    std::unordered_map<std::string, std::shared_ptr<Shape>> shapes{{"both", std::make_shared<Both>()}};
    shapes.emplace("left", std::make_unique<Left>());
    std::set<std::pair<int, std::string_view>, std::greater<>> set{{1, "a"}, {2, "b"}};
    std::unordered_set<long> unordered{1, 2, 3};
    std::multimap<Colour, Number> multi{{Colour::red, 1_n}};
    std::deque<std::unique_ptr<Number>> deque;
    deque.push_front(std::make_unique<Number>(2_n));
    std::list<std::any> list{1, std::string("a"), 2.5_half};
    list.sort([](auto const &a, auto const &b) { return a.type().before(b.type()); });
    std::array<std::optional<int>, 3> array{1, std::nullopt, 3};
    std::tuple<int, std::string, Point> tuple{1, "a", {1, 2}};
    std::apply([](auto const &...parts) { return count(parts...); }, tuple);
    std::variant<int, std::string, std::vector<Point>> variant = "text";
    std::visit(Overloaded{[](int a) { return a; }, [](std::string const &s) { return int(s.size()); },
                   [](auto const &v) { return int(v.size()); }},
        variant);
    auto sorted = words;
    std::sort(sorted.begin(), sorted.end(), [](auto const &a, auto const &b) { return a.size() < b.size(); });
    std::stable_sort(sorted.begin(), sorted.end());
    std::transform(sorted.begin(), sorted.end(), sorted.begin(), [](std::string s) { return s + "!"; });
    std::accumulate(sorted.begin(), sorted.end(), std::string(), [](std::string a, auto &b) { return a += b; });
    auto bound = std::bind(&Shape::area, std::placeholders::_1);
    auto bound_pointer = std::bind(choose, true);
    bound(*shapes["both"]);
    bound_pointer();
    std::mem_fn(&Shape::copy)(*shapes["left"]);
    std::span<std::string> span(sorted);
    std::bitset<70> bits(5);
    std::cout << front(words) << span.size() << bits << std::get<2>(tuple).x << array.size() << std::endl;
}

void threads() {
    std::mutex mutex;
    std::shared_mutex shared;
    std::condition_variable_any changed;
    std::once_flag once;
    std::call_once(once, [](int a, auto b) { return a + b; }, 1, 2.0);
    std::thread thread([&](std::string s, auto... rest) { return s.size() + sizeof...(rest); }, "a", 1, 'c');
    std::future<int> future = std::async(std::launch::async, [](int a) { return a; }, 1);
    std::packaged_task<Number(int)> task([](int a) { return Number{a}; });
    std::promise<std::unique_ptr<int>> promise;
    promise.set_value(std::make_unique<int>(future.get()));
    std::scoped_lock lock(mutex, shared);
    task(1);
    thread.join();
}

void texts() {
    std::regex regex("(a|b)*c+[[:alpha:]]\\1", std::regex::icase);
    std::smatch match;
    std::string text = "abc";
    if (std::regex_search(text, match, regex)) std::cout << match[0] << std::regex_replace(text, regex, "d");
    std::wstringstream wide;
    wide << L"a" << 1 << std::hex << 2.5;
    std::mt19937_64 engine(std::random_device{}());
    std::normal_distribution<> normal(0, 1);
    std::uniform_int_distribution<short> uniform(1, 6);
    std::cout << normal(engine) << uniform(engine);
    for (auto const &entry : std::filesystem::recursive_directory_iterator(".")) std::cout << entry.path();
    using namespace std::chrono_literals;
    std::cout << std::chrono::duration_cast<std::chrono::milliseconds>(std::chrono::steady_clock::now() + 1h - 5s -
        std::chrono::steady_clock::time_point()).count();
    std::u8string eight = u8"a";
    std::u16string sixteen = u"b";
    std::u32string thirty_two = U"c";
    std::cout << eight.size() + sixteen.size() + thirty_two.size();
}

void features(std::vector<std::string> const &words) {
#ifdef __cpp_lib_ranges
    auto view = words | std::views::filter([](auto const &s) { return !s.empty(); }) |
        std::views::transform([](std::string const &s) { return s.size(); }) | std::views::take(3) |
        std::views::drop(1);
    for (auto size : view) std::cout << size;
    for (auto part : std::string_view("a,b") | std::views::split(',')) std::cout << part.size();
    std::ranges::for_each(std::views::iota(1, 4) | std::views::reverse, [](int i) { std::cout << i; });
    auto copy = words;
    std::ranges::sort(copy, std::ranges::greater{}, &std::string::size);
#endif
#ifdef __cpp_lib_format
    std::cout << std::format("{:>10} {} {:.2f}", words.size(), words.front(), 2.5);
#endif
#ifdef __cpp_lib_expected
    std::expected<int, std::string> expected = std::unexpected("a");
    std::cout << expected.transform([](int a) { return a + 1; }).value_or(0);
#endif
#ifdef __cpp_lib_mdspan
    int cells[6]{};
    std::mdspan<int, std::extents<int, 2, std::dynamic_extent>> grid(cells, 3);
    std::cout << grid.extent(1);
#endif
#ifdef __cpp_lib_print
    std::println("{}", words.size());
#endif
#ifdef __cpp_lib_coroutine
    numbers(3).handle.resume();
#endif
}

void run(std::vector<std::string> const &words) {
    int numbers[3]{1, 2, 3};
    count(1, 'a', "text", words);
    count();
    count_forward(numbers, words, 1, Number{}, choose);
    count_pointers<int, char>(nullptr, nullptr, nullptr, nullptr);
    first(1, numbers, 'a', negate);
    length(same(numbers));
    apply(negate, 1);
    apply<int (*)(int), bool>(choose, true);
    Both both;
    member(both, &Both::area);
    Point point{1, 2};
    get(point, &Point::y);
    Inherits(std::string("a")), Inherits(Size(), "a", Size()), Inherits(words, 1), Inner<Inherits>(5);
    wrap<std::vector>(1), wrap<std::optional>('a');
    sum<1, 'a', true, 4ul, Colour::green>();
    twice(1), twice(std::string("a"));
    call([](int a, auto &&b) { return a + int(b); }, 1, 2.5), call(negate, 1);
    big(1), big(words);
    quiet([]() noexcept {});
    local(1), local(std::string("a"));
    add(1, 2), add_big(1.5, 2.5), add_auto(1, 2L, 3.0);
    [](auto a, auto... b) { return (a + ... + b); }(1, 2, 3);
    []<class T, int N>(T (&array)[N]) { return array[N - 1]; }(numbers);
    []<template <class...> class C, class... Ts>(C<Ts...> const &) { return sizeof...(Ts); }(words);
#if __cpp_nontype_template_args >= 201911L
    norm<Point{1, 2}>(), scaled<1.5>();
#endif
    arguments<&global, negate, &Point::x, true, 'c', 7>();
    colour<Colour::red>();
    hidden(Hidden{1});
    make_tagged().get();
    Number number = 1_n + 2_n;
    int as_int = number;
    std::vector<int> as_vector = number;
    std::move(number)(as_int, as_vector[0]);
    per_thread += "b";
    std::unique_ptr<int[], void (*)(int *)> owned(new int[3], [](int *p) { delete[] p; });
    Fixed<sizeof(int) * 2> fixed;
    fixed.value[0] = *owned.get();
}

} // namespace app

int main(int count, char **words) {
    std::vector<std::string> all(words, words + count);
    app::containers(all), app::threads(), app::texts(), app::features(all), app::run(all);
}
