#include <cstdlib>
#include <execinfo.h>
#include <string>
#include <vector>

namespace shop {
template <class T>
struct Cart {
    std::vector<T> all;
    __attribute__((noinline)) void add(const T &it) { all.push_back(it); }
    long count() const;
};

template <class T>
long Cart<T>::count() const {
    void *frames[64];
    backtrace_symbols_fd(frames, backtrace(frames, 64), 1);
    return static_cast<long>(all.size());
}

template struct Cart<int>;
template struct Cart<std::vector<std::string>>;

long checkout(Cart<std::vector<std::string>> &cart) {
    cart.add({"a", "b"});
    return cart.count();
}
} // namespace shop
