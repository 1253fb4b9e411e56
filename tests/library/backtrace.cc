// A program that demangles by abi::__cxa_demangle, as programs in C++ do: the names of types at run time, and the
// functions of its own backtrace. Its lines don't depend on the addresses. `own` as an argument: whether the library
// that is linked first is the one of this repository is printed too.
#include <cxxabi.h>
#include <dlfcn.h>
#include <execinfo.h>

#include <cstdio>
#include <cstdlib>
#include <cstring>
#include <map>
#include <string>
#include <typeinfo>
#include <vector>

// The declaration that the ABI's function returns, or the text itself.
static std::string of(const char *text) {
    int status = 99;
    char *made = abi::__cxa_demangle(text, nullptr, nullptr, &status);
    std::string found(made == nullptr ? text : made);
    std::free(made);
    return found + (status == 0 ? "" : " (status " + std::to_string(status) + ")");
}

namespace shop {
template <class T> struct Cart {
    virtual ~Cart() {}
    // The functions of the backtrace from here up to main.
    __attribute__((noinline)) void trace(const std::vector<T> &, int depth) const {
        if (depth > 0) return trace({}, depth - 1), void();
        void *places[64];
        const int count = backtrace(places, 64);
        for (int at = 0; at < count; at++) {
            Dl_info info;
            if (dladdr(places[at], &info) == 0 || info.dli_sname == nullptr) continue;
            std::printf("at %s\n", of(info.dli_sname).c_str());
            if (std::strcmp(info.dli_sname, "main") == 0) break;
        }
    }
};
} // namespace shop

int main(int count, char **) {
    shop::Cart<std::map<std::string, int>> cart;
    cart.trace({}, 2);
    const std::type_info *types[] = {&typeid(int),  &typeid(cart),        &typeid(&cart),
                                     &typeid(main), &typeid(std::string), &typeid(int shop::Cart<char>::*)};
    for (const std::type_info *type : types) std::printf("type %s\n", of(type->name()).c_str());
    for (const char *text : {"_Z3fooi", "malloc", "", "_Z"}) std::printf("symbol %s\n", of(text).c_str());
    Dl_info info;
    if (count > 1 && dladdr(reinterpret_cast<void *>(&abi::__cxa_demangle), &info) != 0) {
        std::printf("by %s\n", std::strstr(info.dli_fname, "cosvigle") ? "cosvigle" : "another library");
    }
    return 0;
}
