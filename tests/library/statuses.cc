// What the calls of cosvigle.hpp do with the status that each call of the library returns, the first argument
// (statuses.c). The status of the program is 0 if each does what it must.
#include <cosvigle.hpp>

#include <cstdlib>

static int wrong;

// A call has no value, and says why.
template <class Call> static void fails(const cosvigle::demangler &value, int status, Call call) {
#if COSVIGLE_HAS_EXCEPTIONS
    bool is_right = false;
    try {
        is_right = !call() && (status == COSVIGLE_NO_ANSWER || status == COSVIGLE_NOT_UTF8);
    } catch (const std::bad_alloc &) {
        is_right = status == COSVIGLE_NO_MEMORY;
    } catch (const cosvigle::limit_error &error) {
        is_right = error.status() == status && status == COSVIGLE_OVER_LIMIT;
    } catch (const cosvigle::error &error) {
        is_right = error.status() == status && status != COSVIGLE_NO_MEMORY && status != COSVIGLE_OVER_LIMIT;
    }
    wrong += !is_right || value.status() != status;
#else
    wrong += call() || value.status() != status;
#endif
}

int main(int count, char **words) {
    if (count != 2) return 2;
    const int status = std::atoi(words[1]);
    cosvigle::demangler value;
    fails(value, status, [&] { return value.demangle("_Z3foo").has_value(); });
    fails(value, status, [&] { return value.demangle_type("i").has_value(); });
    fails(value, status, [&] { return value.parts("_Z3foo").has_value(); });
    // The calls over texts know no status that says that there is nothing.
    if (status != COSVIGLE_NO_ANSWER && status != COSVIGLE_NOT_UTF8) {
        fails(value, status, [&] { return value.replace("_Z3foo").has_value(); });
        fails(value, status, [&] { return value.filter("_Z3foo").has_value(); });
        // Where the limit can't be set, nothing is asked.
        cosvigle::options options;
        options.memory_limit = 1000000;
        cosvigle::demangler limited(options);
        fails(limited, status, [&] { return limited.demangle("_Z3foo").has_value(); });
        fails(limited, status, [&] { return limited.filter("_Z3foo").has_value(); });
    }
    return wrong != 0;
}
