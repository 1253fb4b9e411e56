/* The library libcosvigle-cxxabi: __cxa_demangle of the ABI, by cosvigle. A program that links it, or for which
 * LD_PRELOAD names it, demangles by cosvigle in place of its library for C++. The library for C is in it. */
#include <cosvigle.h>

char *__cxa_demangle(const char *mangled, char *buffer, size_t *length, int *status);

char *__cxa_demangle(const char *mangled, char *buffer, size_t *length, int *status) {
    return cosvigle_cxa_demangle(mangled, buffer, length, status);
}
