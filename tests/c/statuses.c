/* A library in the place of libcosvigle, whose calls return the status that the environment has as STATUS. With
 * COSVIGLE_NO_ROOM they want one byte more than the capacity that they are given. It shows what the wrappers do with a
 * status that they don't know, and with one that doesn't end. */
#include <stdbool.h>
#include <stddef.h>
#include <stdint.h>
#include <stdlib.h>

static int status(size_t room, size_t *needed) {
    const char *number = getenv("STATUS");
    const int it = number == NULL ? 9 : atoi(number);
    *needed = it == 3 ? room + 1 : 0;
    return it;
}

int cosvigle_ask(void *handle, uint32_t printing, const char *symbol, size_t len, char *out, size_t room,
                 size_t *needed) {
    (void)handle, (void)printing, (void)symbol, (void)len, (void)out;
    return status(room, needed);
}

int cosvigle_limit(void *handle, size_t bytes) {
    size_t needed;
    (void)handle, (void)bytes;
    return status(0, &needed);
}

int cosvigle_part(void *handle, uint32_t part, uint32_t printing, char *out, size_t room, size_t *needed) {
    (void)part;
    return cosvigle_ask(handle, printing, NULL, 0, out, room, needed);
}

int cosvigle_kind(void *handle) {
    (void)handle;
    return 0;
}

bool cosvigle_has_qualifiers(void *handle) {
    (void)handle;
    return false;
}

int cosvigle_filter(void *handle, uint32_t printing, const char *lines, size_t len, char *out, size_t room,
                    size_t *needed) {
    return cosvigle_ask(handle, printing, lines, len, out, room, needed);
}

int cosvigle_replace(void *handle, uint32_t printing, bool strip, const char *text, size_t len, char *out, size_t room,
                     size_t *needed) {
    (void)strip;
    return cosvigle_ask(handle, printing, text, len, out, room, needed);
}

int cosvigle_take(void *handle, char *out, size_t room, size_t *needed) {
    return cosvigle_ask(handle, 0, NULL, 0, out, room, needed);
}

int cosvigle_new(void *handle) { return cosvigle_limit(handle, 0); }

void cosvigle_free(void *handle) { (void)handle; }

uint32_t cosvigle_version(void) { return 0; }
