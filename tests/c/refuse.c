/* Stands in front of malloc, calloc and realloc of the C library, where LD_PRELOAD names it. One allocation fails: the
   one whose number is REFUSE, counted from 1 at the start of main, or where REFUSE_LATER is set at the program's call of
   `refuse_begin`. Then one line is written to descriptor 3. All others go on to the C library. `refuse_live` counts the
   blocks that aren't freed, `refuse_made` the allocations. Nothing of the product links this. */
#include <errno.h>
#include <stdlib.h>
#include <unistd.h>

extern void *__libc_malloc(size_t size);
extern void *__libc_calloc(size_t count, size_t size);
extern void *__libc_realloc(void *old, size_t size);
extern void __libc_free(void *old);

/* How many allocations are left up to the one that fails; 0 before main, and after that one. */
static long left;

void refuse_begin(void) {
    const char *number = getenv("REFUSE");
    left = number ? atol(number) : 0;
}

__attribute__((constructor)) static void begin(void) {
    if (!getenv("REFUSE_LATER")) refuse_begin();
}

/* From now on the allocation with this number, counted from 1, fails, or none where it is 0. Returns how many were
   left up to the one that was to fail, or 0. */
long refuse_at(long number) {
    long old = left;
    left = number;
    return old;
}

/* How many allocations were made. */
static long allocations;

long refuse_made(void) { return allocations; }

static int fails(void) {
    static const char line[] = "refused\n";
    allocations++;
    if (left == 0 || --left > 0) return 0;
    if (write(3, line, sizeof line - 1) < 0) abort();
    errno = ENOMEM;
    return 1;
}

/* How many blocks aren't freed. */
static long live;

long refuse_live(void) { return live; }

static void *counted(void *made) {
    if (made != 0) live++;
    return made;
}

void *malloc(size_t size) { return fails() ? 0 : counted(__libc_malloc(size)); }

void *calloc(size_t count, size_t size) { return fails() ? 0 : counted(__libc_calloc(count, size)); }

void *realloc(void *old, size_t size) {
    void *made;
    if (fails()) return 0;
    made = __libc_realloc(old, size);
    if (old == 0 && made != 0) live++;
    return made;
}

void free(void *old) {
    if (old != 0) live--;
    __libc_free(old);
}
