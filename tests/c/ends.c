/* Stands before `read` of standard input and `write` to standard output, where LD_PRELOAD names it. GIVE is how many
   bytes a read gives at most, TAKE how many a write takes; `1-7` means one at the first call, two at the second, and
   so on up to 7, and then one again. The read whose number is FAIL_READ, counted from 1, fails with the error ERROR,
   or gives nothing where that is 0; so does the write whose number is FAIL_WRITE. The calls after it go on. Before
   each call a line is written to descriptor 3: `read` or `write`, how many bytes were given so far, and how many were
   taken. Nothing of the product links this. */
#define _GNU_SOURCE
#include <errno.h>
#include <stdio.h>
#include <stdlib.h>
#include <string.h>
#include <sys/syscall.h>
#include <unistd.h>

/* An end: what the environment says of it, and what it did so far. */
struct end {
    const char *name;
    const char *most_name;
    const char *fails_name;
    long first, most, size;
    long fails, calls;
    long bytes;
};

static struct end input = {.name = "read", .most_name = "GIVE", .fails_name = "FAIL_READ"};
static struct end output = {.name = "write", .most_name = "TAKE", .fails_name = "FAIL_WRITE"};

static void set(struct end *end) {
    const char *most = getenv(end->most_name);
    const char *fails = getenv(end->fails_name);
    const char *dash = most ? strchr(most, '-') : 0;
    end->first = most ? atol(most) : 0;
    end->most = dash ? atol(dash + 1) : end->first;
    end->size = end->first;
    end->fails = fails ? atol(fails) : 0;
}

__attribute__((constructor)) static void begin(void) {
    set(&input);
    set(&output);
}

/* Makes the call, of so many bytes at most. */
static ssize_t call(struct end *end, long number, int descriptor, const void *bytes, size_t size) {
    char line[100];
    int n = snprintf(line, sizeof line, "%s %ld %ld\n", end->name, input.bytes, output.bytes);
    ssize_t count;
    if (syscall(SYS_write, 3, line, (size_t)n) != n) abort();
    if (++end->calls == end->fails) {
        const char *error = getenv("ERROR");
        errno = error ? atoi(error) : 0;
        return errno ? -1 : 0;
    }
    if (end->most > 0) {
        if (size > (size_t)end->size) size = (size_t)end->size;
        end->size = end->size < end->most ? end->size + 1 : end->first;
    }
    count = syscall(number, descriptor, bytes, size);
    if (count > 0) end->bytes += count;
    return count;
}

ssize_t read(int descriptor, void *bytes, size_t size) {
    if (descriptor != 0) return syscall(SYS_read, descriptor, bytes, size);
    return call(&input, SYS_read, descriptor, bytes, size);
}

ssize_t write(int descriptor, const void *bytes, size_t size) {
    if (descriptor != 1) return syscall(SYS_write, descriptor, bytes, size);
    return call(&output, SYS_write, descriptor, bytes, size);
}

ssize_t __write(int descriptor, const void *bytes, size_t size) { return write(descriptor, bytes, size); }
