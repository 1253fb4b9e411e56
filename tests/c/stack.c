/* How much of its stack a thread needs for the deepest symbols. Standard input has a symbol a line. Each is asked for
 * in all printings, and for its parts, in a thread whose stack was filled with a pattern: what differs from it
 * afterwards was used. Prints the symbol that needs most, and how many bytes. The status is 0 where these are at most as
 * many as the argument says. */
#define _GNU_SOURCE
#include <cosvigle.h>

#include <pthread.h>
#include <stdio.h>
#include <stdlib.h>
#include <string.h>
#include <sys/mman.h>

enum { STACK = 1 << 20, PATTERN = 0xa5 };

static char symbol[1 << 16];
static size_t length;

static void *ask(void *unused) {
    static char answer[1 << 20];
    cosvigle_handle handle = COSVIGLE_NONE;
    size_t needed;
    uint32_t printing, part;
    int is_answered = 1;
    for (printing = 0; printing < 11; printing++) {
        if (printing % 4 == 3) continue;
        is_answered &= cosvigle_ask(&handle, printing, symbol, length, answer, sizeof answer, &needed) == COSVIGLE_OK;
    }
    for (part = 0; part < 4; part++) {
        const int status = cosvigle_part(&handle, part, COSVIGLE_LLVM, answer, sizeof answer, &needed);
        is_answered &= status == COSVIGLE_OK || status == COSVIGLE_NO_ANSWER;
    }
    cosvigle_free(&handle);
    (void)unused;
    return is_answered ? symbol : NULL;
}

/* How many bytes of its stack the thread used that asked the symbol, or 0 where it has no answer. */
static size_t used(void) {
    pthread_attr_t attributes;
    pthread_t thread;
    void *answered = NULL;
    size_t clean = 0;
    unsigned char *stack = mmap(NULL, STACK, PROT_READ | PROT_WRITE, MAP_PRIVATE | MAP_ANONYMOUS, -1, 0);
    if (stack == MAP_FAILED) exit(2);
    memset(stack, PATTERN, STACK);
    if (pthread_attr_init(&attributes) || pthread_attr_setstack(&attributes, stack, STACK)) exit(2);
    if (pthread_create(&thread, &attributes, ask, NULL) || pthread_join(thread, &answered)) exit(2);
    while (clean < STACK && stack[clean] == PATTERN) clean++;
    munmap(stack, STACK);
    return answered ? STACK - clean : 0;
}

int main(int count, char **words) {
    static char most_of[60];
    size_t most = 0;
    if (count != 2) return 2;
    while (fgets(symbol, sizeof symbol, stdin)) {
        size_t bytes;
        length = strcspn(symbol, "\n");
        bytes = used();
        if (bytes == 0) {
            printf("no answer: %.60s\n", symbol);
            return 1;
        }
        if (bytes > most) {
            most = bytes;
            snprintf(most_of, sizeof most_of, "%.*s", (int)length, symbol);
        }
    }
    printf("%zu bytes of stack for %s\n", most, most_of);
    return most == 0 || most > strtoul(words[1], NULL, 10);
}
