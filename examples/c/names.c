/* Reads symbols, one per line, and prints the declaration of each, or the symbol itself if it has none. */
#include <cosvigle.h>
#include <stdio.h>
#include <stdlib.h>
#include <string.h>

/* Reads a line without its line feed into *line, which has *room bytes and grows. 0 at the end of the input. */
static int read_line(char **line, size_t *room, size_t *len) {
    int byte = getchar();
    *len = 0;
    if (byte == EOF) return 0;
    for (; byte != EOF && byte != '\n'; byte = getchar()) {
        if (*len == *room) {
            *room *= 2;
            *line = realloc(*line, *room);
            if (*line == NULL) exit(2);
        }
        (*line)[(*len)++] = (char)byte;
    }
    return 1;
}

int main(void) {
    size_t line_room = 256, room = 256, len, needed;
    char *line = malloc(line_room), *answer = malloc(room);
    cosvigle_handle handle = COSVIGLE_NONE;
    if (line == NULL || answer == NULL) return 2;
    while (read_line(&line, &line_room, &len)) {
        int status = cosvigle_ask(&handle, 0, line, len, answer, room, &needed);
        if (status == COSVIGLE_NO_ROOM) {
            free(answer);
            room = needed;
            answer = malloc(room);
            if (answer == NULL) return 2;
            status = cosvigle_ask(&handle, 0, line, len, answer, room, &needed);
        }
        if (status == COSVIGLE_NO_MEMORY) return 2;
        if (status == COSVIGLE_OK) fwrite(answer, 1, needed, stdout);
        else fwrite(line, 1, len, stdout);
        putchar('\n');
    }
    cosvigle_free(&handle);
    free(line);
    free(answer);
    return 0;
}
