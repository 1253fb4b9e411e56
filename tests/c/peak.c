/* peak PROGRAM FILE: runs the program over its own standard input and output, and writes into the file the program's
   peak of memory in KiB and its processor time in milliseconds. Its status is that of the program. It is small, since
   the peak of a process counts the memory of the process that started it. */
#include <stdio.h>
#include <sys/resource.h>
#include <sys/wait.h>
#include <unistd.h>

static long milliseconds(struct timeval it) { return it.tv_sec * 1000L + it.tv_usec / 1000; }

int main(int count, char **words) {
    struct rusage used;
    FILE *file;
    int status = 1, child = fork();
    if (count != 3 || child < 0) return 2;
    if (child == 0) {
        execl(words[1], words[1], (char *)0);
        return 127;
    }
    if (wait4(child, &status, 0, &used) != child) return 2;
    file = fopen(words[2], "w");
    if (file == NULL) return 2;
    fprintf(file, "%ld %ld\n", used.ru_maxrss, milliseconds(used.ru_utime) + milliseconds(used.ru_stime));
    return fclose(file) == 0 && WIFEXITED(status) ? WEXITSTATUS(status) : 2;
}
