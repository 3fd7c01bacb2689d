// What both sides share: the lines of a file, the clock, and what is written.
#include <stdint.h>
#include <stdio.h>
#include <stdlib.h>
#include <string.h>
#include <time.h>

struct lines {
    char **text;
    size_t *length, count;
};

static struct lines lines_of(const char *path) {
    struct lines lines = {NULL, NULL, 0};
    FILE *file = fopen(path, "rb");
    char *line = NULL;
    size_t size = 0;
    ssize_t read;
    while (file && (read = getline(&line, &size, file)) > 0) {
        if (lines.count % 1024 == 0) {
            lines.text = realloc(lines.text, (lines.count + 1024) * sizeof *lines.text);
            lines.length = realloc(lines.length, (lines.count + 1024) * sizeof *lines.length);
        }
        lines.length[lines.count] = (size_t)read - (line[read - 1] == '\n');
        lines.text[lines.count] = strndup(line, lines.length[lines.count]);
        lines.count += 1;
    }
    if (!lines.count) exit(2);
    fclose(file);
    free(line);
    return lines;
}

static double now(void) {
    struct timespec time;
    clock_gettime(CLOCK_PROCESS_CPUTIME_ID, &time);
    return time.tv_sec * 1e9 + time.tv_nsec;
}

static void tell(double begin, long times, size_t count, size_t sum) {
    if (times > 0) printf("%.1f %zu\n", (now() - begin) / ((double)times * (double)count), sum);
}
