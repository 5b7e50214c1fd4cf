/* Hands the lines of a file to the library one by one, for tools/bench/bench_library, and prints the processor's nanoseconds of a line.

   library_times SCHEMA LINES     each line's answer is taken before the next line */
#include "thwartcornel.h"

#include <stdio.h>
#include <stdlib.h>
#include <string.h>
#include <time.h>

static void stop(const char *why)
{
    fprintf(stderr, "library_times: %s\n", why);
    exit(1);
}

static char *read_file(const char *path, size_t *length)
{
    FILE *file = fopen(path, "rb");
    if (!file || fseek(file, 0, SEEK_END))
        stop(path);
    *length = (size_t)ftell(file);
    rewind(file);
    char *text = malloc(*length + 1);
    if (!text || fread(text, 1, *length, file) != *length)
        stop(path);
    fclose(file);
    return text;
}

static double processor_seconds(void)
{
    struct timespec now;
    clock_gettime(CLOCK_PROCESS_CPUTIME_ID, &now);
    return (double)now.tv_sec + (double)now.tv_nsec / 1e9;
}

int main(int many, char **words)
{
    tc_tables tables = TC_CLOSED;
    size_t size, length, taken, told, lines = 0;
    char answer[4096];
    if (many != 3)
        stop("other words");
    char *schema = read_file(words[1], &size), *text = read_file(words[2], &length);
    if (tc_open(&tables, schema, size) != TC_OK)
        stop("the schema is refused");
    double begun = processor_seconds();
    for (char *at = text, *next; at < text + length; at = next) {
        next = (char *)memchr(at, '\n', (size_t)(text + length - at)) + 1;
        if (tc_call(&tables, at, (size_t)(next - at), &taken) != TC_OK || tc_take(&tables, answer, sizeof answer, &told) != TC_OK)
            stop("a line is refused");
        if (memcmp(answer, "{\"at\":", 6))
            stop("a line is told a fault");
        lines++;
    }
    printf("%.0f\n", (processor_seconds() - begun) / (double)lines * 1e9);
    tc_close(&tables);
    free(schema);
    free(text);
}
