/* Tables that last: a folder keeps them, and each write is on the disk before its answer is printed.

   kept_orders schema.toml FOLDER   answers the lines of its input */
#include "thwartcornel.h"

#include <stdio.h>
#include <stdlib.h>
#include <string.h>
#include <unistd.h>

static tc_tables orders = TC_CLOSED;

static void stop(const char *why, int status)
{
    fprintf(stderr, "kept_orders: %s: status %d\n", why, status);
    exit(1);
}

/* Prints the answers that wait, once the disk has what they rest on. */
static void print_answers(void)
{
    static char *answers;
    static size_t room;
    size_t length = 4096;
    uint8_t how;
    do {
        if (length > room && !(answers = realloc(answers, room = length)))
            stop("there is no memory for the answers", TC_MEMORY);
        how = tc_take(&orders, answers, room, &length);
    } while (how == TC_ROOM);
    if (how != TC_OK)
        stop("a log can't be synced", how);
    fwrite(answers, 1, length, stdout);
    fflush(stdout);
}

/* Hands in a piece of the lines, however it is cut. Once all answers are taken, there is memory for the next one. */
static void hand_in(const char *lines, size_t length)
{
    uint8_t how;
    size_t taken;
    do {
        how = tc_call(&orders, lines, length, &taken);
        print_answers();
        lines += taken;
        length -= taken;
    } while (how == TC_MEMORY);
    if (how != TC_OK)
        stop("a log can't be written", how);
}

int main(int count, char **words)
{
    static char schema[1 << 16], lines[1 << 16];
    FILE *file = count == 3 ? fopen(words[1], "r") : NULL;
    if (!file)
        stop("it takes a schema and a folder", TC_OK);
    size_t length = fread(schema, 1, sizeof schema, file);
    fclose(file);
    uint8_t how = tc_open_folder(&orders, schema, length, words[2], strlen(words[2]), true);
    if (how != TC_OK)
        stop("the folder can't be opened", how);
    for (ssize_t piece; (piece = read(STDIN_FILENO, lines, sizeof lines)) > 0;)
        hand_in(lines, (size_t)piece);
    tc_close(&orders);
    return 0;
}
