/* An order book: orders come in, meet the best price of the other side, or wait.

   order_book schema.toml   prints each answer, and at the end the bids */
#include "thwartcornel.h"

#include <stdarg.h>
#include <stdio.h>
#include <stdlib.h>
#include <string.h>

static tc_tables book = TC_CLOSED;

static void stop(const char *why)
{
    fprintf(stderr, "order_book: %s\n", why);
    exit(1);
}

/* The answers that wait, as a text that is good until the next call. The room grows as far as one of them asks for. */
static const char *answers(void)
{
    static char *room;
    static size_t size = 64;
    size_t length = 0;
    for (;;) {
        room = realloc(room, size);
        if (!room)
            stop("no memory for answers");
        if (tc_take(&book, room, size - 1, &length) == TC_OK)
            break;
        size = length + 1;
    }
    room[length] = '\0';
    fputs(room, stdout);
    return room;
}

/* Asks one line, and gives its answer. */
static const char *ask(const char *format, ...)
{
    char line[512];
    va_list values;
    va_start(values, format);
    size_t length = (size_t)vsnprintf(line, sizeof line - 1, format, values), taken;
    va_end(values);
    if (length >= sizeof line - 1)
        stop("a line is too long");
    line[length++] = '\n';
    if (tc_call(&book, line, length, &taken) != TC_OK)
        stop("a line was not taken");
    return answers();
}

/* The number behind a name in an answer. */
static long number(const char *answer, const char *name)
{
    const char *at = strstr(answer, name);
    return at ? strtol(at + strlen(name), NULL, 10) : 0;
}

/* An order trades with the best orders of the other side while their prices meet, and what is left of it waits. */
static void order(long id, const char *side, long price, long size)
{
    int buys = strcmp(side, "bid") == 0;
    const char *other = buys ? "ask" : "bid", *index = buys ? "asks" : "bids", *found;
    char handle[48];
    while (size && (found = strstr(ask("{\"op\":\"find\",\"t\":\"orders\",\"i\":\"%s\",\"k\":[\"%s\"]}", index, other), "\"h\":\""))) {
        snprintf(handle, sizeof handle, "%.*s", (int)strcspn(found + 5, "\""), found + 5);
        const char *best = ask("{\"op\":\"get\",\"t\":\"orders\",\"h\":\"%s\"}", handle);
        long waits = number(best, "\"size\":"), at = number(best, "\"price\":"), traded = waits < size ? waits : size;
        if (buys ? at > price : at < price)
            break;
        if (traded == waits)
            ask("{\"op\":\"erase\",\"t\":\"orders\",\"h\":\"%s\"}", handle);
        else
            ask("{\"op\":\"modify\",\"t\":\"orders\",\"h\":\"%s\",\"add\":{\"size\":%ld}}", handle, -traded);
        size -= traded;
    }
    if (size)
        ask("{\"op\":\"insert\",\"t\":\"orders\",\"r\":{\"id\":%ld,\"side\":\"%s\",\"price\":%ld,\"size\":%ld}}", id, side, price, size);
}

int main(int count, char **words)
{
    char schema[4096];
    FILE *file = count == 2 ? fopen(words[1], "rb") : NULL;
    if (!file || tc_open(&book, schema, fread(schema, 1, sizeof schema, file)) != TC_OK)
        stop("the schema file is not there, or is none");
    fclose(file);
    order(1, "bid", 9950, 10);
    order(2, "bid", 9960, 5);
    order(3, "ask", 9980, 7);
    order(4, "ask", 9955, 8);
    order(5, "bid", 9956, 2);
    ask("{\"op\":\"list\",\"t\":\"orders\",\"i\":\"bids\"}");
    tc_close(&book);
}
