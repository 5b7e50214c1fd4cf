/* What the callers of the library for C share: memory that can be refused, texts, and calls that have to be done. */
#ifndef C_LIBRARY_CALLS_H
#define C_LIBRARY_CALLS_H

#include "thwartcornel.h"

#include <stdarg.h>
#include <stdio.h>
#include <stdlib.h>
#include <string.h>

enum { MOST = 1 << 24 };

static const char MEMORY_LINE[] = "{\"err\":\"memory\"}\n";

struct text {
    char *bytes;
    size_t length;
};

static inline void stop(const char *format, ...)
{
    va_list values;
    va_start(values, format);
    vfprintf(stderr, format, values);
    va_end(values);
    fputc('\n', stderr);
    exit(1);
}

/* ---- memory: the linker hands the library's calls to these */

void *__real_malloc(size_t), *__real_realloc(void *, size_t);
void __real_free(void *);

static _Atomic long count, live, refuse_at;
static int refuses_on, was_refused;

static inline int refused(void)
{
    count++;
    if (!refuse_at || !(count == refuse_at || (refuses_on && count > refuse_at)))
        return 0;
    return was_refused = 1;
}

void *__wrap_malloc(size_t size)
{
    void *made = refused() ? NULL : __real_malloc(size);
    live += made != NULL;
    return made;
}

void *__wrap_realloc(void *old, size_t size)
{
    void *made = refused() ? NULL : __real_realloc(old, size);
    live += made && !old;
    return made;
}

void __wrap_free(void *old)
{
    live -= old != NULL;
    __real_free(old);
}

/* ---- texts: a room for each, which is given back at the end */

static char *rooms[64];
static int made;

static inline void give_back(void)
{
    while (made)
        __real_free(rooms[--made]);
}

static inline struct text blank(void)
{
    if (made == sizeof rooms / sizeof *rooms || !(rooms[made] = __real_malloc(MOST)))
        stop("no room for a text");
    return (struct text){rooms[made++], 0};
}

static inline struct text read_file(const char *path)
{
    FILE *file = fopen(path, "rb");
    struct text text = blank();
    if (!file)
        stop("%s is not there", path);
    text.length = fread(text.bytes, 1, MOST, file);
    fclose(file);
    return text;
}

static inline void write_file(const char *path, const char *more, struct text text)
{
    char whole[4096];
    snprintf(whole, sizeof whole, "%s%s", path, more);
    FILE *file = fopen(whole, "wb");
    if (!file || fwrite(text.bytes, 1, text.length, file) != text.length || fclose(file))
        stop("%s can't be written", whole);
}

/* ---- calls */

static inline void is(const char *what, unsigned status, unsigned wanted)
{
    if (status != wanted)
        stop("%s: status %u, and not %u", what, status, wanted);
}

/* Appends the answers that wait. A room that is one byte too short has to be told of, and stays as it is. */
static inline size_t take(tc_tables *tables, struct text *to)
{
    size_t length, again;
    char *room = to->bytes + to->length;
    memset(room, 'x', 64);
    unsigned status = tc_take(tables, room, 0, &length);
    is("a take without room", status, length ? TC_ROOM : TC_OK);
    if (length) {
        is("a take with too little room", tc_take(tables, room, length - 1, &again), TC_ROOM);
        for (size_t k = 0; k < 64; k++)
            if (room[k] != 'x' || again != length)
                stop("a take with too little room wrote into it");
    }
    room[length] = '#';
    is("a take", tc_take(tables, room, length, &again), TC_OK);
    if (again != length || room[length] != '#')
        stop("a take wrote %zu bytes where %zu waited, or behind them", again, length);
    is("a second take", tc_take(tables, room, 0, &again), TC_OK);
    if (again)
        stop("%zu bytes were told twice", again);
    to->length += length;
    return length;
}

static inline void hand_in(tc_tables *tables, const char *lines, size_t length)
{
    size_t taken;
    is("a call", tc_call(tables, lines, length, &taken), TC_OK);
    if (taken != length)
        stop("a call took %zu bytes of %zu", taken, length);
}

/* Hands in a line until it is taken and not refused memory. */
static inline void insist(tc_tables *tables, const char *line, size_t length, struct text *answers)
{
    for (int tries = 0; tries < 3; tries++) {
        size_t at = 0, taken, told = answers->length;
        for (unsigned status = TC_MEMORY; status == TC_MEMORY; at += taken) {
            status = tc_call(tables, line + at, length - at, &taken);
            if (status == TC_MEMORY && (!was_refused || taken >= length - at || take(tables, answers)))
                stop("memory is told where none was refused, or all was taken");
            if (was_refused)
                refuse_at = 0;
        }
        if (at != length)
            stop("a call that is done took %zu bytes of %zu", at, length);
        if (take(tables, answers) != sizeof MEMORY_LINE - 1 || memcmp(answers->bytes + told, MEMORY_LINE, sizeof MEMORY_LINE - 1))
            return;
        if (!was_refused)
            stop("a line is told of memory where none was refused");
        answers->length = told;
        refuse_at = 0;
    }
    stop("a line is refused memory again and again");
}

#endif
