/* Calls the library for C as its header says, for tools/gate/run_c_library.

   statuses SCHEMA [BAD STATUS]..     what each call answers where it refuses
   pieces SEED SCHEMA LINES..         a handle for each file of lines, which are handed in by turns, in pieces of drawn lengths; what each is
                                      answered goes to LINES.answers
   refused SCHEMA LINES               each allocation refused in turn, alone or with all later ones until that is told; then the same call again
   rows SCHEMA TABLE CALLS            the typed calls of tools/gate/typed_lines.py on the container of a table; what each is told goes to CALLS.answers
   rows_refused SCHEMA TABLE CALLS    the same, with each allocation refused in turn
   threads                            some threads at once, each with handles of its own */
#include "c_library_calls.h"

#include <inttypes.h>
#include <pthread.h>

enum { HANDLES = 8 };

/* ---- what the first word asks for */

static void try_statuses(int many, char **words)
{
    tc_tables tables = TC_CLOSED;
    size_t taken = 1, length = 1;
    char room[8] = "room";
    struct text schema = read_file(words[0]), answers = blank();
    is("a call of a closed handle", tc_call(&tables, "\n", 1, &taken), TC_HANDLE);
    is("an end of a closed handle", tc_end(&tables), TC_HANDLE);
    is("a take of a closed handle", tc_take(&tables, room, sizeof room, &length), TC_HANDLE);
    if (taken || length || strcmp(room, "room"))
        stop("a closed handle took %zu bytes and told %zu", taken, length);
    for (int k = 1; k + 1 < many; k += 2) {
        struct text bad = read_file(words[k]);
        is(words[k], tc_open(&tables, bad.bytes, bad.length), (unsigned)atoi(words[k + 1]));
        is("a call after a refused open", tc_call(&tables, "\n", 1, &taken), TC_HANDLE);
    }
    is("an open", tc_open(&tables, schema.bytes, schema.length), TC_OK);
    hand_in(&tables, "{\"op\":", 6);
    is("a second open", tc_open(&tables, schema.bytes, schema.length), TC_HANDLE);
    is("an end", tc_end(&tables), TC_OK);
    if (take(&tables, &answers) != 15 || memcmp(answers.bytes, "{\"err\":\"json\"}\n", 15))
        stop("the line that the end ends is answered otherwise");
    is("an end of nothing", tc_end(&tables), TC_OK);
    if (take(&tables, &answers))
        stop("an end of nothing is answered");
    tc_close(&tables);
    tc_close(&tables);
    is("a call after the close", tc_call(&tables, "\n", 1, &taken), TC_HANDLE);
    if (live)
        stop("%ld blocks are left", live);
}

static void hand_in_pieces(int many, char **words)
{
    static struct text lines[HANDLES], answers[HANDLES];
    static size_t at[HANDLES];
    static tc_tables tables[HANDLES];
    int files = many - 2, left = files;
    struct text schema = read_file(words[1]);
    srand((unsigned)atoi(words[0]));
    for (int k = 0; k < files; k++) {
        lines[k] = read_file(words[2 + k]);
        answers[k] = blank();
        is("an open", tc_open(&tables[k], schema.bytes, schema.length), TC_OK);
    }
    while (left) {
        int k = rand() % files;
        size_t rest = lines[k].length - at[k], piece = (size_t)(rand() % 4 ? rand() % 40 : rand() % 4000);
        if (at[k] > lines[k].length)
            continue;
        hand_in(&tables[k], lines[k].bytes + at[k], piece = piece < rest ? piece : rest);
        at[k] += piece;
        if (at[k] == lines[k].length) {
            is("an end", tc_end(&tables[k]), TC_OK);
            at[k]++;
            left--;
        }
        if (rand() % 2 || at[k] > lines[k].length)
            take(&tables[k], &answers[k]);
    }
    for (int k = 0; k < files; k++) {
        tc_close(&tables[k]);
        write_file(words[2 + k], ".answers", answers[k]);
    }
    if (live)
        stop("%ld blocks are left", live);
}

/* All lines once, with an allocation refused. Returns how many allocations there were. */
static long run(struct text schema, struct text lines, long at, int on, struct text *answers)
{
    tc_tables tables = TC_CLOSED;
    count = live = was_refused = 0;
    refuse_at = at;
    refuses_on = on;
    answers->length = 0;
    for (int tries = 0; tc_open(&tables, schema.bytes, schema.length) != TC_OK; tries++) {
        if (tries || !was_refused || tables.is_open || live)
            stop("allocation %ld: an open is refused otherwise, or leaves %ld blocks", at, live);
        refuse_at = 0;
    }
    for (size_t k = 0; k < lines.length;) {
        size_t length = (size_t)((char *)memchr(lines.bytes + k, '\n', lines.length - k) - (lines.bytes + k)) + 1;
        insist(&tables, lines.bytes + k, length, answers);
        k += length;
    }
    tc_close(&tables);
    if (live)
        stop("allocation %ld: %ld blocks are left", at, live);
    return count;
}

static void refuse_each(char **words)
{
    struct text schema = read_file(words[0]), lines = read_file(words[1]), wanted = blank(), found = blank();
    long all = run(schema, lines, 0, 0, &wanted), told = 0;
    for (long at = 1; at <= all; at++)
        for (int on = 0; on < 2; on++) {
            run(schema, lines, at, on, &found);
            if (found.length != wanted.length || memcmp(found.bytes, wanted.bytes, wanted.length))
                stop("allocation %ld: other answers", at);
            told += was_refused;
        }
    write_file(words[1], ".answers", wanted);
    printf("%ld\n", told);
}

/* ---- typed calls, as tools/gate/typed_lines.py spells them. What is no cell is kKIND:NUMBER, and bytes that no cell has are +HEX. */

enum { CELLS = 1 << 12, PARTS = 64, RECORDS = 256, TEXTS = 1 << 20 };

struct asked {
    const char *op;
    size_t index;
    uint64_t place;
    bool rollback;
    tc_handle handle;
    tc_cell cells[CELLS];
    size_t count;
    char texts[TEXTS];
    size_t length;
    tc_part parts[PARTS];
    size_t part_count;
    /* Where the cells and the texts of each of many records begin, and where the last ends. */
    size_t cells_at[RECORDS + 1], texts_at[RECORDS + 1];
    size_t records;
};

/* The ops, and what each is followed by: b the rollback, h a handle, i an index, n a place, c cells of one or more records, p parts of an order. */
static const char *const OPS[][2] = {{"insert", "c"}, {"insert_all", "c"}, {"modify", "bhc"}, {"erase", "h"},  {"clear", ""},   {"size", ""},  {"get", "h"},       {"list", "i"},
                                     {"nth", "in"},   {"rank", "ih"},    {"find", "ic"},  {"lower", "ic"}, {"upper", "ic"}, {"next", "ih"},  {"previous", "ih"},
                                     {"first", "i"},  {"last", "i"},     {"count", "ic"}, {"erase_key", "ic"}, {"place", "ih"}, {"move", "ihn"}, {"sort", "ip"}};

static void read_bytes(struct asked *asked, const char *hex)
{
    for (unsigned byte; sscanf(hex, "%2x", &byte) == 1; hex += 2)
        asked->texts[asked->length++] = (char)byte;
}

static void end_record(struct asked *asked)
{
    asked->records++;
    asked->cells_at[asked->records] = asked->count;
    asked->texts_at[asked->records] = asked->length;
}

static void read_cell(struct asked *asked, const char *word)
{
    size_t before = asked->length;
    if (*word == '/')
        return end_record(asked);
    int kind = *word == 'n' ? TC_NULL : *word == 'b' ? TC_BOOLEAN : TC_INTEGER;
    int64_t number = 0;
    if (*word == '+' || *word == 't')
        read_bytes(asked, word + 1);
    if (*word == '+')
        return;
    if (*word == 'k')
        sscanf(word, "k%d:%" SCNd64, &kind, &number);
    else if (*word == 't')
        kind = TC_TEXT, number = (int64_t)(asked->length - before);
    else
        sscanf(word + 1, "%" SCNd64, &number);
    asked->cells[asked->count++] = (tc_cell){number, (uint8_t)kind};
}

static void read_call(struct asked *asked, char *line)
{
    char *word = strtok(line, " ");
    size_t k = 0;
    while (strcmp(word, OPS[k][0]))
        if (++k == sizeof OPS / sizeof *OPS)
            stop("no call is %s", word);
    asked->op = OPS[k][0];
    asked->count = asked->length = asked->part_count = asked->records = 0;
    for (const char *what = OPS[k][1]; *what && (word = strtok(NULL, " ")); what += *what != 'c' && *what != 'p')
        if (*what == 'b')
            asked->rollback = *word == '1';
        else if (*what == 'h')
            sscanf(word, "%" SCNu32 ":%" SCNu64, &asked->handle.slot, &asked->handle.stamp);
        else if (*what == 'i')
            asked->index = strtoul(word, NULL, 10);
        else if (*what == 'n')
            asked->place = strtoull(word, NULL, 10);
        else if (*what == 'p')
            asked->parts[asked->part_count++] = (tc_part){strtoull(word + (*word == '-'), NULL, 10), *word == '-'};
        else
            read_cell(asked, word);
}

static void tell(struct text *to, const char *format, ...)
{
    va_list values;
    va_start(values, format);
    to->length += (size_t)vsnprintf(to->bytes + to->length, 4096, format, values);
    va_end(values);
}

static void tell_handle(struct text *to, tc_handle handle)
{
    tell(to, " %" PRIu32 ":%" PRIu64, handle.slot, handle.stamp);
}

static void tell_cells(struct text *to, const tc_cell *cells, size_t count, const char *texts)
{
    for (; count--; cells++)
        if (cells->kind == TC_TEXT) {
            tell(to, " t");
            for (int64_t k = 0; k < cells->number; k++)
                tell(to, "%02x", (unsigned char)*texts++);
        } else if (cells->kind == TC_NULL)
            tell(to, cells->number ? " null" : " n");
        else
            tell(to, " %c%" PRId64, cells->kind == TC_INTEGER ? 'i' : 'b', cells->number);
}

static bool are(const void *bytes, size_t length, char as)
{
    for (size_t k = 0; k < length; k++)
        if (((const char *)bytes)[k] != as)
            return false;
    return true;
}

/* A record's cells into rooms that just fit, after rooms with too little. */
static unsigned tell_row(tc_rows *rows, tc_handle handle, struct text *to)
{
    static tc_cell cells[CELLS];
    static char texts[TEXTS];
    size_t count, length, again, least;
    memset(cells, 'x', sizeof cells);
    memset(texts, 'x', sizeof texts);
    unsigned status = tc_rows_get(rows, &handle, cells, 0, texts, 0, &count, &length);
    if (status != TC_ROOM) {
        if (count + length)
            stop("a row of %zu cells and %zu bytes is told by status %u", count, length, status);
        return status;
    }
    is("a row without room for a cell", tc_rows_get(rows, &handle, cells, count - 1, texts, length, &again, &least), TC_ROOM);
    if (length)
        is("a row without room for a byte", tc_rows_get(rows, &handle, cells, count, texts, length - 1, &again, &least), TC_ROOM);
    if (again != count || least != length || !are(cells, sizeof cells, 'x') || !are(texts, sizeof texts, 'x'))
        stop("a row without room is told in part, or as one of %zu cells and %zu bytes", again, least);
    status = tc_rows_get(rows, &handle, cells, count, texts, length, &again, &least);
    if (again != count || least != length || !are(cells + count, sizeof cells - count * sizeof *cells, 'x') || !are(texts + length, sizeof texts - length, 'x'))
        stop("a row is told beyond its room, or as one of %zu cells and %zu bytes", again, least);
    tell_cells(to, cells, count, texts);
    return status;
}

static unsigned tell_list(tc_rows *rows, size_t index, struct text *to)
{
    tc_handle at;
    unsigned status = tc_rows_first(rows, index, &at);
    for (; status == TC_OK; status = tc_rows_next(rows, index, &at)) {
        tell_handle(to, at);
        is("a row of a list", tell_row(rows, at, to), TC_OK);
    }
    return status == TC_NONE ? TC_OK : status;
}

/* The calls that tell a record, or which one is in the way. */
static unsigned call_for_record(tc_rows *rows, const struct asked *asked, tc_handle *handle, size_t *index)
{
    const char *op = asked->op;
    if (!strcmp(op, "insert"))
        return tc_rows_insert(rows, asked->cells, asked->count, asked->texts, asked->length, handle, index);
    if (!strcmp(op, "modify"))
        return tc_rows_modify(rows, handle, asked->cells, asked->count, asked->texts, asked->length, asked->rollback, index);
    if (!strcmp(op, "find"))
        return tc_rows_find(rows, asked->index, asked->cells, asked->count, asked->texts, asked->length, handle);
    if (!strcmp(op, "lower"))
        return tc_rows_lower(rows, asked->index, asked->cells, asked->count, asked->texts, asked->length, handle);
    if (!strcmp(op, "upper"))
        return tc_rows_upper(rows, asked->index, asked->cells, asked->count, asked->texts, asked->length, handle);
    if (!strcmp(op, "next"))
        return tc_rows_next(rows, asked->index, handle);
    if (!strcmp(op, "previous"))
        return tc_rows_previous(rows, asked->index, handle);
    if (!strcmp(op, "nth"))
        return tc_rows_nth(rows, asked->index, asked->place, handle);
    return !strcmp(op, "first") ? tc_rows_first(rows, asked->index, handle) : tc_rows_last(rows, asked->index, handle);
}

static unsigned tell_record(tc_rows *rows, const struct asked *asked, struct text *to)
{
    tc_handle handle = asked->handle;
    size_t index = SIZE_MAX;
    bool changes = !strcmp(asked->op, "modify");
    unsigned status = call_for_record(rows, asked, &handle, &index);
    bool bans = status == TC_BANNED || status == TC_LOST;
    if (bans != (index != SIZE_MAX))
        stop("%s puts %zu as an index by status %u", asked->op, index, status);
    if (bans)
        tell(to, " %zu", index);
    if (bans || (status == TC_OK && !changes))
        tell_handle(to, handle);
    else if (handle.stamp != asked->handle.stamp || handle.slot != asked->handle.slot)
        stop("%s puts a record by status %u", asked->op, status);
    return status;
}

/* Many records, those that memory was refused for once more. */
static unsigned tell_all(tc_rows *rows, const struct asked *asked, struct text *to)
{
    static tc_handle handles[RECORDS];
    size_t done = 0, inserted, index = SIZE_MAX;
    tc_handle by = {0, 0};
    memset(handles, 'x', sizeof handles);
    for (;;) {
        size_t cells = asked->cells_at[done], texts = asked->texts_at[done];
        inserted = SIZE_MAX;
        unsigned status = tc_rows_insert_all(rows, asked->cells + cells, asked->count - cells, asked->texts + texts, asked->length - texts, handles + done,
                                             asked->records - done, &inserted, &by, &index);
        if (inserted > asked->records - done || (status == TC_OK) != (inserted == asked->records - done))
            stop("of %zu records %zu are in by status %u", asked->records - done, inserted, status);
        done += inserted;
        if (!are(handles + done, (RECORDS - done) * sizeof *handles, 'x'))
            stop("handles are told behind those of %zu records", done);
        if (status == TC_MEMORY && was_refused && refuse_at) {
            refuse_at = 0;
            continue;
        }
        tell(to, " %zu", done);
        for (size_t k = 0; k < done; k++)
            tell_handle(to, handles[k]);
        if ((status == TC_BANNED) != (index != SIZE_MAX))
            stop("insert_all puts %zu as an index by status %u", index, status);
        if (status == TC_BANNED)
            tell(to, " %zu", index), tell_handle(to, by);
        return status;
    }
}

static unsigned tell_number(struct text *to, unsigned status, uint64_t number)
{
    if (status == TC_OK)
        tell(to, " %" PRIu64, number);
    else if (number)
        stop("status %u tells %" PRIu64, status, number);
    return status;
}

/* One call, and what it tells. Returns its status. */
static unsigned call(tc_rows *rows, const struct asked *asked, struct text *to)
{
    static struct text words;
    if (!words.bytes)
        words = blank();
    words.length = 0;
    uint64_t number = UINT64_MAX;
    unsigned status;
    if (!strcmp(asked->op, "get"))
        status = tell_row(rows, asked->handle, &words);
    else if (!strcmp(asked->op, "list"))
        status = tell_list(rows, asked->index, &words);
    else if (!strcmp(asked->op, "insert_all"))
        status = tell_all(rows, asked, &words);
    else if (!strcmp(asked->op, "erase"))
        status = tc_rows_erase(rows, &asked->handle);
    else if (!strcmp(asked->op, "clear"))
        status = tc_rows_clear(rows);
    else if (!strcmp(asked->op, "size"))
        status = tc_rows_size(rows, &number), tell_number(&words, status, number);
    else if (!strcmp(asked->op, "rank"))
        status = tc_rows_rank(rows, asked->index, &asked->handle, &number), tell_number(&words, status, number);
    else if (!strcmp(asked->op, "place"))
        status = tc_rows_place(rows, asked->index, &asked->handle, &number), tell_number(&words, status, number);
    else if (!strcmp(asked->op, "count"))
        status = tc_rows_count(rows, asked->index, asked->cells, asked->count, asked->texts, asked->length, &number), tell_number(&words, status, number);
    else if (!strcmp(asked->op, "erase_key"))
        status = tc_rows_erase_key(rows, asked->index, asked->cells, asked->count, asked->texts, asked->length, &number), tell_number(&words, status, number);
    else if (!strcmp(asked->op, "move"))
        status = tc_rows_move(rows, asked->index, &asked->handle, asked->place);
    else if (!strcmp(asked->op, "sort"))
        status = tc_rows_sort(rows, asked->index, asked->parts, asked->part_count);
    else
        status = tell_record(rows, asked, &words);
    tell(to, "%u", status);
    memcpy(to->bytes + to->length, words.bytes, words.length);
    to->length += words.length;
    to->bytes[to->length++] = '\n';
    return status;
}

/* All calls once, with an allocation refused. Returns how many allocations there were. */
static long run_calls(struct text schema, size_t table, struct text calls, long at, int on, struct text *answers)
{
    static struct asked asked;
    static char line[1 << 18];
    tc_rows rows = TC_CLOSED;
    count = live = was_refused = 0;
    refuse_at = at;
    refuses_on = on;
    answers->length = 0;
    for (int tries = 0; tc_rows_open(&rows, schema.bytes, schema.length, table) != TC_OK; tries++) {
        if (tries || !was_refused || rows.is_open || live)
            stop("allocation %ld: an open is refused otherwise, or leaves %ld blocks", at, live);
        refuse_at = 0;
    }
    for (size_t k = 0, length; k < calls.length; k += length + 1) {
        length = (size_t)((char *)memchr(calls.bytes + k, '\n', calls.length - k) - (calls.bytes + k));
        memcpy(line, calls.bytes + k, length);
        line[length] = 0;
        read_call(&asked, line);
        for (size_t told = answers->length; call(&rows, &asked, answers) == TC_MEMORY; answers->length = told) {
            if (!was_refused || !refuse_at || answers->length - told != 2)
                stop("memory is told where none was refused, or tells more");
            refuse_at = 0;
        }
        if (was_refused)
            refuse_at = 0;
    }
    tc_rows_close(&rows);
    if (live)
        stop("allocation %ld: %ld blocks are left", at, live);
    return count;
}

static void run_typed(char **words, int refuses)
{
    struct text schema = read_file(words[0]), calls = read_file(words[2]), wanted = blank(), found = blank();
    size_t table = (size_t)atoi(words[1]);
    long all = run_calls(schema, table, calls, 0, 0, &wanted), told = 0;
    for (long at = 1; refuses && at <= all; at++)
        for (int on = 0; on < 2; on++) {
            run_calls(schema, table, calls, at, on, &found);
            if (found.length != wanted.length || memcmp(found.bytes, wanted.bytes, wanted.length))
                stop("allocation %ld: other answers", at);
            told += was_refused;
        }
    write_file(words[2], ".answers", wanted);
    if (refuses)
        printf("%ld\n", told);
}

/* What each call answers to a closed handle, and an open where it refuses. */
static void try_typed_statuses(int many, char **words)
{
    static struct asked asked;
    tc_rows rows = TC_CLOSED;
    struct text schema = read_file(words[0]), answers = blank();
    asked.cells[0] = (tc_cell){1, TC_INTEGER};
    asked.count = asked.records = 1;
    for (size_t k = 0; k < sizeof OPS / sizeof *OPS; k++) {
        asked.op = OPS[k][0];
        is(asked.op, call(&rows, &asked, &answers), TC_HANDLE);
    }
    for (int k = 1; k + 1 < many; k += 2) {
        struct text bad = read_file(words[k]);
        is(words[k], tc_rows_open(&rows, bad.bytes, bad.length, 0), (unsigned)atoi(words[k + 1]));
    }
    is("an open of no table", tc_rows_open(&rows, schema.bytes, schema.length, 99), TC_TABLE);
    is("an open", tc_rows_open(&rows, schema.bytes, schema.length, 0), TC_OK);
    is("a second open", tc_rows_open(&rows, schema.bytes, schema.length, 1), TC_HANDLE);
    tc_rows_close(&rows);
    tc_rows_close(&rows);
    is("a call after the close", tc_rows_clear(&rows), TC_HANDLE);
    if (live)
        stop("%ld blocks are left", live);
}

/* ---- threads */

static const char NUMBERS[] = "[[table]]\nname = \"t\"\ncolumn = [{name = \"n\", cell = \"int\"}]\n"
                              "index = [{name = \"h\", kind = \"hashed\", unique = true, key = [\"n\"]}, {name = \"r\", kind = \"ranked\", key = [\"-n\"]}]\n";

static const char NONE_THERE[] = "{\"at\":0,\"n\":0,\"ok\":true}\n";

/* Puts numbers into a container, finds each with its rank, and asks tables by lines how many they have. */
static void *use_handles(void *first)
{
    enum { NUMBER_OF = 500, STEP = 7 };
    tc_rows rows = TC_CLOSED;
    tc_tables tables = TC_CLOSED;
    tc_handle handle;
    size_t index, taken, length;
    uint64_t rank;
    char answer[256];
    is("a thread's open", tc_rows_open(&rows, NUMBERS, sizeof NUMBERS - 1, 0) + tc_open(&tables, NUMBERS, sizeof NUMBERS - 1), TC_OK);
    for (int64_t k = 0; k < NUMBER_OF; k++) {
        tc_cell number = {*(int64_t *)first + k * STEP % NUMBER_OF, TC_INTEGER};
        is("a thread's insertion", tc_rows_insert(&rows, &number, 1, "", 0, &handle, &index), TC_OK);
    }
    for (int64_t k = 0; k < NUMBER_OF; k++) {
        tc_cell number = {*(int64_t *)first + k, TC_INTEGER};
        is("a thread's find", tc_rows_find(&rows, 0, &number, 1, "", 0, &handle), TC_OK);
        if (tc_rows_rank(&rows, 1, &handle, &rank) != TC_OK || rank != (uint64_t)(NUMBER_OF - 1 - k))
            stop("a thread's record %" PRId64 " has the rank %" PRIu64, k, rank);
        is("a thread's line", tc_call(&tables, "{\"op\":\"size\",\"t\":\"t\"}\n", 22, &taken), TC_OK);
        if (tc_take(&tables, answer, sizeof answer, &length) != TC_OK || length != sizeof NONE_THERE - 1 || memcmp(answer, NONE_THERE, length))
            stop("a thread's line is answered %.*s", (int)length, answer);
    }
    tc_rows_close(&rows);
    tc_close(&tables);
    return NULL;
}

static void run_threads(void)
{
    enum { THREADS = 4 };
    pthread_t threads[THREADS];
    int64_t firsts[THREADS];
    for (int k = 0; k < THREADS; k++) {
        firsts[k] = 1000000 * k;
        if (pthread_create(&threads[k], NULL, use_handles, &firsts[k]))
            stop("no thread is made");
    }
    for (int k = 0; k < THREADS; k++)
        pthread_join(threads[k], NULL);
}

int main(int many, char **words)
{
    atexit(give_back);
    if (many > 2 && !strcmp(words[1], "statuses"))
        try_statuses(many - 2, words + 2), try_typed_statuses(many - 2, words + 2);
    else if (many > 4 && many < 5 + HANDLES && !strcmp(words[1], "pieces"))
        hand_in_pieces(many - 2, words + 2);
    else if (many == 4 && !strcmp(words[1], "refused"))
        refuse_each(words + 2);
    else if (many == 5 && (!strcmp(words[1], "rows") || !strcmp(words[1], "rows_refused")))
        run_typed(words + 2, words[1][4] == '_');
    else if (many == 2 && !strcmp(words[1], "threads"))
        run_threads();
    else
        stop("other words");
    return 0;
}
