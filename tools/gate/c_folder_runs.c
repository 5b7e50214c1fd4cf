/* Calls the library for C on tables that a folder keeps, for tools/gate/library_folders.py.

   open SCHEMA FOLDER                     opens and closes; the status is that of the open
   statuses SCHEMA FOLDER [BAD STATUS]..  what each call answers where it refuses
   lines SCHEMA FOLDER SYNCED SEED LINES  hands in a file of lines in pieces of drawn lengths, and prints what is told; the status is that of the
                                          first call that a log stops, after which each call is stopped
   refused SCHEMA FOLDER LINES            each allocation refused in turn, alone or with all later ones until that is told; then the same call again.
                                          The folder is closed and opened again amid the lines
   threads SCHEMA FOLDER                  some threads at once, each with a folder of its own, and all for one folder */
#include "c_library_calls.h"

#include <dirent.h>
#include <errno.h>
#include <pthread.h>
#include <signal.h>
#include <unistd.h>

static unsigned open_at(tc_tables *tables, struct text schema, const char *folder, bool is_synced)
{
    return tc_open_folder(tables, schema.bytes, schema.length, folder, strlen(folder), is_synced);
}

static void only_open(char **words)
{
    tc_tables tables = TC_CLOSED;
    unsigned status = open_at(&tables, read_file(words[0]), words[1], true);
    if (tables.is_open != (status == TC_OK) || (status && live))
        stop("an open of status %u leaves %ld blocks", status, live);
    tc_close(&tables);
    give_back();
    exit((int)status);
}

static const char SIZE[] = "{\"op\":\"size\",\"t\":\"t\"}\n";

static void try_statuses(int many, char **words)
{
    tc_tables tables = TC_CLOSED, other = TC_CLOSED;
    struct text schema = read_file(words[0]), answers = blank();
    const char *folder = words[1];
    char *strange = __real_malloc(100000);
    is("a sync of a closed handle", tc_sync(&tables), TC_HANDLE);
    for (int k = 2; k + 1 < many; k += 2) {
        is(words[k], open_at(&tables, read_file(words[k]), folder, true), (unsigned)atoi(words[k + 1]));
        if (!access(folder, F_OK))
            stop("a schema with a fault has made the folder");
    }
    memset(strange, 'x', 100000);
    is("a folder of a name that no system takes", tc_open_folder(&tables, schema.bytes, schema.length, strange, 100000, true), TC_DEVICE);
    is("a folder of no name that is a text", tc_open_folder(&tables, schema.bytes, schema.length, "\xff", 1, true), TC_DEVICE);
    is("a folder whose name has a byte 0", tc_open_folder(&tables, schema.bytes, schema.length, "a\0b", 3, true), TC_DEVICE);
    __real_free(strange);
    is("tables in memory", tc_open(&other, schema.bytes, schema.length), TC_OK);
    is("a sync of tables in memory", tc_sync(&other), TC_OK);
    is("a folder for a handle that is open", open_at(&other, schema, folder, true), TC_HANDLE);
    tc_close(&other);
    is("an open", open_at(&tables, schema, folder, true), TC_OK);
    is("a second open", open_at(&tables, schema, folder, true), TC_HANDLE);
    is("an open in memory of an open handle", tc_open(&tables, schema.bytes, schema.length), TC_HANDLE);
    for (int k = 0; k < 3; k++)
        is("a second handle", open_at(&other, schema, folder, true), TC_TAKEN);
    hand_in(&tables, SIZE, 5);
    is("a sync amid a line", tc_sync(&tables), TC_OK);
    hand_in(&tables, SIZE + 5, sizeof SIZE - 7);
    is("an end", tc_end(&tables), TC_OK);
    if (!take(&tables, &answers) || memcmp(answers.bytes, "{\"at\":0,\"n\":0,", 14))
        stop("a line that is cut is answered otherwise: %s", answers.bytes);
    tc_close(&tables);
    tc_close(&tables);
    is("a sync after the close", tc_sync(&tables), TC_HANDLE);
    is("another handle after the close", open_at(&other, schema, folder, false), TC_OK);
    tc_close(&other);
    if (live)
        stop("%ld blocks are left", live);
}

/* Prints what waits. Returns the status of the take. */
static unsigned tell(tc_tables *tables, struct text *room)
{
    size_t length;
    unsigned status = tc_take(tables, room->bytes, MOST, &length);
    for (size_t at = 0; status == TC_OK && at < length;) {
        ssize_t count = write(STDOUT_FILENO, room->bytes + at, length - at);
        if (count < 0 && errno != EINTR)
            stop("the answers can't be printed");
        at += count < 0 ? 0 : (size_t)count;
    }
    return status;
}

/* Once a log is over nothing more is taken. What waits is told where nothing that it rests on is unsynced, as a sync tells. */
static void try_over(tc_tables *tables, const char *rest, size_t length, bool is_synced, struct text *room)
{
    size_t taken = 1;
    for (int k = 0; k < 3; k++) {
        is("a call of a log that is over", tc_call(tables, k ? "{}\n" : rest, k ? 3 : length, &taken), TC_LOG);
        is("an end of a log that is over", tc_end(tables), TC_LOG);
        if (taken)
            stop("a log that is over took %zu bytes", taken);
        unsigned status = tc_sync(tables);
        if (status != TC_OK)
            is("a sync of a log that is over", status, TC_LOG);
        is("a take behind a log that is over", tell(tables, room), is_synced ? status : TC_OK);
    }
}

static void hand_in_pieces(char **words)
{
    tc_tables tables = TC_CLOSED;
    struct text schema = read_file(words[0]), lines = read_file(words[4]), room = blank();
    bool is_synced = *words[2] == '1';
    unsigned status = open_at(&tables, schema, words[1], is_synced);
    srand((unsigned)atoi(words[3]));
    is("an open", status, TC_OK);
    for (size_t k = 0, taken; status == TC_OK && k < lines.length; k += taken) {
        size_t piece = (size_t)(rand() % 4 ? rand() % 40 : rand() % 2000), rest = lines.length - k;
        status = tc_call(&tables, lines.bytes + k, piece < rest ? piece : rest, &taken);
        if (status == TC_OK && rand() % 2)
            status = tell(&tables, &room);
        else if (status == TC_LOG)
            try_over(&tables, lines.bytes + k + taken, rest - taken, is_synced, &room);
        if (status == TC_OK && !is_synced && rand() % 50 == 0)
            status = tc_sync(&tables);
    }
    if (status == TC_OK)
        status = tc_end(&tables);
    if (status == TC_OK)
        status = tell(&tables, &room);
    tc_close(&tables);
    if (live)
        stop("%ld blocks are left", live);
    give_back();
    exit((int)status);
}

/* Removes what stands in the folder. */
static void empty(const char *path)
{
    DIR *folder = opendir(path);
    char whole[4096];
    for (struct dirent *it; folder && (it = readdir(folder));) {
        snprintf(whole, sizeof whole, "%s/%s", path, it->d_name);
        if (it->d_name[0] != '.' && unlink(whole))
            stop("%s can't be removed", whole);
    }
    if (folder)
        closedir(folder);
}

/* Opens, hands in some lines, syncs and closes. What was refused is asked for once more. */
static void run_part(struct text schema, const char *folder, const char *lines, size_t length, struct text *answers, long at)
{
    tc_tables tables = TC_CLOSED;
    unsigned status;
    for (int tries = 0; (status = open_at(&tables, schema, folder, false)) != TC_OK; tries++) {
        if (status != TC_MEMORY || tries || !was_refused || tables.is_open || live)
            stop("allocation %ld: an open is refused by status %u, or leaves %ld blocks", at, status, live);
        refuse_at = 0;
    }
    for (size_t k = 0, count; k < length; k += count) {
        count = (size_t)((char *)memchr(lines + k, '\n', length - k) - (lines + k)) + 1;
        insist(&tables, lines + k, count, answers);
    }
    is("a sync", tc_sync(&tables), TC_OK);
    tc_close(&tables);
    if (live)
        stop("allocation %ld: %ld blocks are left", at, live);
}

/* All lines once, the second half after the folder was opened again. Returns how many allocations there were. */
static long run(struct text schema, const char *folder, struct text lines, long at, int on, struct text *answers)
{
    size_t half = (size_t)((char *)memchr(lines.bytes + lines.length / 2, '\n', lines.length / 2) - lines.bytes) + 1;
    empty(folder);
    count = live = was_refused = 0;
    refuse_at = at;
    refuses_on = on;
    answers->length = 0;
    run_part(schema, folder, lines.bytes, half, answers, at);
    run_part(schema, folder, lines.bytes + half, lines.length - half, answers, at);
    return count;
}

static void refuse_each(char **words)
{
    struct text schema = read_file(words[0]), lines = read_file(words[2]), wanted = blank(), found = blank();
    long all = run(schema, words[1], lines, 0, 0, &wanted), told = 0;
    for (long at = 1; at <= all; at++)
        for (int on = 0; on < 2; on++) {
            run(schema, words[1], lines, at, on, &found);
            if (found.length != wanted.length || memcmp(found.bytes, wanted.bytes, wanted.length))
                stop("allocation %ld: other answers", at);
            told += was_refused;
        }
    write_file(words[2], ".answers", wanted);
    printf("%ld\n", told);
}

/* ---- threads */

enum { THREADS = 4 };

static pthread_barrier_t all_tried;

struct user {
    struct text schema;
    char own[4096], shared[4096];
    bool has_shared;
};

/* Tries for the folder of all, and puts numbers into that of its own. */
static void *use_folders(void *to)
{
    struct user *user = to;
    tc_tables shared = TC_CLOSED, tables = TC_CLOSED;
    char line[100], answer[100], wanted[100];
    size_t length;
    unsigned status = open_at(&shared, user->schema, user->shared, true);
    user->has_shared = status == TC_OK;
    if (!user->has_shared)
        is("a folder that another thread has", status, TC_TAKEN);
    pthread_barrier_wait(&all_tried);
    tc_close(&shared);
    is("a thread's open", open_at(&tables, user->schema, user->own, false), TC_OK);
    for (int k = 0; k < 300; k++) {
        snprintf(line, sizeof line, "{\"op\":\"insert\",\"t\":\"t\",\"r\":{\"k\":%d}}\n", k);
        snprintf(wanted, sizeof wanted, "{\"at\":%d,\"h\":\"%d:%d\",\"ok\":true}\n", k + 1, k, k + 1);
        hand_in(&tables, line, strlen(line));
        is("a thread's take", tc_take(&tables, answer, sizeof answer, &length), TC_OK);
        if (length != strlen(wanted) || memcmp(answer, wanted, length))
            stop("a thread's line is answered %.*s", (int)length, answer);
    }
    tc_close(&tables);
    return NULL;
}

static void run_threads(char **words)
{
    static struct user users[THREADS];
    pthread_t threads[THREADS];
    int have = 0;
    pthread_barrier_init(&all_tried, NULL, THREADS);
    for (int k = 0; k < THREADS; k++) {
        users[k].schema = read_file(words[0]);
        snprintf(users[k].own, sizeof users[k].own, "%s%d", words[1], k);
        snprintf(users[k].shared, sizeof users[k].shared, "%s", words[1]);
        if (pthread_create(&threads[k], NULL, use_folders, &users[k]))
            stop("no thread is made");
    }
    for (int k = 0; k < THREADS; k++) {
        pthread_join(threads[k], NULL);
        have += users[k].has_shared;
    }
    if (have != 1)
        stop("%d threads have one folder", have);
    if (live)
        stop("%ld blocks are left", live);
}

int main(int many, char **words)
{
    atexit(give_back);
    /* (a file that may not grow is told by the call that would make it grow) */
    signal(SIGXFSZ, SIG_IGN);
    if (many == 4 && !strcmp(words[1], "open"))
        only_open(words + 2);
    else if (many > 3 && !strcmp(words[1], "statuses"))
        try_statuses(many - 2, words + 2);
    else if (many == 7 && !strcmp(words[1], "lines"))
        hand_in_pieces(words + 2);
    else if (many == 5 && !strcmp(words[1], "refused"))
        refuse_each(words + 2);
    else if (many == 4 && !strcmp(words[1], "threads"))
        run_threads(words + 2);
    else
        stop("other words");
    return 0;
}
