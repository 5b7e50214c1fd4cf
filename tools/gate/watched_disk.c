/* A disk that is watched: preloaded. Before each write, cut, new name, renaming and removal, and around each sync, a record of it goes to the end of
   WATCHED_FILE: its kind, the file's number, where, and so many bytes, and then these bytes. A tool makes of them what a power cut leaves. Of files and folders no
   sync is carried out, and each takes SYNC_MICROS. KILL_AT=N kills the program in the place of its Nth step; half of a write is done by then. FAIL_AT=N lets the Nth
   sync of a file fail. */
#define _GNU_SOURCE
#include <dlfcn.h>
#include <errno.h>
#include <fcntl.h>
#include <pthread.h>
#include <signal.h>
#include <stdarg.h>
#include <stdio.h>
#include <stdlib.h>
#include <string.h>
#include <sys/stat.h>
#include <unistd.h>

static pthread_mutex_t lock = PTHREAD_MUTEX_INITIALIZER;
static int records = -1;
static long kill_at, fail_at, sync_micros, steps, syncs;
static ssize_t (*real_write)(int, const void *, size_t);
static ssize_t (*real_pwrite)(int, const void *, size_t, off_t);

static long number(const char *name)
{
    char *text = getenv(name);
    return text ? atol(text) : 0;
}

__attribute__((constructor)) static void begin(void)
{
    int (*real_open)(const char *, int, ...) = dlsym(RTLD_NEXT, "open");
    char *name = getenv("WATCHED_FILE");
    real_write = dlsym(RTLD_NEXT, "write");
    real_pwrite = dlsym(RTLD_NEXT, "pwrite");
    records = name ? real_open(name, O_CREAT | O_WRONLY | O_APPEND | O_CLOEXEC, 0600) : -1;
    kill_at = number("KILL_AT");
    fail_at = number("FAIL_AT");
    sync_micros = number("SYNC_MICROS");
}

static void record(char kind, ino_t file, off_t at, const void *bytes, size_t count)
{
    char *text = malloc(count + 64);
    int front = sprintf(text, "%c %lu %ld %lu\n", kind, (unsigned long)file, (long)at, (unsigned long)count);
    memcpy(text + front, bytes, count);
    if (records >= 0 && real_write(records, text, front + count) != (ssize_t)(front + count))
        abort();
    free(text);
}

/* Whether this is the step before which the program is killed. */
static int is_last(void)
{
    return ++steps == kill_at;
}

static void step(void)
{
    if (is_last())
        kill(getpid(), SIGKILL);
}

static int is_a(int file, mode_t kind, struct stat *seen)
{
    return fstat(file, seen) == 0 && (seen->st_mode & S_IFMT) == kind;
}

static ssize_t written(int file, const void *bytes, size_t count, off_t at, int is_behind)
{
    struct stat seen;
    ssize_t done;
    int last;
    if (!is_a(file, S_IFREG, &seen) || file == records)
        return is_behind ? real_write(file, bytes, count) : real_pwrite(file, bytes, count, at);
    pthread_mutex_lock(&lock);
    if (is_behind)
        at = fcntl(file, F_GETFL) & O_APPEND ? seen.st_size : lseek(file, 0, SEEK_CUR);
    last = is_last();
    count = last ? count / 2 : count;
    record('W', seen.st_ino, at, bytes, count);
    done = is_behind ? real_write(file, bytes, count) : real_pwrite(file, bytes, count, at);
    if (last)
        kill(getpid(), SIGKILL);
    pthread_mutex_unlock(&lock);
    return done;
}

ssize_t write(int file, const void *bytes, size_t count)
{
    return written(file, bytes, count, 0, 1);
}

ssize_t pwrite(int file, const void *bytes, size_t count, off_t at)
{
    return written(file, bytes, count, at, 0);
}

ssize_t pwrite64(int file, const void *bytes, size_t count, off_t at)
{
    return written(file, bytes, count, at, 0);
}

static int cut(int file, off_t count, const char *name)
{
    struct stat seen;
    int (*real)(int, off_t) = dlsym(RTLD_NEXT, name);
    pthread_mutex_lock(&lock);
    step();
    if (is_a(file, S_IFREG, &seen))
        record('T', seen.st_ino, count, "", 0);
    count = real(file, count);
    pthread_mutex_unlock(&lock);
    return count;
}

int ftruncate(int file, off_t count)
{
    return cut(file, count, "ftruncate");
}

int ftruncate64(int file, off_t count)
{
    return cut(file, count, "ftruncate64");
}

/* A sync takes a while, and makes sure of what was written before it began. */
static int settle(int file)
{
    struct stat seen;
    int is_folder = is_a(file, S_IFDIR, &seen), fails;
    pthread_mutex_lock(&lock);
    step();
    fails = !is_folder && ++syncs == fail_at;
    record('B', seen.st_ino, 0, "", 0);
    pthread_mutex_unlock(&lock);
    usleep(sync_micros);
    pthread_mutex_lock(&lock);
    record(fails ? 'X' : 'S', seen.st_ino, 0, "", 0);
    pthread_mutex_unlock(&lock);
    errno = EIO;
    return fails ? -1 : 0;
}

int fsync(int file)
{
    return settle(file);
}

int fdatasync(int file)
{
    return settle(file);
}

/* A path below a folder that is given, or not. */
static void named(char kind, ino_t file, const char *path)
{
    record(kind, file, 0, path, strlen(path));
}

static int renamed(const char *from, const char *to)
{
    int (*real)(const char *, const char *) = dlsym(RTLD_NEXT, "rename");
    char both[8192];
    int done, count = snprintf(both, sizeof both, "%s%c%s", from, 0, to);
    pthread_mutex_lock(&lock);
    step();
    record('R', 0, 0, both, count);
    done = real(from, to);
    pthread_mutex_unlock(&lock);
    return done;
}

int rename(const char *from, const char *to)
{
    return renamed(from, to);
}

static int removed(const char *path)
{
    int (*real)(const char *) = dlsym(RTLD_NEXT, "unlink"), done;
    pthread_mutex_lock(&lock);
    if (access(path, F_OK) == 0) {
        step();
        named('U', 0, path);
    }
    done = real(path);
    pthread_mutex_unlock(&lock);
    return done;
}

int unlink(const char *path)
{
    return removed(path);
}

/* A file that is emptied as it is opened is cut to nothing. */
static int opened(const char *path, int flags, va_list more)
{
    int (*real)(const char *, int, ...) = dlsym(RTLD_NEXT, "open");
    int mode = flags & O_CREAT ? va_arg(more, int) : 0, is_new, file;
    struct stat seen;
    if (!(flags & (O_CREAT | O_TRUNC)))
        return real(path, flags, mode);
    pthread_mutex_lock(&lock);
    is_new = access(path, F_OK) != 0;
    if (is_new && flags & O_CREAT)
        step();
    file = real(path, flags, mode);
    if (file >= 0 && is_a(file, S_IFREG, &seen)) {
        if (is_new)
            named('N', seen.st_ino, path);
        else if (flags & O_TRUNC)
            record('T', seen.st_ino, 0, "", 0);
    }
    pthread_mutex_unlock(&lock);
    return file;
}

#define OPENS(name) \
    int name(const char *path, int flags, ...) \
    { \
        va_list more; \
        va_start(more, flags); \
        int file = opened(path, flags, more); \
        va_end(more); \
        return file; \
    }

OPENS(open)
OPENS(open64)
