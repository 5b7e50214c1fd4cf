/* A disk that fails: preloaded. ROOM_LEFT=N: once regular files are longer by N bytes, they grow no more, as on a full disk.
   FAILING=sync, rename, mark or settle: those calls fail, but for the first CALLS_BEFORE. CALLS_FILE names a file that gets a line for each rename, for each sync of a file or
   folder (sync), and of a mark (settle), and one for each run of writes of regular files (write), and of marks (mark); with TELL_ANSWERS also one for each piece that is sent by a
   socket. */
#define _GNU_SOURCE
#include <dlfcn.h>
#include <errno.h>
#include <fcntl.h>
#include <stdio.h>
#include <stdlib.h>
#include <string.h>
#include <sys/socket.h>
#include <sys/stat.h>
#include <unistd.h>

static int log_file = -1;
static const char *writing = "";
static long room_left = -1, calls_before;
static const char *failing = "";

__attribute__((constructor)) static void begin(void)
{
    char *name = getenv("CALLS_FILE"), *room = getenv("ROOM_LEFT"), *fails = getenv("FAILING"), *before = getenv("CALLS_BEFORE");
    log_file = name ? open(name, O_CREAT | O_WRONLY | O_APPEND | O_CLOEXEC, 0600) : -1;
    room_left = room ? atol(room) : -1;
    failing = fails ? fails : "";
    calls_before = before ? atol(before) : 0;
}

static void tell(const char *call)
{
    if (log_file >= 0)
        dprintf(log_file, "%s\n", call);
}

static int fails(const char *call)
{
    writing = "";
    tell(call);
    errno = EIO;
    return strcmp(failing, call) == 0 && calls_before-- <= 0;
}

static int is_mark(int file)
{
    char link[64], path[4096];
    ssize_t count;
    sprintf(link, "/proc/self/fd/%d", file);
    count = readlink(link, path, sizeof path);
    return count > 5 && memcmp(path + count - 5, ".mark", 5) == 0;
}

/* How many of so many bytes there is room for, at this place of a regular file, or -1. */
static ssize_t allowed(int file, size_t count, off_t at, struct stat *seen)
{
    const char *call = is_mark(file) ? "mark" : "write";
    off_t grows = at + (off_t)count - seen->st_size;
    if (strcmp(writing, call) != 0)
        tell(call);
    writing = call;
    if (strcmp(failing, call) == 0 && calls_before-- <= 0) {
        errno = EIO;
        return -1;
    }
    if (room_left < 0 || grows <= 0)
        return count;
    if (grows > room_left)
        count -= grows - room_left;
    if (count == 0) {
        errno = ENOSPC;
        return -1;
    }
    room_left -= grows < room_left ? grows : room_left;
    return count;
}

static int is_regular(int file, struct stat *seen)
{
    return fstat(file, seen) == 0 && S_ISREG(seen->st_mode);
}

ssize_t write(int file, const void *bytes, size_t count)
{
    static ssize_t (*real)(int, const void *, size_t);
    struct stat seen;
    if (!real)
        real = dlsym(RTLD_NEXT, "write");
    if (is_regular(file, &seen)) {
        off_t at = fcntl(file, F_GETFL) & O_APPEND ? seen.st_size : lseek(file, 0, SEEK_CUR);
        ssize_t most = allowed(file, count, at, &seen);
        return most < 0 ? -1 : real(file, bytes, most);
    }
    return real(file, bytes, count);
}

ssize_t pwrite(int file, const void *bytes, size_t count, off_t at)
{
    static ssize_t (*real)(int, const void *, size_t, off_t);
    struct stat seen;
    if (!real)
        real = dlsym(RTLD_NEXT, "pwrite");
    if (is_regular(file, &seen)) {
        ssize_t most = allowed(file, count, at, &seen);
        return most < 0 ? -1 : real(file, bytes, most, at);
    }
    return real(file, bytes, count, at);
}

ssize_t pwrite64(int file, const void *bytes, size_t count, off_t at)
{
    return pwrite(file, bytes, count, at);
}

ssize_t send(int file, const void *bytes, size_t count, int flags)
{
    static ssize_t (*real)(int, const void *, size_t, int);
    if (!real)
        real = dlsym(RTLD_NEXT, "send");
    if (getenv("TELL_ANSWERS")) {
        writing = "";
        tell("answer");
    }
    return real(file, bytes, count, flags);
}

int fsync(int file)
{
    static int (*real)(int);
    if (!real)
        real = dlsym(RTLD_NEXT, "fsync");
    return fails(is_mark(file) ? "settle" : "sync") ? -1 : real(file);
}

int fdatasync(int file)
{
    static int (*real)(int);
    if (!real)
        real = dlsym(RTLD_NEXT, "fdatasync");
    return fails(is_mark(file) ? "settle" : "sync") ? -1 : real(file);
}

int rename(const char *from, const char *to)
{
    static int (*real)(const char *, const char *);
    if (!real)
        real = dlsym(RTLD_NEXT, "rename");
    return fails("rename") ? -1 : real(from, to);
}

int renameat(int from_folder, const char *from, int to_folder, const char *to)
{
    static int (*real)(int, const char *, int, const char *);
    if (!real)
        real = dlsym(RTLD_NEXT, "renameat");
    return fails("rename") ? -1 : real(from_folder, from, to_folder, to);
}
