/* Interrupts calls of a program: preloaded. INTERRUPTS=N: N times before each call of a kind is made, it is answered EINTR.
   INTERRUPT_EVERY=N: each Nth call is. OF_FILES=1: so are calls on places and locks of files. TICKS=N: a signal comes every N microseconds,
   and interrupts what waits. With COUNTED_FILE it writes how many calls of each kind were answered EINTR, and how many signals came, to that
   file when the program ends by _exit. */
#define _GNU_SOURCE
#include <dlfcn.h>
#include <errno.h>
#include <fcntl.h>
#include <signal.h>
#include <stdarg.h>
#include <stdatomic.h>
#include <stdio.h>
#include <stdlib.h>
#include <sys/file.h>
#include <sys/socket.h>
#include <sys/syscall.h>
#include <sys/time.h>
#include <unistd.h>

enum kind { READ, RECV, WRITE, SEND, ACCEPT, OPEN, SYNC, KINDS };

static const char *names[KINDS] = {"read", "recv", "write", "send", "accept", "open", "sync"};
static long before_each, every, of_files;
static atomic_long made, ticks, told[KINDS];
static __thread long in_a_row[KINDS];

static void count_tick(int signal)
{
    (void)signal;
    ticks++;
}

static long number(const char *name)
{
    char *text = getenv(name);
    return text ? atol(text) : 0;
}

__attribute__((constructor)) static void begin(void)
{
    long wait = number("TICKS");
    struct sigaction action = {.sa_handler = count_tick};
    struct itimerval timer = {{wait / 1000000, wait % 1000000}, {wait / 1000000, wait % 1000000}};
    before_each = number("INTERRUPTS");
    every = number("INTERRUPT_EVERY");
    of_files = number("OF_FILES");
    if (wait) {
        sigaction(SIGALRM, &action, NULL);
        setitimer(ITIMER_REAL, &timer, NULL);
    }
}

static int interrupted(enum kind kind)
{
    if (in_a_row[kind] < before_each)
        in_a_row[kind]++;
    else if (every && ++made % every == 0)
        ;
    else {
        in_a_row[kind] = 0;
        return 0;
    }
    told[kind]++;
    errno = EINTR;
    return 1;
}

#define REAL(name) \
    static typeof(&name) real; \
    if (!real) \
        real = (typeof(&name))dlsym(RTLD_NEXT, #name)

ssize_t read(int file, void *bytes, size_t count)
{
    REAL(read);
    return interrupted(READ) ? -1 : real(file, bytes, count);
}

ssize_t recv(int file, void *bytes, size_t count, int flags)
{
    REAL(recv);
    return interrupted(RECV) ? -1 : real(file, bytes, count, flags);
}

ssize_t write(int file, const void *bytes, size_t count)
{
    REAL(write);
    return interrupted(WRITE) ? -1 : real(file, bytes, count);
}

ssize_t send(int file, const void *bytes, size_t count, int flags)
{
    REAL(send);
    return interrupted(SEND) ? -1 : real(file, bytes, count, flags);
}

int accept(int file, struct sockaddr *address, socklen_t *size)
{
    REAL(accept);
    return interrupted(ACCEPT) ? -1 : real(file, address, size);
}

int accept4(int file, struct sockaddr *address, socklen_t *size, int flags)
{
    REAL(accept4);
    return interrupted(ACCEPT) ? -1 : real(file, address, size, flags);
}

/* (a read of no bytes waits for nothing) */
ssize_t pread(int file, void *bytes, size_t count, off_t at)
{
    REAL(pread);
    return of_files && count && interrupted(READ) ? -1 : real(file, bytes, count, at);
}

ssize_t pwrite(int file, const void *bytes, size_t count, off_t at)
{
    REAL(pwrite);
    return of_files && interrupted(WRITE) ? -1 : real(file, bytes, count, at);
}

int ftruncate(int file, off_t count)
{
    REAL(ftruncate);
    return of_files && interrupted(SYNC) ? -1 : real(file, count);
}

int flock(int file, int how)
{
    REAL(flock);
    return of_files && interrupted(OPEN) ? -1 : real(file, how);
}

int fsync(int file)
{
    REAL(fsync);
    return interrupted(SYNC) ? -1 : real(file);
}

int fdatasync(int file)
{
    REAL(fdatasync);
    return interrupted(SYNC) ? -1 : real(file);
}

int open(const char *path, int flags, ...)
{
    va_list more;
    int mode;
    REAL(open);
    va_start(more, flags);
    mode = va_arg(more, int);
    va_end(more);
    return interrupted(OPEN) ? -1 : real(path, flags, mode);
}

void _exit(int status)
{
    char *name = getenv("COUNTED_FILE");
    int file = name ? syscall(SYS_openat, AT_FDCWD, name, O_CREAT | O_WRONLY | O_TRUNC, 0600) : -1;
    for (int kind = 0; file >= 0 && kind < KINDS; kind++)
        dprintf(file, "%s %ld\n", names[kind], told[kind]);
    if (file >= 0)
        dprintf(file, "ticks %ld\n", ticks);
    for (;;)
        syscall(SYS_exit_group, status);
}
