/* Refuses one allocation of a program: preloaded, with REFUSE_AT the number of the refused call, counted from 1,
   and REFUSED_FILE a file that is made when it is refused. REFUSE_ON=1 refuses every later call too. With ARMED_FILE, a file of one byte,
   calls count only while that byte is not 0. With COUNTED_FILE it writes the number of the calls to that file when the program ends. With
   STEPS_FILE it adds a line to that file at each open, read, socket and write: which it is, of what, and the number of the calls so far. */
#define _GNU_SOURCE
#include <dlfcn.h>
#include <errno.h>
#include <fcntl.h>
#include <stdarg.h>
#include <stdio.h>
#include <stdlib.h>
#include <sys/mman.h>
#include <sys/syscall.h>
#include <unistd.h>

static long count, refused_at = -1;
static int refuses_on;
static char *mark;
static volatile char *armed;

static void begin(void)
{
    char *number = getenv("REFUSE_AT"), *name = getenv("ARMED_FILE");
    refused_at = number ? atol(number) : 0;
    refuses_on = getenv("REFUSE_ON") != NULL;
    mark = getenv("REFUSED_FILE");
    if (name) {
        int file = open(name, O_RDONLY);
        armed = mmap(NULL, 1, PROT_READ, MAP_SHARED, file, 0);
        close(file);
    }
}

static int refused(void)
{
    if (refused_at < 0)
        begin();
    if (armed && !*armed)
        return 0;
    count++;
    if (refused_at == 0 || !(count == refused_at || (refuses_on && count > refused_at)))
        return 0;
    if (count == refused_at && mark)
        close(open(mark, O_CREAT | O_WRONLY, 0600));
    errno = ENOMEM;
    return 1;
}

void *malloc(size_t size)
{
    static void *(*real)(size_t);
    if (!real)
        real = dlsym(RTLD_NEXT, "malloc");
    return refused() ? NULL : real(size);
}

void *realloc(void *old, size_t size)
{
    static void *(*real)(void *, size_t);
    if (!real)
        real = dlsym(RTLD_NEXT, "realloc");
    return refused() ? NULL : real(old, size);
}

int posix_memalign(void **block, size_t align, size_t size)
{
    static int (*real)(void **, size_t, size_t);
    if (!real)
        real = dlsym(RTLD_NEXT, "posix_memalign");
    return refused() ? ENOMEM : real(block, align, size);
}

void *aligned_alloc(size_t align, size_t size)
{
    static void *(*real)(size_t, size_t);
    if (!real)
        real = dlsym(RTLD_NEXT, "aligned_alloc");
    return refused() ? NULL : real(align, size);
}

/* The program has one thread up to the steps that are looked for. (What prints into a file would allocate.) */
static void step(const char *what, const char *of)
{
    static int file = -1;
    char *name = getenv("STEPS_FILE"), line[200];
    if (!name)
        return;
    if (file < 0)
        file = (int)syscall(SYS_open, name, O_CREAT | O_WRONLY | O_APPEND, 0600);
    syscall(SYS_write, file, line, snprintf(line, sizeof line, "%s %.99s %ld\n", what, of, count));
}

int open(const char *path, int flags, ...)
{
    static int (*real)(const char *, int, ...);
    va_list more;
    int mode = 0;
    if (!real)
        real = dlsym(RTLD_NEXT, "open");
    if (flags & O_CREAT) {
        va_start(more, flags);
        mode = va_arg(more, int);
        va_end(more);
    }
    step("open", path);
    return real(path, flags, mode);
}

ssize_t read(int file, void *to, size_t size)
{
    static ssize_t (*real)(int, void *, size_t);
    if (!real)
        real = dlsym(RTLD_NEXT, "read");
    step("read", file ? "file" : "input");
    return real(file, to, size);
}

int socket(int domain, int type, int protocol)
{
    static int (*real)(int, int, int);
    if (!real)
        real = dlsym(RTLD_NEXT, "socket");
    step("socket", "listener");
    return real(domain, type, protocol);
}

ssize_t write(int file, const void *from, size_t size)
{
    static ssize_t (*real)(int, const void *, size_t);
    if (!real)
        real = dlsym(RTLD_NEXT, "write");
    step("write", file == 1 ? "output" : "file");
    return real(file, from, size);
}

__attribute__((destructor)) static void tell(void)
{
    char *name = getenv("COUNTED_FILE");
    if (name)
        dprintf(open(name, O_CREAT | O_WRONLY | O_TRUNC, 0600), "%ld\n", count);
}

void _exit(int status)
{
    tell();
    for (;;)
        syscall(SYS_exit_group, status);
}
