/* Refuses accepts of a program: preloaded. REFUSE_TURN=N: the Nth accept of a thread is refused, with the error REFUSE_ERROR, in as many threads as
   REFUSE_THREADS says, the first that come to it. REFUSED_FILE names a file that gets a byte for each. */
#define _GNU_SOURCE
#include <dlfcn.h>
#include <errno.h>
#include <fcntl.h>
#include <stdatomic.h>
#include <stdlib.h>
#include <sys/socket.h>
#include <unistd.h>

static long turn, error;
static atomic_long left;
static __thread long made;

static long number(const char *name)
{
    char *text = getenv(name);
    return text ? atol(text) : 0;
}

__attribute__((constructor)) static void begin(void)
{
    turn = number("REFUSE_TURN");
    error = number("REFUSE_ERROR");
    left = number("REFUSE_THREADS");
}

static int refused(void)
{
    char *name = getenv("REFUSED_FILE");
    int file;
    if (++made != turn || left-- <= 0)
        return 0;
    file = open(name, O_CREAT | O_WRONLY | O_APPEND, 0600);
    if (file < 0 || write(file, "x", 1) != 1)
        abort();
    close(file);
    errno = error;
    return 1;
}

int accept(int file, struct sockaddr *address, socklen_t *size)
{
    static typeof(&accept) real;
    if (!real)
        real = (typeof(&accept))dlsym(RTLD_NEXT, "accept");
    return refused() ? -1 : real(file, address, size);
}

int accept4(int file, struct sockaddr *address, socklen_t *size, int flags)
{
    static typeof(&accept4) real;
    if (!real)
        real = (typeof(&accept4))dlsym(RTLD_NEXT, "accept4");
    return refused() ? -1 : real(file, address, size, flags);
}
