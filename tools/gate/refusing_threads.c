/* Refuses threads of a program: preloaded, with REFUSE_THREADS the numbers of the refused starts, counted from 1, as ,1,3, and
   REFUSED_FILE a file that gets a byte for each. */
#define _GNU_SOURCE
#include <dlfcn.h>
#include <errno.h>
#include <fcntl.h>
#include <pthread.h>
#include <stdio.h>
#include <stdlib.h>
#include <string.h>
#include <unistd.h>

int pthread_create(pthread_t *thread, const pthread_attr_t *attributes, void *(*start)(void *), void *argument)
{
    static int (*real)(pthread_t *, const pthread_attr_t *, void *(*)(void *), void *);
    static int count;
    char number[16], *refused = getenv("REFUSE_THREADS"), *name = getenv("REFUSED_FILE");
    if (!real)
        real = dlsym(RTLD_NEXT, "pthread_create");
    snprintf(number, sizeof number, ",%d,", ++count);
    if (!refused || !strstr(refused, number))
        return real(thread, attributes, start, argument);
    if (name) {
        int file = open(name, O_CREAT | O_WRONLY | O_APPEND, 0600);
        if (write(file, "x", 1) != 1)
            abort();
        close(file);
    }
    return EAGAIN;
}
