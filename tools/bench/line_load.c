/* Sends lines to a server over so many connections at once, and prints how many it answered in a second.

   line_load ADDRESS CONNECTIONS LINES WINDOW FIRST KIND     ADDRESS is unix:PATH or tcp:IP:PORT

   Each connection is a thread, which sends LINES lines, at most WINDOW of them before their answers: with 1 it waits for each. KIND is `insert`, with
   ids from FIRST on and others for each connection; `modify`, of the first record; or `size`. An answer that is a fault ends the program with
   status 1. It prints the seconds from the first line to the last answer, and the lines. */
#define _GNU_SOURCE
#include <arpa/inet.h>
#include <netinet/in.h>
#include <netinet/tcp.h>
#include <pthread.h>
#include <stdio.h>
#include <stdlib.h>
#include <string.h>
#include <sys/socket.h>
#include <sys/un.h>
#include <time.h>
#include <unistd.h>

#define ROOM 65536
#define LONGEST 128

static const char *address, *kind;
static long lines, window, first;
static pthread_barrier_t begun;

static void fail(const char *why)
{
    perror(why);
    exit(1);
}

static int connected(void)
{
    struct sockaddr_un path = {.sun_family = AF_UNIX};
    struct sockaddr_in place = {.sin_family = AF_INET};
    const char *port = strrchr(address, ':');
    int is_unix = strncmp(address, "unix:", 5) == 0, on = 1;
    int peer = socket(is_unix ? AF_UNIX : AF_INET, SOCK_STREAM, 0);
    if (is_unix) {
        snprintf(path.sun_path, sizeof path.sun_path, "%s", address + 5);
        if (connect(peer, (struct sockaddr *)&path, sizeof path))
            fail(address);
        return peer;
    }
    char host[64] = "";
    strncat(host, address + 4, port - address - 4);
    place.sin_port = htons(atoi(port + 1));
    if (inet_pton(AF_INET, host, &place.sin_addr) != 1 || connect(peer, (struct sockaddr *)&place, sizeof place))
        fail(address);
    setsockopt(peer, IPPROTO_TCP, TCP_NODELAY, &on, sizeof on);
    return peer;
}

static int spelled(char *to, long number)
{
    if (*kind == 'i')
        return sprintf(to, "{\"op\":\"insert\",\"t\":\"p\",\"r\":{\"id\":%ld,\"n\":%ld}}\n", number, number % 1009);
    if (*kind == 'm')
        return sprintf(to, "{\"op\":\"modify\",\"t\":\"p\",\"h\":\"0:1\",\"add\":{\"n\":1}}\n");
    return sprintf(to, "{\"op\":\"size\",\"t\":\"p\"}\n");
}

/* Reads some answers, and gives how many. */
static long answered(int peer)
{
    static __thread char said[ROOM];
    ssize_t count = recv(peer, said, sizeof said, 0);
    long ends = 0;
    if (count <= 0)
        fail("the connection ended");
    for (char *at = said; (at = memchr(at, '\n', said + count - at)); at++)
        ends++;
    if (memmem(said, count, "\"err\"", 5)) {
        fprintf(stderr, "%.*s", (int)count, said);
        exit(1);
    }
    return ends;
}

static void send_all(int peer, const char *bytes, size_t count)
{
    while (count) {
        ssize_t sent = send(peer, bytes, count, MSG_NOSIGNAL);
        if (sent <= 0)
            fail("send");
        bytes += sent;
        count -= sent;
    }
}

static void *play(void *number)
{
    long sent = 0, done = 0, from = first + (long)number * lines;
    char *text = malloc(ROOM);
    int peer = connected();
    pthread_barrier_wait(&begun);
    while (done < lines) {
        size_t count = 0;
        while (sent < lines && sent - done < window && count + LONGEST < ROOM)
            count += spelled(text + count, from + sent++);
        send_all(peer, text, count);
        done += answered(peer);
    }
    close(peer);
    return NULL;
}

static double now(void)
{
    struct timespec time;
    clock_gettime(CLOCK_MONOTONIC, &time);
    return time.tv_sec + time.tv_nsec / 1e9;
}

int main(int count, char **words)
{
    if (count != 7)
        return 2;
    long connections = atol(words[2]);
    pthread_t threads[connections];
    address = words[1], kind = words[6];
    lines = atol(words[3]), window = atol(words[4]), first = atol(words[5]);
    pthread_barrier_init(&begun, NULL, connections + 1);
    for (long at = 0; at < connections; at++)
        pthread_create(&threads[at], NULL, play, (void *)at);
    pthread_barrier_wait(&begun);
    double start = now();
    for (long at = 0; at < connections; at++)
        pthread_join(threads[at], NULL);
    printf("%.6f %ld\n", now() - start, connections * lines);
    return 0;
}
