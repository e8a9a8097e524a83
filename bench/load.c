/* A client of many connections, and a server that answers each request with as many bytes as it is told: what
   bench/serve.py measures the service with, and beside.

   load ask PORT FILE..   each file has the requests of one connection; each is sent when the reply to the one before it
                          is whole. Prints: requests, those told 200, seconds, and the microseconds of a reply that half
                          of all, and 99 of 100, came within.
   load echo PORT BYTES   answers each request on each connection with a body of so many bytes, until it is stopped. */
#include <arpa/inet.h>
#include <netinet/tcp.h>
#include <pthread.h>
#include <stdio.h>
#include <stdlib.h>
#include <string.h>
#include <time.h>
#include <unistd.h>

enum { ROOM = 1 << 22 };

struct stream {
    char *bytes;
    size_t size;
    long requests, accepted;
    double *took; /* microseconds of each reply */
    int port;
};

static pthread_barrier_t begin;

static void fail(const char *what)
{
    perror(what);
    exit(1);
}

static double now(void)
{
    struct timespec t;
    clock_gettime(CLOCK_MONOTONIC, &t);
    return t.tv_sec * 1e6 + t.tv_nsec / 1e3;
}

/* How long the message is that begins these bytes, or 0 where its head isn't whole. */
static size_t message(const char *bytes, size_t size)
{
    const char *end = memmem(bytes, size, "\r\n\r\n", 4);
    if (!end)
        return 0;
    const char *said = memmem(bytes, end - bytes + 2, "Content-Length: ", 16);
    return end + 4 - bytes + (said ? strtoul(said + 16, NULL, 10) : 0);
}

/* Reads a whole message into the room; its length, or 0 at the end of the stream. */
static size_t receive(int link, char *room)
{
    size_t have = 0, whole = 0;
    while (!whole || have < whole) {
        ssize_t got = read(link, room + have, ROOM - have);
        if (got <= 0)
            return 0;
        have += got;
        whole = whole ? whole : message(room, have);
    }
    return whole;
}

static void send_all(int link, const char *bytes, size_t size)
{
    while (size) {
        ssize_t sent = write(link, bytes, size);
        if (sent <= 0)
            fail("write");
        bytes += sent;
        size -= sent;
    }
}

static struct sockaddr_in loopback(int port)
{
    struct sockaddr_in at = {.sin_family = AF_INET, .sin_port = htons(port)};
    at.sin_addr.s_addr = htonl(INADDR_LOOPBACK);
    return at;
}

static void *ask(void *given)
{
    struct stream *own = given;
    int link = socket(AF_INET, SOCK_STREAM, 0), yes = 1;
    struct sockaddr_in at = loopback(own->port);
    if (connect(link, (struct sockaddr *)&at, sizeof at))
        fail("connect");
    setsockopt(link, IPPROTO_TCP, TCP_NODELAY, &yes, sizeof yes);
    char *room = malloc(ROOM);
    pthread_barrier_wait(&begin);
    for (size_t place = 0; place < own->size;) {
        size_t whole = message(own->bytes + place, own->size - place);
        double start = now();
        send_all(link, own->bytes + place, whole);
        if (!receive(link, room))
            fail("no reply");
        own->took[own->requests++] = now() - start;
        own->accepted += !memcmp(room, "HTTP/1.1 200", 12);
        place += whole;
    }
    close(link);
    return NULL;
}

static int by_size(const void *a, const void *b)
{
    double x = *(const double *)a, y = *(const double *)b;
    return (x > y) - (x < y);
}

static void read_stream(struct stream *own, const char *path, int port)
{
    FILE *file = fopen(path, "rb");
    if (!file)
        fail(path);
    fseek(file, 0, SEEK_END);
    own->size = ftell(file);
    rewind(file);
    own->bytes = malloc(own->size + 1);
    own->port = port;
    if (fread(own->bytes, 1, own->size, file) != own->size)
        fail(path);
    fclose(file);
    long count = 0;
    for (size_t place = 0; place < own->size; count++)
        place += message(own->bytes + place, own->size - place);
    own->took = malloc((count + 1) * sizeof *own->took);
}

static int ask_all(int port, int count, char **paths)
{
    struct stream *streams = calloc(count, sizeof *streams);
    pthread_t *threads = calloc(count, sizeof *threads);
    pthread_barrier_init(&begin, NULL, count + 1);
    for (int n = 0; n < count; n++)
        read_stream(&streams[n], paths[n], port);
    for (int n = 0; n < count; n++)
        pthread_create(&threads[n], NULL, ask, &streams[n]);
    pthread_barrier_wait(&begin);
    double start = now();
    long requests = 0, accepted = 0;
    for (int n = 0; n < count; n++) {
        pthread_join(threads[n], NULL);
        requests += streams[n].requests;
        accepted += streams[n].accepted;
    }
    double seconds = (now() - start) / 1e6;
    double *all = malloc(requests * sizeof *all), *place = all;
    for (int n = 0; n < count; n++)
        for (long k = 0; k < streams[n].requests; k++)
            *place++ = streams[n].took[k];
    qsort(all, requests, sizeof *all, by_size);
    printf("%ld %ld %.6f %.1f %.1f\n", requests, accepted, seconds, all[requests / 2], all[requests * 99 / 100]);
    return 0;
}

static char *answer;
static size_t answer_size;

static void *echo(void *given)
{
    int link = (int)(long)given, yes = 1;
    setsockopt(link, IPPROTO_TCP, TCP_NODELAY, &yes, sizeof yes);
    char *room = malloc(ROOM);
    while (receive(link, room))
        send_all(link, answer, answer_size);
    close(link);
    free(room);
    return NULL;
}

static void echo_all(int port, size_t bytes)
{
    answer = malloc(bytes + 100);
    answer_size = sprintf(answer, "HTTP/1.1 200 OK\r\nContent-Length: %zu\r\n\r\n", bytes);
    memset(answer + answer_size, '.', bytes);
    answer_size += bytes;
    int door = socket(AF_INET, SOCK_STREAM, 0), yes = 1;
    setsockopt(door, SOL_SOCKET, SO_REUSEADDR, &yes, sizeof yes);
    struct sockaddr_in at = loopback(port);
    if (bind(door, (struct sockaddr *)&at, sizeof at) || listen(door, 128))
        fail("listen");
    for (;;) {
        int link = accept(door, NULL, NULL);
        pthread_t thread;
        if (link < 0 || pthread_create(&thread, NULL, echo, (void *)(long)link))
            fail("accept");
        pthread_detach(thread);
    }
}

int main(int count, char **words)
{
    if (count > 3 && !strcmp(words[1], "ask"))
        return ask_all(atoi(words[2]), count - 3, words + 3);
    if (count == 4 && !strcmp(words[1], "echo"))
        echo_all(atoi(words[2]), strtoul(words[3], NULL, 10));
    fprintf(stderr, "usage: load ask PORT FILE.. | load echo PORT BYTES\n");
    return 2;
}
