// Clients of a node, or of the bare server: load HOST PORT stores|asks|looks CLIENTS COUNT
// So many clients, each with a thread and a connection, make COUNT operations in all, one after another each. It prints
// how many were done, in how many seconds, and the median, the 99th of 100 and the longest of their times, in
// microseconds. HOST is an IPv4 address. Program 0 has to be registered.
#include <arpa/inet.h>
#include <netinet/in.h>
#include <netinet/tcp.h>
#include <pthread.h>
#include <stdint.h>
#include <stdio.h>
#include <stdlib.h>
#include <string.h>
#include <sys/socket.h>
#include <time.h>
#include <unistd.h>

enum { MOST_CLIENTS = 64 };

static struct sockaddr_in at;
static pthread_barrier_t gate;
static char kind;
static int clients, count;
static uint64_t answered;
static double *times;

static void fail(const char *what) {
    fprintf(stderr, "load: ");
    perror(what);
    exit(1);
}

static double now(void) {
    struct timespec time;
    clock_gettime(CLOCK_MONOTONIC, &time);
    return (double)time.tv_sec + (double)time.tv_nsec / 1e9;
}

static int opened(void) {
    int yes = 1, stream = socket(AF_INET, SOCK_STREAM, 0);
    if (stream < 0) fail("socket");
    if (connect(stream, (struct sockaddr *)&at, sizeof at)) fail("connect");
    if (setsockopt(stream, IPPROTO_TCP, TCP_NODELAY, &yes, sizeof yes)) fail("setsockopt");
    return stream;
}

static void take(int stream, unsigned char *bytes, size_t length) {
    while (length) {
        ssize_t got = read(stream, bytes, length);
        if (got < 0) fail("read");
        if (got == 0) {
            fprintf(stderr, "load: the connection was closed\n");
            exit(1);
        }
        bytes += got;
        length -= (size_t)got;
    }
}

// Makes a request, and reads so many bytes of its reply. A refusal ends all.
static void exchange(int stream, const unsigned char *request, size_t length, unsigned char *reply, size_t bytes) {
    if (write(stream, request, length) != (ssize_t)length) fail("write");
    take(stream, reply, 1);
    if (reply[0]) {
        fprintf(stderr, "load: refused %d\n", reply[0]);
        exit(1);
    }
    take(stream, reply + 1, bytes - 1);
}

// Numbers have their lowest byte first, as those of the machine.
static void store(int stream, uint64_t value) {
    unsigned char request[10] = {5, 8}, reply[9];
    memcpy(request + 2, &value, 8);
    exchange(stream, request, sizeof request, reply, sizeof reply);
}

// Whether the query is answered.
static int look(int stream, uint64_t query) {
    unsigned char request[9] = {4}, reply[18];
    memcpy(request + 1, &query, 8);
    exchange(stream, request, sizeof request, reply, 2);
    if (reply[1]) take(stream, reply + 2, 16);
    return reply[1];
}

static uint64_t ask(int stream) {
    unsigned char request[13] = {2}, reply[9];
    uint64_t query;
    exchange(stream, request, sizeof request, reply, sizeof reply);
    memcpy(&query, reply + 1, 8);
    while (!look(stream, query)) {
    }
    return query;
}

static void *work(void *argument) {
    int client = (int)(intptr_t)argument;
    int stream = opened();
    pthread_barrier_wait(&gate);
    for (int i = client; i < count; i += clients) {
        double start = now();
        if (kind == 's') store(stream, (uint64_t)i);
        else if (kind == 'a') ask(stream);
        else if (!look(stream, answered)) exit(1);
        times[i] = now() - start;
    }
    close(stream);
    return NULL;
}

static int compare(const void *left, const void *right) {
    double a = *(const double *)left, b = *(const double *)right;
    return (a > b) - (a < b);
}

int main(int words_count, char **words) {
    pthread_t threads[MOST_CLIENTS];
    if (words_count != 6) {
        fprintf(stderr, "usage: load HOST PORT stores|asks|looks CLIENTS COUNT\n");
        return 2;
    }
    at.sin_family = AF_INET;
    at.sin_port = htons((uint16_t)atoi(words[2]));
    kind = words[3][0];
    clients = atoi(words[4]);
    count = atoi(words[5]);
    if (inet_pton(AF_INET, words[1], &at.sin_addr) != 1 || !kind || !strchr("sal", kind)) return 2;
    if (clients < 1 || clients > MOST_CLIENTS || count < clients) return 2;
    times = calloc((size_t)count, sizeof *times);
    if (!times || pthread_barrier_init(&gate, NULL, (unsigned)clients + 1)) fail("memory");
    if (kind == 'l') { // a query that is answered, at which all look
        int stream = opened();
        answered = ask(stream);
        close(stream);
    }
    for (int i = 0; i < clients; i++)
        if (pthread_create(&threads[i], NULL, work, (void *)(intptr_t)i)) fail("pthread_create");
    pthread_barrier_wait(&gate);
    double start = now();
    for (int i = 0; i < clients; i++) pthread_join(threads[i], NULL);
    double taken = now() - start;
    qsort(times, (size_t)count, sizeof *times, compare);
    printf("%d %.6f %.1f %.1f %.1f\n", count, taken, times[count / 2] * 1e6, times[(size_t)count * 99 / 100] * 1e6,
        times[count - 1] * 1e6);
    return 0;
}
