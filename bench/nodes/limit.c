// The limit of a cluster of nodes: threads with a socket of loopback each, which exchange the datagrams that the nodes
// of `bqview cluster` exchange, and do nothing else. limit NODES COUNT IN_FLIGHT [ask]
#include <arpa/inet.h>
#include <pthread.h>
#include <stdatomic.h>
#include <stdio.h>
#include <stdlib.h>
#include <string.h>
#include <sys/resource.h>
#include <sys/socket.h>
#include <sys/time.h>
#include <time.h>
#include <unistd.h>

enum { MOST_NODES = 16, MOST_OPEN = 64, BUFFER = 60001 };

// What the first byte of a datagram says. Its second byte is the number of the operation.
enum { QUERY = 1, REPLY, STORE, ACKNOWLEDGEMENT, ECHO };

// How many bytes the datagrams have, where the view has one value of 48 bytes, as that of a number.
enum { QUERY_BYTES = 20, REPLY_BYTES = 95, STORE_BYTES = 87, ACKNOWLEDGEMENT_BYTES = 28, ECHO_BYTES = 79 };

static int nodes, needed, is_ask;
static int sockets[MOST_NODES + 1];
static struct sockaddr_in addresses[MOST_NODES + 1];
static atomic_bool over;

// The operations that main began and node 0's thread has still to send, and those that have ended.
static pthread_mutex_t lock = PTHREAD_MUTEX_INITIALIZER;
static pthread_cond_t bell = PTHREAD_COND_INITIALIZER;
static unsigned char waiting[MOST_OPEN];
static int waiting_count;
static int ended_count;

static void fail(const char *what) {
    perror(what);
    exit(1);
}

static void send_one(int from, int to, unsigned char kind, unsigned char operation, size_t length) {
    unsigned char bytes[128] = {kind, operation};
    sendto(sockets[from], bytes, length, 0, (struct sockaddr *)&addresses[to], sizeof addresses[to]);
}

static void send_all(int from, unsigned char kind, unsigned char operation, size_t length) {
    for (int to = 0; to < nodes; to++) send_one(from, to, kind, operation, length);
}

// An answer to node 0's operation has come. Each phase ends with the answer that makes them enough.
static int answers[MOST_OPEN];

static int is_last(unsigned char operation) {
    return ++answers[operation] == needed;
}

static void begin_store(unsigned char operation) {
    answers[operation] = 0;
    send_all(0, STORE, operation, STORE_BYTES);
}

// Takes what main put there, and begins it.
static void begin_waiting(void) {
    unsigned char taken[MOST_OPEN];
    pthread_mutex_lock(&lock);
    int count = waiting_count;
    memcpy(taken, waiting, (size_t)count);
    waiting_count = 0;
    pthread_mutex_unlock(&lock);
    for (int i = 0; i < count; i++) {
        if (is_ask) {
            answers[taken[i]] = 0;
            send_all(0, QUERY, taken[i], QUERY_BYTES);
        } else {
            begin_store(taken[i]);
        }
    }
}

static void end_operation(void) {
    pthread_mutex_lock(&lock);
    ended_count++;
    pthread_cond_signal(&bell);
    pthread_mutex_unlock(&lock);
}

static void take(int node, const unsigned char *bytes, ssize_t length) {
    if (length == 0) return;
    unsigned char operation = bytes[1];
    switch (bytes[0]) {
    case QUERY:
        send_one(node, 0, REPLY, operation, REPLY_BYTES);
        break;
    case REPLY:
        if (is_last(operation)) begin_store(operation);
        break;
    case STORE:
        send_one(node, 0, ACKNOWLEDGEMENT, operation, ACKNOWLEDGEMENT_BYTES);
        send_all(node, ECHO, operation, ECHO_BYTES);
        break;
    case ACKNOWLEDGEMENT:
        if (is_last(operation)) end_operation();
        break;
    }
}

static void *tend(void *argument) {
    int node = (int)(long)argument;
    unsigned char *buffer = malloc(BUFFER);
    while (!atomic_load(&over)) {
        ssize_t length = recvfrom(sockets[node], buffer, BUFFER, 0, NULL, NULL);
        if (length >= 0) take(node, buffer, length);
        if (node == 0) begin_waiting();
    }
    free(buffer);
    return NULL;
}

static void open_socket(int node) {
    struct timeval patience = {.tv_usec = 50000};
    socklen_t length = sizeof addresses[node];
    addresses[node].sin_family = AF_INET;
    addresses[node].sin_addr.s_addr = htonl(INADDR_LOOPBACK);
    sockets[node] = socket(AF_INET, SOCK_DGRAM, 0);
    if (sockets[node] < 0) fail("socket");
    if (bind(sockets[node], (struct sockaddr *)&addresses[node], length)) fail("bind");
    if (getsockname(sockets[node], (struct sockaddr *)&addresses[node], &length)) fail("getsockname");
    if (setsockopt(sockets[node], SOL_SOCKET, SO_RCVTIMEO, &patience, sizeof patience)) fail("setsockopt");
}

// Begins an operation, and rings node 0's bell.
static void begin(unsigned char operation) {
    pthread_mutex_lock(&lock);
    waiting[waiting_count++] = operation;
    pthread_mutex_unlock(&lock);
    sendto(sockets[nodes], "", 0, 0, (struct sockaddr *)&addresses[0], sizeof addresses[0]);
}

// Waits until so many have ended since this was last called, at most a second: how many have.
static int await_ended(void) {
    struct timespec until;
    clock_gettime(CLOCK_REALTIME, &until);
    until.tv_sec++;
    pthread_mutex_lock(&lock);
    while (ended_count == 0 && pthread_cond_timedwait(&bell, &lock, &until) == 0) {
    }
    int ended = ended_count;
    ended_count = 0;
    pthread_mutex_unlock(&lock);
    return ended;
}

static double seconds(struct timespec start) {
    struct timespec now;
    clock_gettime(CLOCK_MONOTONIC, &now);
    return (double)(now.tv_sec - start.tv_sec) + (double)(now.tv_nsec - start.tv_nsec) / 1e9;
}

static double processor_seconds(void) {
    struct rusage used;
    getrusage(RUSAGE_SELF, &used);
    return (double)(used.ru_utime.tv_sec + used.ru_stime.tv_sec)
        + (double)(used.ru_utime.tv_usec + used.ru_stime.tv_usec) / 1e6;
}

int main(int count, char **words) {
    if (count < 4) {
        fprintf(stderr, "usage: limit NODES COUNT IN_FLIGHT [ask]\n");
        return 2;
    }
    nodes = atoi(words[1]);
    int operations = atoi(words[2]), most = atoi(words[3]);
    is_ask = count > 4;
    if (nodes < 1 || nodes > MOST_NODES || most < 1 || most > MOST_OPEN) return 2;
    needed = (nodes * 4 + 4) / 5;
    for (int node = 0; node <= nodes; node++) open_socket(node);
    pthread_t threads[MOST_NODES];
    for (long node = 0; node < nodes; node++) pthread_create(&threads[node], NULL, tend, (void *)node);
    struct timespec start;
    clock_gettime(CLOCK_MONOTONIC, &start);
    double used = processor_seconds();
    int begun = 0, ended = 0, lost = 0;
    while (ended + lost < operations) {
        while (begun < operations && begun - ended - lost < most) begin((unsigned char)(begun++ % MOST_OPEN));
        int more = await_ended();
        if (more == 0) lost = begun - ended;
        ended += more;
    }
    double taken = seconds(start);
    used = processor_seconds() - used;
    atomic_store(&over, 1);
    for (int node = 0; node < nodes; node++) pthread_join(threads[node], NULL);
    printf("%d %.0f %.1f %d\n", ended, ended / taken, used * 1e6 / operations, lost);
    return 0;
}
