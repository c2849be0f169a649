// A bare server: a thread for each connection, which answers requests of clients with as many bytes as a node does, and
// does nothing else. echo: listens at a free port of loopback, and prints it.
#include <arpa/inet.h>
#include <netinet/in.h>
#include <netinet/tcp.h>
#include <pthread.h>
#include <signal.h>
#include <stdint.h>
#include <stdio.h>
#include <stdlib.h>
#include <string.h>
#include <sys/socket.h>
#include <unistd.h>

static void fail(const char *what) {
    perror(what);
    exit(1);
}

// Reads so many bytes; 0 where the connection ends before.
static int take(int stream, unsigned char *bytes, size_t count) {
    while (count) {
        ssize_t got = read(stream, bytes, count);
        if (got <= 0) return 0;
        bytes += got;
        count -= (size_t)got;
    }
    return 1;
}

// Reads the rest of a request of this kind: how many bytes its reply has; 0 where there is none.
static size_t take_request(int stream, unsigned char kind) {
    unsigned char bytes[256];
    uint32_t length;
    switch (kind) {
    case 1: // a program: a text and notes, each after its length
        for (int part = 0; part < 2; part++) {
            if (!take(stream, (unsigned char *)&length, 4)) return 0;
            while (length) {
                size_t some = length < sizeof bytes ? length : sizeof bytes;
                if (!take(stream, bytes, some)) return 0;
                length -= (uint32_t)some;
            }
        }
        return 5;
    case 2: // a query
        return take(stream, bytes, 12) ? 9 : 0;
    case 4: // an answer
        return take(stream, bytes, 8) ? 18 : 0;
    case 5: // a store
        return take(stream, bytes, 1) && take(stream, bytes + 1, bytes[0]) ? 9 : 0;
    }
    return 0;
}

static void *serve(void *argument) {
    int stream = (int)(intptr_t)argument;
    unsigned char kind, reply[18] = {0, 0};
    while (take(stream, &kind, 1)) {
        size_t length = take_request(stream, kind);
        if (!length) break;
        reply[1] = length == 18; // there is an answer
        if (write(stream, reply, length) != (ssize_t)length) break;
    }
    close(stream);
    return NULL;
}

int main(void) {
    struct sockaddr_in at = {.sin_family = AF_INET};
    socklen_t length = sizeof at;
    int yes = 1, door = socket(AF_INET, SOCK_STREAM, 0);
    signal(SIGPIPE, SIG_IGN);
    at.sin_addr.s_addr = htonl(INADDR_LOOPBACK);
    if (door < 0) fail("socket");
    if (bind(door, (struct sockaddr *)&at, sizeof at)) fail("bind");
    if (getsockname(door, (struct sockaddr *)&at, &length)) fail("getsockname");
    if (listen(door, 64)) fail("listen");
    printf("%d\n", ntohs(at.sin_port));
    fflush(stdout);
    for (;;) {
        int stream = accept(door, NULL, NULL);
        pthread_t thread;
        if (stream < 0) fail("accept");
        setsockopt(stream, IPPROTO_TCP, TCP_NODELAY, &yes, sizeof yes);
        if (pthread_create(&thread, NULL, serve, (void *)(intptr_t)stream)) fail("pthread_create");
        pthread_detach(thread);
    }
}
