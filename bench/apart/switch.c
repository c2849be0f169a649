// A network for hosts that are network namespaces: a switch that loses frames by chance.
// switch LOSS SEED NAMESPACE.. : each namespace gets a device eth0, which is up once it has an address; what one host
// sends goes to all others, but of each 10,000 frames so many as LOSS says are lost, for each of them by itself. It
// prints `ready` once the devices are there, and ends with its standard input: then it prints how many frames it
// passed on and how many it lost. Only datagrams of UDP are lost.
#define _GNU_SOURCE
#include <fcntl.h>
#include <linux/if.h>
#include <linux/if_tun.h>
#include <poll.h>
#include <sched.h>
#include <stdint.h>
#include <stdio.h>
#include <stdlib.h>
#include <string.h>
#include <sys/ioctl.h>
#include <unistd.h>

enum { MOST_HOSTS = 16, FRAME = 65536 };

static void fail(const char *what) {
    perror(what);
    exit(1);
}

// The device of a namespace.
static int device(const char *name) {
    char path[256];
    struct ifreq request = {.ifr_flags = IFF_TAP | IFF_NO_PI};
    snprintf(path, sizeof path, "/run/netns/%s", name);
    int space = open(path, O_RDONLY | O_CLOEXEC);
    if (space < 0 || setns(space, CLONE_NEWNET)) fail(path);
    close(space);
    int tap = open("/dev/net/tun", O_RDWR | O_NONBLOCK | O_CLOEXEC);
    if (tap < 0) fail("/dev/net/tun");
    strcpy(request.ifr_name, "eth0");
    if (ioctl(tap, TUNSETIFF, &request)) fail("TUNSETIFF");
    return tap;
}

static uint64_t state;

// Numbers by chance, by a shift register of 64 bits.
static uint64_t draw(void) {
    state ^= state << 13;
    state ^= state >> 7;
    state ^= state << 17;
    return state;
}

// Whether a frame is a datagram of UDP over IPv4.
static int is_datagram(const unsigned char *frame, ssize_t length) {
    return length > 23 && frame[12] == 8 && frame[13] == 0 && frame[23] == 17;
}

int main(int count, char **words) {
    if (count < 5 || count - 3 > MOST_HOSTS) {
        fprintf(stderr, "usage: switch LOSS SEED NAMESPACE NAMESPACE..\n");
        return 2;
    }
    static unsigned char frame[FRAME];
    struct pollfd from[MOST_HOSTS + 1];
    int hosts = count - 3;
    uint64_t loss = strtoull(words[1], NULL, 10), passed = 0, lost = 0;
    state = strtoull(words[2], NULL, 10) * 2 + 1;
    for (int i = 0; i < hosts; i++) from[i] = (struct pollfd){.fd = device(words[3 + i]), .events = POLLIN};
    from[hosts] = (struct pollfd){.fd = 0, .events = POLLIN};
    puts("ready");
    fflush(stdout);
    while (!from[hosts].revents) {
        if (poll(from, (nfds_t)hosts + 1, -1) < 0) fail("poll");
        for (int i = 0; i < hosts; i++) {
            ssize_t length;
            while (from[i].revents && (length = read(from[i].fd, frame, sizeof frame)) > 0) {
                for (int to = 0; to < hosts; to++) {
                    if (to == i) continue;
                    if (is_datagram(frame, length) && draw() % 10000 < loss) lost++;
                    else if (write(from[to].fd, frame, (size_t)length) == length) passed++;
                }
            }
        }
    }
    printf("passed %llu lost %llu\n", (unsigned long long)passed, (unsigned long long)lost);
    return 0;
}
