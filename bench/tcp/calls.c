/* Round trips of heartbeats over loopback: calls HOST-PORT CONNECTIONS SECONDS.
 * Opens so many connections, and on each sends a heartbeat, awaits the answer, and sends the next. Prints how many answers
 * came in a second, over all connections. An answer that isn't the heartbeat itself ends it with 1. */
#include <arpa/inet.h>
#include <errno.h>
#include <netinet/tcp.h>
#include <poll.h>
#include <stdio.h>
#include <stdlib.h>
#include <string.h>
#include <sys/socket.h>
#include <time.h>
#include <unistd.h>

static const char text[] =
    "<mos><mosID>dev1</mosID><ncsID>ncs1</ncsID><messageID>7</messageID>"
    "<heartbeat><time>2009-04-11T14:22:07Z</time></heartbeat></mos>";
enum { LENGTH = 2 * (sizeof text - 1), MOST = 1000 };
static unsigned char message[LENGTH];
static struct pollfd polled[MOST];
static int came[MOST];
static unsigned char answer[MOST][LENGTH];

static double now(void) {
    struct timespec t;
    clock_gettime(CLOCK_MONOTONIC, &t);
    return t.tv_sec + t.tv_nsec / 1e9;
}

static void fail(const char *why) {
    fprintf(stderr, "calls: %s: %s\n", why, errno ? strerror(errno) : "wrong");
    exit(1);
}

static void send_on(int fd) {
    if (send(fd, message, LENGTH, MSG_NOSIGNAL) != LENGTH) fail("send");
}

int main(int count, char **words) {
    if (count != 4) return fprintf(stderr, "usage: calls PORT CONNECTIONS SECONDS\n"), 2;
    int port = atoi(words[1]), connections = atoi(words[2]);
    double seconds = atof(words[3]);
    if (connections < 1 || connections > MOST) return 2;
    for (size_t i = 0; i + 1 < sizeof text; i++) message[2 * i + 1] = (unsigned char)text[i];
    for (int i = 0; i < connections; i++) {
        struct sockaddr_in to = {.sin_family = AF_INET, .sin_port = htons(port), .sin_addr = {htonl(INADDR_LOOPBACK)}};
        int fd = socket(AF_INET, SOCK_STREAM, 0), one = 1;
        if (fd < 0 || connect(fd, (struct sockaddr *)&to, sizeof to)) fail("connect");
        setsockopt(fd, IPPROTO_TCP, TCP_NODELAY, &one, sizeof one);
        polled[i] = (struct pollfd){.fd = fd, .events = POLLIN};
        send_on(fd);
    }
    long answers = 0;
    double begin = now(), end = begin + seconds;
    while (now() < end) {
        if (poll(polled, connections, 1000) <= 0) fail("poll");
        for (int i = 0; i < connections; i++) {
            if (!polled[i].revents) continue;
            ssize_t n = recv(polled[i].fd, answer[i] + came[i], LENGTH - came[i], 0);
            if (n <= 0) fail("recv");
            came[i] += n;
            if (came[i] < LENGTH) continue;
            errno = 0;
            if (memcmp(answer[i], message, LENGTH)) fail("answer");
            came[i] = 0;
            answers++;
            send_on(polled[i].fd);
        }
    }
    printf("%.0f\n", answers / (now() - begin));
    return 0;
}
