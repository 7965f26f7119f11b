/* The bare peer: echo PORT accepts connections on loopback, and writes back what each sends, with a thread for each. */
#include <arpa/inet.h>
#include <netinet/tcp.h>
#include <pthread.h>
#include <stdio.h>
#include <stdlib.h>
#include <sys/socket.h>
#include <unistd.h>

static void *serve(void *given) {
    int fd = (int)(long)given;
    unsigned char bytes[65536];
    ssize_t n;
    while ((n = recv(fd, bytes, sizeof bytes, 0)) > 0)
        if (send(fd, bytes, n, MSG_NOSIGNAL) != n) break;
    close(fd);
    return NULL;
}

int main(int count, char **words) {
    if (count != 2) return 2;
    int at = socket(AF_INET, SOCK_STREAM, 0), one = 1;
    struct sockaddr_in here = {.sin_family = AF_INET, .sin_port = htons(atoi(words[1])), .sin_addr = {htonl(INADDR_LOOPBACK)}};
    setsockopt(at, SOL_SOCKET, SO_REUSEADDR, &one, sizeof one);
    if (bind(at, (struct sockaddr *)&here, sizeof here) || listen(at, 256)) return perror("echo"), 1;
    for (;;) {
        int fd = accept(at, NULL, NULL);
        pthread_t thread;
        if (fd < 0) continue;
        setsockopt(fd, IPPROTO_TCP, TCP_NODELAY, &one, sizeof one);
        if (pthread_create(&thread, NULL, serve, (void *)(long)fd)) close(fd);
        else pthread_detach(thread);
    }
}
