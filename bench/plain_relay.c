/* A relay in plain C that passes bytes: for each application a connection to the server, and what comes from one goes to
 * the other, by epoll, through one buffer. It reads nothing of what it passes, shares no connection and resets none.
 *
 * usage: plain_relay SERVER_PORT      prints its own port; ends at SIGTERM
 */
#define _GNU_SOURCE
#include <arpa/inet.h>
#include <errno.h>
#include <netinet/tcp.h>
#include <signal.h>
#include <stdint.h>
#include <stdio.h>
#include <stdlib.h>
#include <string.h>
#include <sys/epoll.h>
#include <sys/socket.h>
#include <unistd.h>

enum { MOST = 4096, ROOM = 65536 };

/* Of each socket the other one; and what couldn't be written to it yet. */
static struct link { int other; uint8_t *waits; size_t from, count; } links[MOST];

static int queue;
static uint8_t buffer[ROOM];

static void stop(int signal)
{
    (void)signal;
    exit(0);
}

static struct sockaddr_in address(int port)
{
    struct sockaddr_in it = { .sin_family = AF_INET, .sin_port = htons((uint16_t)port) };
    it.sin_addr.s_addr = htonl(INADDR_LOOPBACK);
    return it;
}

static void watch(int fd, uint32_t events, int how)
{
    struct epoll_event event = { .events = events, .data.fd = fd };
    if (epoll_ctl(queue, how, fd, &event) != 0)
        exit(3);
}

static void end(int fd)
{
    int other = links[fd].other;
    free(links[fd].waits);
    free(links[other].waits);
    close(fd);
    close(other);
}

static void begin(int listener, int port)
{
    struct sockaddr_in to = address(port);
    int one = 1, fd = accept4(listener, NULL, NULL, SOCK_NONBLOCK), other = socket(AF_INET, SOCK_STREAM, 0);
    if (fd < 0 || other < 0 || fd >= MOST || other >= MOST || connect(other, (struct sockaddr *)&to, sizeof to) != 0)
        exit(3);
    for (int it = 0; it < 2; it++)
        setsockopt(it ? fd : other, IPPROTO_TCP, TCP_NODELAY, &one, sizeof one);
    links[fd] = (struct link){ other, NULL, 0, 0 };
    links[other] = (struct link){ fd, NULL, 0, 0 };
    watch(fd, EPOLLIN, EPOLL_CTL_ADD);
    watch(other, EPOLLIN, EPOLL_CTL_ADD);
}

/* Writes what waits for this socket; whether nothing waits any more. */
static int write_rest(int fd)
{
    struct link *link = &links[fd];
    ssize_t done = send(fd, link->waits + link->from, link->count, MSG_DONTWAIT | MSG_NOSIGNAL);
    if (done > 0)
        link->from += (size_t)done, link->count -= (size_t)done;
    if (link->count)
        return 0;
    free(link->waits);
    link->waits = NULL;
    watch(fd, EPOLLIN, EPOLL_CTL_MOD);
    watch(link->other, EPOLLIN, EPOLL_CTL_MOD);
    return 1;
}

/* Passes what has come; what the other socket doesn't take waits, and nothing is read meanwhile. */
static void pass(int fd)
{
    int to = links[fd].other;
    ssize_t count = recv(fd, buffer, ROOM, MSG_DONTWAIT);
    if (count < 0 && errno == EAGAIN)
        return;
    if (count <= 0) {
        end(fd);
        return;
    }
    ssize_t done = send(to, buffer, (size_t)count, MSG_DONTWAIT | MSG_NOSIGNAL);
    if (done < 0)
        done = 0;
    if (done == count)
        return;
    struct link *link = &links[to];
    link->count = (size_t)(count - done);
    link->from = 0;
    link->waits = malloc(link->count);
    if (!link->waits)
        exit(3);
    memcpy(link->waits, buffer + done, link->count);
    watch(fd, 0, EPOLL_CTL_MOD);
    watch(to, EPOLLIN | EPOLLOUT, EPOLL_CTL_MOD);
}

int main(int argc, char **argv)
{
    struct sockaddr_in at = address(0);
    socklen_t size = sizeof at;
    int listener = socket(AF_INET, SOCK_STREAM, 0);
    if (argc != 2 || bind(listener, (struct sockaddr *)&at, size) != 0 || listen(listener, 64) != 0)
        return 2;
    getsockname(listener, (struct sockaddr *)&at, &size);
    printf("%d\n", ntohs(at.sin_port));
    fflush(stdout);
    signal(SIGTERM, stop);
    queue = epoll_create1(0);
    watch(listener, EPOLLIN, EPOLL_CTL_ADD);
    for (;;) {
        struct epoll_event events[64];
        int count = epoll_wait(queue, events, 64, -1);
        for (int i = 0; i < count; i++) {
            int fd = events[i].data.fd;
            if (fd == listener)
                begin(listener, atoi(argv[1]));
            else if (!(events[i].events & EPOLLOUT) || write_rest(fd))
                pass(fd);
        }
    }
}
