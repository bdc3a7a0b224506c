#define _POSIX_C_SOURCE 200809L

#include "socket.h"

#include <errno.h>
#include <netdb.h>
#include <netinet/in.h>
#include <netinet/tcp.h>
#include <poll.h>
#include <string.h>
#include <sys/socket.h>
#include <sys/un.h>
#include <time.h>
#include <unistd.h>

#include "why.h"

enum { PAUSE = 10 };

static const char too_late[] = "no answer within the time-out";

int64_t milliseconds_now(void)
{
    struct timespec now;
    clock_gettime(CLOCK_MONOTONIC, &now);
    return (int64_t)now.tv_sec * 1000 + now.tv_nsec / 1000000;
}

/* Waits until the socket is ready for the events, or has failed. */
static const char *wait_for(int socket, short events, int64_t deadline)
{
    for (;;) {
        int64_t left = deadline - milliseconds_now();
        struct pollfd one = {.fd = socket, .events = events};
        if (left <= 0)
            return too_late;
        int ready = poll(&one, 1, (int)left);
        if (ready > 0)
            return NULL;
        if (ready < 0 && errno != EINTR)
            return words_of(errno);
    }
}

static const char *finish_connect(int socket, int64_t deadline)
{
    int error = 0;
    socklen_t size = sizeof error;
    const char *fault = wait_for(socket, POLLOUT, deadline);
    if (fault)
        return fault;
    if (getsockopt(socket, SOL_SOCKET, SO_ERROR, &error, &size) != 0)
        error = errno;
    return error == 0 ? NULL : words_of(error);
}

static const char *connect_within(int socket, const struct sockaddr *address, socklen_t size, int64_t deadline)
{
    for (;;) {
        if (connect(socket, address, size) == 0)
            return NULL;
        /* a Unix socket whose queue is full doesn't tell when it isn't any more */
        if (errno != EAGAIN || milliseconds_now() >= deadline)
            break;
        poll(NULL, 0, PAUSE);
    }
    return errno == EINPROGRESS || errno == EINTR ? finish_connect(socket, deadline) : words_of(errno);
}

static int connect_to(int family, const struct sockaddr *address, socklen_t size, int64_t deadline, const char **fault)
{
    int on = 1;
    int made = socket(family, SOCK_STREAM | SOCK_NONBLOCK | SOCK_CLOEXEC, 0);
    if (made < 0) {
        *fault = words_of(errno);
        return -1;
    }
    if (family != AF_UNIX)
        setsockopt(made, IPPROTO_TCP, TCP_NODELAY, &on, sizeof on);
    *fault = connect_within(made, address, size, deadline);
    if (!*fault)
        return made;
    close(made);
    return -1;
}

static int connect_to_path(const char *path, int64_t deadline, const char **fault)
{
    struct sockaddr_un address = {.sun_family = AF_UNIX};
    strcpy(address.sun_path, path);
    return connect_to(AF_UNIX, (const struct sockaddr *)&address, sizeof address, deadline, fault);
}

int socket_connect(const struct info *server, int64_t deadline, const char **fault)
{
    struct addrinfo wanted = {.ai_family = AF_UNSPEC, .ai_socktype = SOCK_STREAM, .ai_flags = AI_NUMERICHOST | AI_NUMERICSERV};
    struct addrinfo *found;
    int made = -1;
    if (server->path[0] != '\0')
        return connect_to_path(server->path, deadline, fault);
    int error = getaddrinfo(server->host, server->port, &wanted, &found);
    if (error == EAI_NONAME) {
        wanted.ai_flags = AI_NUMERICSERV;
        error = getaddrinfo(server->host, server->port, &wanted, &found);
    }
    if (error != 0) {
        *fault = gai_strerror(error);
        return -1;
    }
    for (const struct addrinfo *one = found; one && made < 0; one = one->ai_next)
        made = connect_to(one->ai_family, one->ai_addr, one->ai_addrlen, deadline, fault);
    freeaddrinfo(found);
    return made;
}

const char *socket_send(int socket, const unsigned char *bytes, size_t length, int64_t deadline)
{
    while (length > 0) {
        ssize_t sent = send(socket, bytes, length, MSG_NOSIGNAL);
        if (sent >= 0) {
            bytes += sent;
            length -= (size_t)sent;
            continue;
        }
        if (errno == EINTR)
            continue;
        if (errno != EAGAIN && errno != EWOULDBLOCK)
            return words_of(errno);
        const char *fault = wait_for(socket, POLLOUT, deadline);
        if (fault)
            return fault;
    }
    return NULL;
}

const char *socket_receive(int socket, unsigned char *to, size_t room, size_t *came, int64_t deadline)
{
    for (;;) {
        /* a peer that sends a byte now and then doesn't hold a call longer than one that is silent */
        const char *fault = wait_for(socket, POLLIN, deadline);
        if (fault)
            return fault;
        ssize_t some = recv(socket, to, room, 0);
        if (some > 0) {
            *came = (size_t)some;
            return NULL;
        }
        if (some == 0)
            return "the server ended the connection";
        if (errno != EINTR && errno != EAGAIN && errno != EWOULDBLOCK)
            return words_of(errno);
    }
}

bool socket_is_quiet(int socket)
{
    unsigned char one;
    return recv(socket, &one, 1, MSG_PEEK | MSG_DONTWAIT) < 0 && (errno == EAGAIN || errno == EWOULDBLOCK || errno == EINTR);
}
