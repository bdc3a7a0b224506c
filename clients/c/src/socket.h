/* Sockets that wait until a deadline, in milliseconds of the monotonic clock. */
#ifndef XARM_SOCKET_H
#define XARM_SOCKET_H

#include <stdbool.h>
#include <stddef.h>
#include <stdint.h>

#include "info.h"

int64_t milliseconds_now(void);

/* A socket that is connected to the server, or -1, with the reason in `fault`. */
int socket_connect(const struct info *server, int64_t deadline, const char **fault);

/* Sends all of it. What failed, or NULL. */
const char *socket_send(int socket, const unsigned char *bytes, size_t length, int64_t deadline);

/* Reads between 1 byte and this many: what has come. What failed, or NULL. */
const char *socket_receive(int socket, unsigned char *to, size_t room, size_t *came, int64_t deadline);

/* Whether nothing has come, and the peer hasn't closed it. */
bool socket_is_quiet(int socket);

#endif
