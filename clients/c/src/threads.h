/* Which connections the calling thread of control has. */
#ifndef XARM_THREADS_H
#define XARM_THREADS_H

#include "connection.h"

/* The connection of a resource manager that this thread opened, or NULL. */
struct connection *thread_find(int rmid);

/* A new one, which isn't connected. NULL: there is no memory. */
struct connection *thread_add(int rmid, const struct info *server);

/* Closes one, and frees it. */
void thread_remove(struct connection *connection);

#endif
