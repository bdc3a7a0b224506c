/* A thread's connection to a server, which is one session there. One request is under way at a time. */
#ifndef XARM_CONNECTION_H
#define XARM_CONNECTION_H

#include <stdbool.h>
#include <stdint.h>

#include "branches.h"
#include "info.h"
#include "wire.h"

struct connection {
    struct connection *next; /* of the same thread */
    int rmid;
    int socket; /* -1: there is none */
    struct info server;
    uint64_t place; /* of its last reply */
    int64_t deadline; /* of the call under way, in milliseconds */
    struct branch *branches;
    struct request request;
    unsigned char content[LENGTH_BYTES + MOST_REPLY + 1];
};

/* Connects, logs in if there is a user, and opens the resource manager, if there is no connection. The code that xa_open returns. */
int connection_open(struct connection *connection);

/* Begins a call if there is a connection that the server didn't close since; doesn't connect. */
bool connection_lives(struct connection *connection);

/* Begins a call: there is a connection, a new one if the last one broke and no association was lost with it, or if the server closed it
   since. Nothing of the call is sent yet. False: there is none. */
bool connection_ready(struct connection *connection, enum operation operation);

/* Sends the connection's request, and reads its reply, which lies in the connection until the next one. False: the connection broke. */
bool connection_exchange(struct connection *connection, struct reply *reply);

/* Both. */
bool connection_call(struct connection *connection, struct reply *reply);

/* Ends the connection, and notes the associations that are lost with it. */
void connection_break(struct connection *connection);

#endif
