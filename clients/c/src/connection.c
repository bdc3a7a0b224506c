#include "connection.h"

#include <string.h>
#include <unistd.h>

#include "scram.h"
#include "secret.h"
#include "socket.h"
#include "why.h"

/* Where the server is, for xarm_why. */
enum { MOST_WORDS = MOST_HOST + MOST_PORT + 2 };

void connection_break(struct connection *connection)
{
    if (connection->socket >= 0) {
        close(connection->socket);
        connection->socket = -1;
    }
    connection->place = 0;
    branches_break(&connection->branches);
}

static bool broken(struct connection *connection, enum operation operation, const char *fault)
{
    char words[MOST_WORDS];
    const char *user = connection->server.user;
    info_words(&connection->server, words, sizeof words);
    why_set("%s at %s%s%s: %s", operation_name(operation), words, user[0] == '\0' ? "" : " as ", user, fault);
    connection_break(connection);
    return false;
}

/* Reads a frame, whole and with nothing after it, since nothing more was asked for. What failed, or NULL. */
static const char *receive(struct connection *connection, struct reply *reply)
{
    unsigned char *bytes = connection->content;
    size_t came = 0;
    size_t length = LENGTH_BYTES + LEAST_REPLY;
    while (came < length) {
        size_t some = 0;
        const char *fault = socket_receive(connection->socket, bytes + came, sizeof connection->content - came, &some, connection->deadline);
        if (fault)
            return fault;
        came += some;
        if (came < LENGTH_BYTES)
            continue;
        if (bytes[0] != 0 || bytes[1] != 0)
            return "no reply of an xarm server: its length";
        length = LENGTH_BYTES + (size_t)(bytes[2] << 8 | bytes[3]);
        if (length < LENGTH_BYTES + LEAST_REPLY || length > LENGTH_BYTES + MOST_REPLY)
            return "no reply of an xarm server: its length";
    }
    if (came > length)
        return "no reply of an xarm server: there is more than one";
    if (!reply_read(bytes + LENGTH_BYTES, length - LENGTH_BYTES, reply))
        return "no reply of an xarm server: what it says";
    return NULL;
}

static bool exchange(struct connection *connection, struct request *request, struct reply *reply)
{
    request_end(request);
    const char *fault = socket_send(connection->socket, request->bytes, request->length, connection->deadline);
    if (!fault)
        fault = receive(connection, reply);
    if (!fault && !is_answer_to(request->operation, reply))
        fault = "no reply of an xarm server: another kind than was asked for";
    if (!fault && reply->place != 0 && reply->place <= connection->place)
        fault = "no reply of an xarm server: an earlier place";
    if (fault)
        return broken(connection, request->operation, fault);
    if (reply->place != 0)
        connection->place = reply->place;
    return true;
}

/* What a server that refuses a login says of it. */
static const char *words_of_refusal(const struct reply *reply)
{
    if (reply->code == XAER_INVAL && reply->detail == DETAIL_ACCESS)
        return "the server refuses the name or the password";
    if (reply->code == XAER_INVAL && reply->detail == DETAIL_FRAME)
        return "the server takes no logins";
    return "the server refused it";
}

/* Asks for one of the two steps of a login. The code of an xa_open. */
static int say(struct connection *connection, enum operation step, const char *message, struct reply *reply)
{
    struct request request;
    request_begin(&request, step);
    request_text(&request, 0, message, strlen(message));
    if (!exchange(connection, &request, reply))
        return XAER_RMERR;
    if (reply->code == XA_OK)
        return XA_OK;
    broken(connection, step, words_of_refusal(reply));
    return reply->code == XAER_INVAL ? XAER_INVAL : XAER_RMERR;
}

/* Logs in, before anything else is asked, and sees that the server knows the password's verifier. The code of an xa_open. */
static int log_in(struct connection *connection, const struct secret *secret)
{
    struct scram scram;
    struct reply reply;
    char nonce[NONCE_LENGTH + 1];
    if (!scram_nonce(nonce)) {
        broken(connection, FIRST, "the system has no random bytes");
        return XAER_RMERR;
    }
    scram_begin(&scram, connection->server.user, nonce);
    int code = say(connection, FIRST, scram.first, &reply);
    if (code != XA_OK)
        return code;
    if (!scram_answer(&scram, (struct part){secret->bytes, secret->length}, reply.body, reply.count)) {
        broken(connection, FIRST, "no reply of an xarm server: no challenge to this login");
        return XAER_RMERR;
    }
    code = say(connection, FINAL, scram.final, &reply);
    if (code != XA_OK)
        return code;
    if (!scram_is_accepted(&scram, reply.body, reply.count)) {
        broken(connection, FINAL, "the server doesn't know the password's verifier, so it isn't who it says");
        return XAER_RMERR;
    }
    return XA_OK;
}

/* Of the server that it is connected to. The code of an xa_open. */
static int open_there(struct connection *connection)
{
    struct request request;
    struct reply reply;
    bool has_user = connection->server.user[0] != '\0';
    const char *no_access = has_user ? "the user may not open the resource manager" : "the server wants a login, and there is no user";
    request_begin(&request, OPEN);
    request_number(&request, TMNOFLAGS);
    request_text(&request, 1, connection->server.name, strlen(connection->server.name));
    if (!exchange(connection, &request, &reply))
        return XAER_RMERR;
    if (reply.code == XAER_INVAL && reply.detail == DETAIL_ACCESS)
        broken(connection, OPEN, no_access);
    else if (reply.code == XAER_INVAL)
        broken(connection, OPEN, "the resource manager has another name");
    else if (reply.code != XA_OK)
        broken(connection, OPEN, "the server refused it");
    return reply.code;
}

/* Connects, and logs in if there is a user. The code of an xa_open. */
static int connect_as(struct connection *connection, const struct secret *secret)
{
    const char *fault = NULL;
    connection->socket = socket_connect(&connection->server, connection->deadline, &fault);
    if (connection->socket < 0) {
        broken(connection, OPEN, fault);
        return XAER_RMERR;
    }
    return secret ? log_in(connection, secret) : XA_OK;
}

/* Connects, logs in, and opens the resource manager, in the time that the call has. The code of an xa_open. */
static int connect_and_open(struct connection *connection)
{
    struct secret secret;
    bool has_user = connection->server.user[0] != '\0';
    if (has_user && !secret_read(&connection->server, &secret))
        return XAER_INVAL;
    int code = connect_as(connection, has_user ? &secret : NULL);
    if (has_user)
        secret_wipe(&secret);
    return code == XA_OK ? open_there(connection) : code;
}

/* A new call has all of its time, and notices that the server closed the connection, or sent what nobody asked for. */
bool connection_lives(struct connection *connection)
{
    connection->deadline = milliseconds_now() + connection->server.milliseconds;
    if (connection->socket >= 0 && !socket_is_quiet(connection->socket))
        connection_break(connection);
    return connection->socket >= 0;
}

int connection_open(struct connection *connection)
{
    return connection_lives(connection) ? XA_OK : connect_and_open(connection);
}

bool connection_ready(struct connection *connection, enum operation operation)
{
    if (connection_lives(connection))
        return true;
    if (branches_any(connection->branches, LOST))
        return broken(connection, operation, "the connection broke, and its associations are to be ended first");
    return connect_and_open(connection) == XA_OK;
}

bool connection_exchange(struct connection *connection, struct reply *reply)
{
    return exchange(connection, &connection->request, reply);
}

bool connection_call(struct connection *connection, struct reply *reply)
{
    return connection_ready(connection, connection->request.operation) && connection_exchange(connection, reply);
}
