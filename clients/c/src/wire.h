/* Requests and replies as bytes (docs/PROTOCOL.md). */
#ifndef XARM_WIRE_H
#define XARM_WIRE_H

#include <stdbool.h>
#include <stddef.h>
#include <stdint.h>

#include "xa.h"

enum {
    LENGTH_BYTES = 4,
    MOST_KEY = 64,
    MOST_VALUE = 16384,
    MOST_XID = 134,
    MOST_XIDS = 256,
    MOST_MESSAGE = 256, /* of a login */
    MOST_REQUEST = 2 + 1 + MOST_KEY + 2 + MOST_VALUE, /* of a put */
    LEAST_REPLY = 15,
    MOST_REPLY = LEAST_REPLY + 2 + MOST_XIDS * MOST_XID /* of a recover */
};

enum operation { OPEN = 1, CLOSE, START, END, PREPARE, COMMIT, ROLLBACK, RECOVER, FORGET, GET, PUT, DELETE, FIRST = 74, FINAL };

/* The name of a request, as "prepare". */
const char *operation_name(enum operation operation);

/* An XID's bytes. */
struct packed {
    size_t length;
    unsigned char bytes[MOST_XID];
};

/* Packs an XID. False if it is null, or has a length or a format that no server takes. */
bool xid_pack(const XID *xid, struct packed *to);
bool is_same_xid(const struct packed *one, const struct packed *other);

/* A frame that is being written: begin it, add its fields, and end it. */
struct request {
    enum operation operation;
    size_t length;
    unsigned char bytes[LENGTH_BYTES + MOST_REQUEST];
};

void request_begin(struct request *to, enum operation operation);
void request_number(struct request *to, uint32_t number);
void request_xid(struct request *to, const struct packed *xid);
/* A length of `length_bytes` bytes, which may be none, and the text. */
void request_text(struct request *to, size_t length_bytes, const void *text, size_t length);
void request_end(struct request *to);

enum kind { NOTHING, NUMBER, VALUE, ABSENT, XIDS, CHALLENGE = 11, WELCOME };
enum detail { DETAIL_NOTHING, DETAIL_MEMORY, DETAIL_DEVICE, DETAIL_BUSY, DETAIL_LATE, DETAIL_LIMIT, DETAIL_FRAME, DETAIL_LOG_FULL, DETAIL_ACCESS };

/* The name of a detail, as "Busy". */
const char *detail_name(int detail);

/* What a reply says. The value, the XIDs, and a login's message lie in the content that was read. */
struct reply {
    int code;
    int detail;
    uint64_t place; /* in the server's history, from 1; 0 if it has none */
    int kind;
    size_t count; /* the value's bytes, or the message's, or how many XIDs there are */
    const unsigned char *body;
};

/* Reads a content, which is to be one reply, exactly. */
bool reply_read(const unsigned char *content, size_t length, struct reply *to);

/* Whether a reply has the code and the kind of body that such a request is answered by. */
bool is_answer_to(enum operation operation, const struct reply *reply);

/* The XIDs of a reply that has some. */
void reply_xids(const struct reply *reply, XID *to);

static inline bool is_rollback(int code)
{
    return XA_RBBASE <= code && code <= XA_RBEND;
}

#endif
