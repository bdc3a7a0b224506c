#include "wire.h"

#include <string.h>

enum { VERSION = 1, NULL_FORMAT = -1, XID_FRONT = 6 };

const char *operation_name(enum operation operation)
{
    static const char *const names[] = {
        "", "xa_open", "xa_close", "xa_start", "xa_end", "xa_prepare", "xa_commit", "xa_rollback", "xa_recover", "xa_forget", "xarm_get",
        "xarm_put", "xarm_delete",
    };
    return operation == FIRST || operation == FINAL ? "login" : names[operation];
}

const char *detail_name(int detail)
{
    static const char *const names[] = {"Nothing", "Memory", "Device", "Busy", "Late", "Limit", "Frame", "LogFull", "Access"};
    return names[detail];
}

static void write_number(unsigned char *to, size_t bytes, uint64_t number)
{
    for (size_t at = bytes; at > 0; at--) {
        to[at - 1] = (unsigned char)(number & 0xff);
        number >>= 8;
    }
}

static uint64_t read_number(const unsigned char *from, size_t bytes)
{
    uint64_t number = 0;
    for (size_t at = 0; at < bytes; at++)
        number = number << 8 | from[at];
    return number;
}

/* Two's complement of 32 bits. */
static int read_signed(const unsigned char *from)
{
    uint32_t number = (uint32_t)read_number(from, 4);
    return number <= INT32_MAX ? (int)number : -(int)(UINT32_MAX - number) - 1;
}

bool xid_pack(const XID *xid, struct packed *to)
{
    if (!xid || xid->formatID < INT32_MIN || xid->formatID > INT32_MAX || xid->formatID == NULL_FORMAT || xid->gtrid_length < 1
        || xid->gtrid_length > MAXGTRIDSIZE || xid->bqual_length < 0 || xid->bqual_length > MAXBQUALSIZE)
        return false;
    size_t data = (size_t)(xid->gtrid_length + xid->bqual_length);
    write_number(to->bytes, 4, (uint64_t)xid->formatID);
    to->bytes[4] = (unsigned char)xid->gtrid_length;
    to->bytes[5] = (unsigned char)xid->bqual_length;
    memcpy(to->bytes + XID_FRONT, xid->data, data);
    to->length = XID_FRONT + data;
    return true;
}

bool is_same_xid(const struct packed *one, const struct packed *other)
{
    return one->length == other->length && memcmp(one->bytes, other->bytes, one->length) == 0;
}

/* How many bytes the XID at the front of some has, 0 if there is none. */
static size_t xid_length(const unsigned char *from, size_t room)
{
    if (room < XID_FRONT || read_signed(from) == NULL_FORMAT || from[4] < 1 || from[4] > MAXGTRIDSIZE || from[5] > MAXBQUALSIZE)
        return 0;
    size_t length = XID_FRONT + (size_t)from[4] + from[5];
    return length <= room ? length : 0;
}

void reply_xids(const struct reply *reply, XID *to)
{
    const unsigned char *from = reply->body;
    for (size_t at = 0; at < reply->count; at++) {
        memset(&to[at], 0, sizeof to[at]);
        to[at].formatID = read_signed(from);
        to[at].gtrid_length = from[4];
        to[at].bqual_length = from[5];
        size_t data = (size_t)from[4] + from[5];
        memcpy(to[at].data, from + XID_FRONT, data);
        from += XID_FRONT + data;
    }
}

void request_begin(struct request *to, enum operation operation)
{
    to->operation = operation;
    to->length = LENGTH_BYTES;
    to->bytes[to->length++] = VERSION;
    to->bytes[to->length++] = (unsigned char)operation;
}

static void request_bytes(struct request *to, const void *bytes, size_t length)
{
    if (length > 0)
        memcpy(to->bytes + to->length, bytes, length);
    to->length += length;
}

void request_number(struct request *to, uint32_t number)
{
    write_number(to->bytes + to->length, 4, number);
    to->length += 4;
}

void request_xid(struct request *to, const struct packed *xid)
{
    request_bytes(to, xid->bytes, xid->length);
}

void request_text(struct request *to, size_t length_bytes, const void *text, size_t length)
{
    write_number(to->bytes + to->length, length_bytes, length);
    to->length += length_bytes;
    request_bytes(to, text, length);
}

void request_end(struct request *to)
{
    write_number(to->bytes, LENGTH_BYTES, to->length - LENGTH_BYTES);
}

/* Whether a body of this kind, of this many bytes, is one, exactly. */
static bool read_body(const unsigned char *body, size_t length, struct reply *to)
{
    size_t at = 2;
    to->count = 0;
    to->body = NULL;
    switch (to->kind) {
    case NOTHING:
    case ABSENT:
        return length == 0;
    case NUMBER:
        return length == 8;
    case CHALLENGE:
    case WELCOME:
        to->count = length;
        to->body = body;
        return length <= MOST_MESSAGE;
    case VALUE:
    case XIDS:
        break;
    default:
        return false;
    }
    if (length < at)
        return false;
    to->count = (size_t)read_number(body, at);
    to->body = body + at;
    if (to->kind == VALUE)
        return to->count <= MOST_VALUE && at + to->count == length;
    if (to->count > MOST_XIDS)
        return false;
    for (size_t xid = 0; xid < to->count; xid++) {
        size_t one = xid_length(body + at, length - at);
        if (one == 0)
            return false;
        at += one;
    }
    return at == length;
}

/* The detail of this number. One that a later server has is taken for what leaves as much open. */
static int detail_of(int number, int code)
{
    if (number <= DETAIL_ACCESS)
        return number;
    return code == XAER_RMFAIL ? DETAIL_DEVICE : DETAIL_NOTHING;
}

bool reply_read(const unsigned char *content, size_t length, struct reply *to)
{
    if (length < LEAST_REPLY || content[0] != VERSION)
        return false;
    to->code = read_signed(content + 1);
    to->detail = detail_of(content[5], to->code);
    to->place = read_number(content + 6, 8);
    to->kind = content[14];
    return read_body(content + LEAST_REPLY, length - LEAST_REPLY, to);
}

static bool is_code(int code)
{
    return code == XA_OK || (XA_RDONLY <= code && code <= XA_NOMIGRATE) || is_rollback(code) || (XAER_OUTSIDE <= code && code <= XAER_ASYNC);
}

bool is_answer_to(enum operation operation, const struct reply *reply)
{
    if (operation == RECOVER && reply->code >= 0)
        return reply->kind == XIDS && reply->count == (size_t)reply->code;
    if (!is_code(reply->code))
        return false;
    if (operation == START && reply->code == XA_OK)
        return reply->kind == NUMBER;
    if (operation == GET && reply->code == XA_OK)
        return reply->kind == VALUE || reply->kind == ABSENT;
    if ((operation == FIRST || operation == FINAL) && reply->code == XA_OK)
        return reply->kind == (operation == FIRST ? CHALLENGE : WELCOME);
    return reply->kind == NOTHING;
}
