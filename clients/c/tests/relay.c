#define _GNU_SOURCE
#include "relay.h"

#include <netinet/in.h>
#include <netinet/tcp.h>
#include <pthread.h>
#include <stdatomic.h>
#include <stdbool.h>
#include <stdlib.h>
#include <string.h>
#include <sys/socket.h>
#include <unistd.h>

#include "server.h"

enum { WHOLE = -1, HELD = -2, MOST_FRAME = 70000, MOST_ANSWERS = 8192, MOST_PAIRS = 4096 };

struct answer {
    size_t length;
    unsigned char *bytes;
    bool wants_place; /* it gets the next one when it is sent */
};

/* Relays, and what they are given, stay until the tests end. */
struct relay {
    int listener, port, to, pause;
    bool is_fake;
    atomic_int next_request, next_reply, connections;
    int sockets[MOST_PAIRS];
    pthread_mutex_t lock;
    struct answer answers[MOST_ANSWERS];
    size_t put_down, given;
    unsigned long long place;
    size_t last;
    unsigned char frame[MOST_FRAME];
};

/* One direction of a connection. */
struct way {
    struct relay *relay;
    int from, to;
    atomic_int *next;
};

static bool read_all(int socket, unsigned char *to, size_t length)
{
    while (length > 0) {
        ssize_t some = recv(socket, to, length, 0);
        if (some <= 0)
            return false;
        to += some;
        length -= (size_t)some;
    }
    return true;
}

static bool send_all(int socket, const unsigned char *bytes, size_t length)
{
    while (length > 0) {
        ssize_t some = send(socket, bytes, length, MSG_NOSIGNAL);
        if (some <= 0)
            return false;
        bytes += some;
        length -= (size_t)some;
    }
    return true;
}

/* Reads a frame. Its length, 0 if there is none. */
static size_t read_frame(int socket, unsigned char *to)
{
    if (!read_all(socket, to, 4))
        return 0;
    size_t length = (size_t)to[2] << 8 | to[3];
    return read_all(socket, to + 4, length) ? 4 + length : 0;
}

static void in_thread(void *(*body)(void *), void *with)
{
    pthread_t thread;
    if (pthread_create(&thread, NULL, body, with) == 0)
        pthread_detach(thread);
}

/* Both ways end when one does. */
static void *pass(void *with)
{
    struct way *way = with;
    unsigned char *frame = malloc(MOST_FRAME);
    size_t length;
    while (frame && (length = read_frame(way->from, frame)) > 0) {
        int part = atomic_exchange(way->next, WHOLE);
        if (part == HELD)
            continue;
        if (!send_all(way->to, frame, part == WHOLE ? length : (size_t)part) || part != WHOLE)
            break;
    }
    shutdown(way->from, SHUT_RDWR);
    shutdown(way->to, SHUT_RDWR);
    free(frame);
    free(way);
    return NULL;
}

static void pass_ways(struct relay *relay, int client)
{
    struct sockaddr_in address = {.sin_family = AF_INET, .sin_addr.s_addr = htonl(INADDR_LOOPBACK), .sin_port = htons((unsigned short)relay->to)};
    int on = 1;
    int server = socket(AF_INET, SOCK_STREAM | SOCK_CLOEXEC, 0);
    struct way *there = malloc(sizeof *there), *back = malloc(sizeof *back);
    setsockopt(server, IPPROTO_TCP, TCP_NODELAY, &on, sizeof on);
    if (!there || !back || connect(server, (const struct sockaddr *)&address, sizeof address) != 0) {
        free(there);
        free(back);
        close(server);
        shutdown(client, SHUT_RDWR);
        return;
    }
    *there = (struct way){.relay = relay, .from = client, .to = server, .next = &relay->next_request};
    *back = (struct way){.relay = relay, .from = server, .to = client, .next = &relay->next_reply};
    in_thread(pass, there);
    in_thread(pass, back);
}

static void write_place(unsigned char *frame, unsigned long long place)
{
    for (int at = 0; at < 8; at++)
        frame[10 + at] = (unsigned char)(place >> (56 - 8 * at));
}

static size_t reply_to(unsigned char *to, unsigned long long place, int code, int detail, int kind, const unsigned char *body, size_t length)
{
    size_t content = 15 + length;
    memset(to, 0, 19);
    to[2] = (unsigned char)(content >> 8);
    to[3] = (unsigned char)content;
    to[4] = 1;
    for (int at = 0; at < 4; at++)
        to[5 + at] = (unsigned char)((unsigned)code >> (24 - 8 * at));
    to[9] = (unsigned char)detail;
    write_place(to, place);
    to[18] = (unsigned char)kind;
    if (length > 0)
        memcpy(to + 19, body, length);
    return 19 + length;
}

/* The answer that is next. */
static struct answer next_answer(struct relay *relay)
{
    for (;;) {
        struct answer answer = {0, NULL, false};
        pthread_mutex_lock(&relay->lock);
        bool is_there = relay->given < relay->put_down;
        if (is_there)
            answer = relay->answers[relay->given++];
        if (answer.wants_place)
            write_place(answer.bytes, ++relay->place);
        pthread_mutex_unlock(&relay->lock);
        if (is_there)
            return answer;
        sleep_for(1);
    }
}

static void *answer_frames(void *with)
{
    struct way *way = with;
    struct relay *relay = way->relay;
    unsigned char *frame = malloc(MOST_FRAME);
    size_t length;
    while (frame && (length = read_frame(way->from, frame)) > 0) {
        if (frame[5] == 1) {
            pthread_mutex_lock(&relay->lock);
            length = reply_to(frame, ++relay->place, 0, 0, 0, NULL, 0);
            pthread_mutex_unlock(&relay->lock);
            send_all(way->from, frame, length);
            continue;
        }
        pthread_mutex_lock(&relay->lock);
        memcpy(relay->frame, frame, length);
        relay->last = length;
        pthread_mutex_unlock(&relay->lock);
        struct answer answer = next_answer(relay);
        bool is_sent = answer.length > 0;
        if (relay->pause == 0 && is_sent)
            is_sent = send_all(way->from, answer.bytes, answer.length);
        for (size_t at = 0; relay->pause > 0 && is_sent && at < answer.length; at++) {
            sleep_for(relay->pause);
            is_sent = send_all(way->from, answer.bytes + at, 1);
        }
        free(answer.bytes);
        if (!is_sent)
            break;
    }
    shutdown(way->from, SHUT_RDWR);
    free(frame);
    free(way);
    return NULL;
}

static void *accept_all(void *with)
{
    struct relay *relay = with;
    int on = 1;
    for (;;) {
        int client = accept4(relay->listener, NULL, NULL, SOCK_CLOEXEC);
        if (client < 0)
            return NULL;
        setsockopt(client, IPPROTO_TCP, TCP_NODELAY, &on, sizeof on);
        int number = atomic_fetch_add(&relay->connections, 1);
        relay->sockets[number % MOST_PAIRS] = client;
        if (!relay->is_fake) {
            pass_ways(relay, client);
            continue;
        }
        struct way *way = malloc(sizeof *way);
        if (way) {
            *way = (struct way){.relay = relay, .from = client};
            in_thread(answer_frames, way);
        }
    }
}

static struct relay *make(int port, bool is_fake, int pause)
{
    struct sockaddr_in address = {.sin_family = AF_INET, .sin_addr.s_addr = htonl(INADDR_LOOPBACK)};
    struct relay *relay = calloc(1, sizeof *relay);
    if (!relay)
        abort();
    relay->port = free_port();
    relay->to = port;
    relay->is_fake = is_fake;
    relay->pause = pause;
    relay->next_request = WHOLE;
    relay->next_reply = WHOLE;
    pthread_mutex_init(&relay->lock, NULL);
    relay->listener = socket(AF_INET, SOCK_STREAM | SOCK_CLOEXEC, 0);
    address.sin_port = htons((unsigned short)relay->port);
    if (bind(relay->listener, (const struct sockaddr *)&address, sizeof address) != 0 || listen(relay->listener, 50) != 0)
        abort();
    in_thread(accept_all, relay);
    return relay;
}

struct relay *relay_make(int port)
{
    return make(port, false, 0);
}

struct relay *fake_make(int pause)
{
    return make(0, true, pause);
}

int relay_port(const struct relay *relay)
{
    return relay->port;
}

int relay_connections(const struct relay *relay)
{
    return relay->connections;
}

void relay_cut_request(struct relay *relay, int bytes)
{
    relay->next_request = bytes;
}

void relay_cut_reply(struct relay *relay, int bytes)
{
    relay->next_reply = bytes;
}

void relay_hold_reply(struct relay *relay)
{
    relay->next_reply = HELD;
}

void relay_break(struct relay *relay)
{
    for (int at = 0; at < relay->connections && at < MOST_PAIRS; at++)
        shutdown(relay->sockets[at], SHUT_RDWR);
    sleep_for(20);
}

void relay_push(struct relay *relay, const unsigned char *bytes, size_t length)
{
    send_all(relay->sockets[(relay->connections - 1) % MOST_PAIRS], bytes, length);
    sleep_for(20);
}

static void put_down(struct relay *fake, const unsigned char *bytes, size_t length, bool wants_place)
{
    unsigned char *copy = malloc(length + 1);
    if (!copy || fake->put_down == MOST_ANSWERS)
        abort();
    if (length > 0)
        memcpy(copy, bytes, length);
    pthread_mutex_lock(&fake->lock);
    fake->answers[fake->put_down++] = (struct answer){length, copy, wants_place};
    pthread_mutex_unlock(&fake->lock);
}

void fake_answer(struct relay *fake, const unsigned char *bytes, size_t length)
{
    put_down(fake, bytes, length, false);
}

void fake_reply(struct relay *fake, int code, int detail, int kind, const unsigned char *body, size_t length)
{
    unsigned char *frame = malloc(19 + length);
    if (!frame)
        abort();
    put_down(fake, frame, reply_to(frame, 0, code, detail, kind, body, length), true);
    free(frame);
}

size_t fake_last(struct relay *fake, unsigned char *to, size_t room)
{
    pthread_mutex_lock(&fake->lock);
    size_t length = fake->last < room ? fake->last : room;
    memcpy(to, fake->frame, length);
    pthread_mutex_unlock(&fake->lock);
    return length;
}
