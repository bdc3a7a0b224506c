#define _GNU_SOURCE
#include "guard.h"

#include <netinet/in.h>
#include <pthread.h>
#include <semaphore.h>
#include <stdbool.h>
#include <stdio.h>
#include <stdlib.h>
#include <string.h>
#include <sys/socket.h>
#include <time.h>
#include <unistd.h>

#include "server.h"
#include "src/scram.h"
#include "xa.h"

enum { MOST_FRAME = 20000, MOST_ASKED = 1000, MOST_SAID = 300, LIMIT_SECONDS = 30 };

struct answer {
    bool is_there;
    int code, detail, kind, bytes;
    char body[MOST_SAID];
};

/* Guards stay until the tests end. */
struct guard {
    int listener, port, last;
    pthread_mutex_t lock;
    sem_t ends;
    struct answer answers[2]; /* of a First and a Final */
    char asked[MOST_ASKED], told[MOST_ASKED], first[MOST_SAID];
};

/* What a connection has shown. */
struct shown {
    struct guard *guard;
    int socket;
    bool is_in;
    unsigned char place;
    char bare[MOST_SAID], challenge[MOST_SAID];
};

static bool read_all(int socket, unsigned char *to, size_t length)
{
    while (length > 0) {
        ssize_t some = recv(socket, to, length, 0);
        if (some <= 0)
            return false;
        to += some;
        length -= (size_t)some;
    }
    return true;
}

/* Sends a reply, or its first bytes. False: it isn't whole. */
static bool send_reply(struct shown *shown, const struct answer *answer)
{
    unsigned char frame[19 + MOST_SAID] = {0};
    size_t length = strlen(answer->body), all = 19 + length;
    frame[2] = (unsigned char)((15 + length) >> 8);
    frame[3] = (unsigned char)(15 + length);
    frame[4] = 1;
    for (int at = 0; at < 4; at++)
        frame[5 + at] = (unsigned char)((unsigned)answer->code >> (24 - 8 * at));
    frame[9] = (unsigned char)answer->detail;
    frame[17] = shown->place;
    frame[18] = (unsigned char)answer->kind;
    memcpy(frame + 19, answer->body, length);
    size_t some = answer->bytes < 0 ? all : (size_t)answer->bytes;
    send(shown->socket, frame, some, MSG_NOSIGNAL);
    return some == all;
}

static void mac_of(const char *key, const char *text, unsigned char *to)
{
    unsigned char bytes[DIGEST_BYTES];
    base64_read((const unsigned char *)key, strlen(key), bytes, sizeof bytes);
    hmac_sha256(bytes, sizeof bytes, &(struct part){text, strlen(text)}, 1, to);
}

/* Whether a proof is that of who has the password: the hash of its client key is the stored key. */
static bool proves(const char *proof, const char *text)
{
    unsigned char key[DIGEST_BYTES], signature[DIGEST_BYTES], stored[DIGEST_BYTES];
    char coded[DIGEST_LENGTH + 1];
    if (base64_read((const unsigned char *)proof, strlen(proof), key, sizeof key) != DIGEST_BYTES)
        return false;
    mac_of(STORED_KEY, text, signature);
    for (int at = 0; at < DIGEST_BYTES; at++)
        key[at] ^= signature[at];
    sha256(&(struct part){key, sizeof key}, 1, stored);
    base64_write(stored, sizeof stored, coded);
    return strcmp(coded, STORED_KEY) == 0;
}

/* What it answers by itself to a First. */
static void challenge(struct shown *shown, const char *message, struct answer *to)
{
    const char *nonce = strstr(message, ",r=");
    snprintf(shown->bare, sizeof shown->bare, "%s", strlen(message) > 3 ? message + 3 : "");
    snprintf(shown->challenge, sizeof shown->challenge, "r=%s%s,s=%s,i=4096", nonce ? nonce + 3 : "", OWN, SALT);
    to->kind = CHALLENGED;
    snprintf(to->body, sizeof to->body, "%s", shown->challenge);
}

/* To a Final. */
static void welcome(struct shown *shown, const char *message, struct answer *to)
{
    unsigned char signature[DIGEST_BYTES];
    char text[3 * MOST_SAID + 10];
    const char *proof = strstr(message, ",p=");
    int bare = proof ? (int)(proof - message) : 0;
    snprintf(text, sizeof text, "%s,%s,%.*s", shown->bare, shown->challenge, bare, message);
    if (!proof || !proves(proof + 3, text))
        return;
    shown->is_in = true;
    mac_of(SERVER_KEY, text, signature);
    to->code = to->detail = 0;
    to->kind = WELCOMED;
    memcpy(to->body, "v=", 2);
    base64_write(signature, sizeof signature, to->body + 2);
}

/* Notes what was asked for, and finds the answer. */
static struct answer answer_to(struct shown *shown, int operation, const char *message)
{
    struct guard *guard = shown->guard;
    struct answer answer = {.bytes = -1};
    if (!shown->is_in && operation != FIRST_STEP) {
        answer.code = XAER_INVAL;
        answer.detail = 8;
    }
    if (operation == FIRST_STEP)
        challenge(shown, message, &answer);
    else if (operation == FINAL_STEP)
        welcome(shown, message, &answer);
    else if (shown->is_in)
        shown->place++;
    pthread_mutex_lock(&guard->lock);
    size_t length = strlen(guard->asked);
    snprintf(guard->asked + length, sizeof guard->asked - length, " %d", operation);
    if (operation == FIRST_STEP)
        snprintf(guard->first, sizeof guard->first, "%s", message);
    if ((operation == FIRST_STEP || operation == FINAL_STEP) && guard->answers[operation - FIRST_STEP].is_there)
        answer = guard->answers[operation - FIRST_STEP];
    pthread_mutex_unlock(&guard->lock);
    return answer;
}

static void *serve(void *with)
{
    struct shown *shown = with;
    unsigned char *frame = malloc(MOST_FRAME);
    while (frame && read_all(shown->socket, frame, 4)) {
        size_t length = (size_t)frame[2] << 8 | frame[3];
        if (length < 2 || length >= MOST_FRAME || !read_all(shown->socket, frame, length))
            break;
        frame[length] = '\0';
        struct answer answer = answer_to(shown, frame[1], (const char *)frame + 2);
        if (!send_reply(shown, &answer))
            break;
    }
    close(shown->socket);
    sem_post(&shown->guard->ends);
    free(frame);
    free(shown);
    return NULL;
}

static void *accept_all(void *with)
{
    struct guard *guard = with;
    for (;;) {
        pthread_t thread;
        struct shown *shown = calloc(1, sizeof *shown);
        int client = accept4(guard->listener, NULL, NULL, SOCK_CLOEXEC);
        if (client < 0 || !shown)
            abort();
        shown->guard = guard;
        shown->socket = client;
        guard->last = client;
        if (pthread_create(&thread, NULL, serve, shown) != 0)
            abort();
        pthread_detach(thread);
    }
}

struct guard *guard_make(void)
{
    struct sockaddr_in address = {.sin_family = AF_INET, .sin_addr.s_addr = htonl(INADDR_LOOPBACK)};
    struct guard *guard = calloc(1, sizeof *guard);
    pthread_t thread;
    if (!guard)
        abort();
    guard->port = free_port();
    pthread_mutex_init(&guard->lock, NULL);
    sem_init(&guard->ends, 0, 0);
    guard->listener = socket(AF_INET, SOCK_STREAM | SOCK_CLOEXEC, 0);
    address.sin_port = htons((unsigned short)guard->port);
    if (bind(guard->listener, (const struct sockaddr *)&address, sizeof address) != 0 || listen(guard->listener, 50) != 0
        || pthread_create(&thread, NULL, accept_all, guard) != 0)
        abort();
    pthread_detach(thread);
    return guard;
}

int guard_port(const struct guard *guard)
{
    return guard->port;
}

void guard_answer(struct guard *guard, int step, int code, int detail, int kind, const char *body, int bytes)
{
    struct answer answer = {.is_there = true, .code = code, .detail = detail, .kind = kind, .bytes = bytes};
    snprintf(answer.body, sizeof answer.body, "%s", body);
    pthread_mutex_lock(&guard->lock);
    guard->answers[step - FIRST_STEP] = answer;
    pthread_mutex_unlock(&guard->lock);
}

void guard_answer_well(struct guard *guard)
{
    pthread_mutex_lock(&guard->lock);
    memset(guard->answers, 0, sizeof guard->answers);
    pthread_mutex_unlock(&guard->lock);
}

const char *guard_asked(struct guard *guard)
{
    pthread_mutex_lock(&guard->lock);
    memcpy(guard->told, guard->asked, sizeof guard->told);
    guard->asked[0] = '\0';
    pthread_mutex_unlock(&guard->lock);
    return guard->told;
}

const char *guard_ended(struct guard *guard)
{
    struct timespec until;
    clock_gettime(CLOCK_REALTIME, &until);
    until.tv_sec += LIMIT_SECONDS;
    return sem_timedwait(&guard->ends, &until) == 0 ? guard_asked(guard) : "no end";
}

void guard_break(struct guard *guard)
{
    shutdown(guard->last, SHUT_RDWR);
    sleep_for(20);
}

const char *guard_first(struct guard *guard)
{
    return guard->first;
}
