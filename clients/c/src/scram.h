/* The client's side of a login by SCRAM-SHA-256 (RFC 5802, RFC 7677), without channel binding. */
#ifndef XARM_SCRAM_H
#define XARM_SCRAM_H

#include <stdbool.h>
#include <stddef.h>

#include "sha256.h"

enum {
    MOST_USER = 64,
    MOST_SALT = 32,
    MOST_NONCE = 64,         /* of a server's part of the nonce */
    LEAST_ITERATIONS = 4096, /* RFC 7677, 4 */
    MOST_ITERATIONS = 1000000,
    NONCE_BYTES = 18,
    NONCE_LENGTH = 24,  /* of their Base64 */
    DIGEST_LENGTH = 44, /* of a digest's */
    MOST_FIRST = 5 + MOST_USER + 3 + NONCE_LENGTH,
    MOST_FINAL = 9 + NONCE_LENGTH + MOST_NONCE + 3 + DIGEST_LENGTH,
    MOST_ACCEPTANCE = 2 + DIGEST_LENGTH
};

/* Base64 (RFC 4648, 4), with an ending null: four characters for each three bytes that were begun. */
void base64_write(const unsigned char *from, size_t length, char *to);
/* How many bytes a text is the Base64 of, each of which has one, or -1: there are none, or more than there is room for. */
int base64_read(const unsigned char *text, size_t length, unsigned char *to, size_t room);

/* A login: the messages are texts with an ending null. */
struct scram {
    const char *nonce; /* in the first one */
    char first[MOST_FIRST + 1];
    char final[MOST_FINAL + 1];
    char acceptance[MOST_ACCEPTANCE + 1]; /* by which the server shows that it knows the secret's verifier */
};

/* Makes the nonce of a login, which nobody can guess. False: the system has no random bytes. */
bool scram_nonce(char nonce[NONCE_LENGTH + 1]);

/* Begins a login, with its first message. The nonce has NONCE_LENGTH characters at most, the user MOST_USER. */
void scram_begin(struct scram *scram, const char *user, const char *nonce);

/* Answers a challenge, with the final message. False: it is none, isn't to this login, or asks for too little or too much. */
bool scram_answer(struct scram *scram, struct part secret, const unsigned char *challenge, size_t length);

/* Whether the server's last message, after an answer, is the acceptance. */
bool scram_is_accepted(const struct scram *scram, const unsigned char *last, size_t length);

#endif
