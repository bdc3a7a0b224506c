#define _DEFAULT_SOURCE

#include "scram.h"

#include <errno.h>
#include <stdio.h>
#include <string.h>
#include <sys/random.h>

/* What a challenge asks for. */
struct asked {
    struct part nonce; /* the client's, and then the server's own part */
    unsigned char salt[MOST_SALT];
    size_t salt_length;
    unsigned iterations;
};

static const char characters[] = "ABCDEFGHIJKLMNOPQRSTUVWXYZabcdefghijklmnopqrstuvwxyz0123456789+/";

void base64_write(const unsigned char *from, size_t length, char *to)
{
    for (size_t at = 0; at < length; at += 3) {
        size_t left = length - at;
        unsigned bits = (unsigned)from[at] << 16 | (left > 1 ? (unsigned)from[at + 1] << 8 : 0) | (left > 2 ? from[at + 2] : 0U);
        *to++ = characters[bits >> 18];
        *to++ = characters[bits >> 12 & 63];
        *to++ = left > 1 ? characters[bits >> 6 & 63] : '=';
        *to++ = left > 2 ? characters[bits & 63] : '=';
    }
    *to = '\0';
}

/* The six bits of a character, or -1. */
static int bits_of(unsigned char character)
{
    const char *found = character == '\0' ? NULL : strchr(characters, character);
    return found ? (int)(found - characters) : -1;
}

int base64_read(const unsigned char *text, size_t length, unsigned char *to, size_t room)
{
    size_t padding = 0, count = length / 4 * 3;
    unsigned bits = 0;
    while (padding < 2 && padding < length && text[length - 1 - padding] == '=')
        padding++;
    if (length % 4 != 0 || count - padding > room)
        return -1;
    count -= padding;
    for (size_t at = 0; at < length; at++) {
        int six = at < length - padding ? bits_of(text[at]) : 0;
        if (six < 0)
            return -1;
        bits = (bits << 6 | (unsigned)six) & 0xffffff;
        for (size_t byte = 0; at % 4 == 3 && byte < 3; byte++) {
            size_t place = at / 4 * 3 + byte;
            unsigned char value = (unsigned char)(bits >> (16 - 8 * byte));
            if (place < count)
                to[place] = value;
            else if (value != 0)
                return -1; /* another text is the Base64 of these bytes */
        }
    }
    return (int)count;
}

bool scram_nonce(char nonce[NONCE_LENGTH + 1])
{
    unsigned char bytes[NONCE_BYTES];
    size_t came = 0;
    while (came < sizeof bytes) {
        ssize_t some = getrandom(bytes + came, sizeof bytes - came, 0);
        if (some < 0 && errno != EINTR)
            return false;
        came += some < 0 ? 0 : (size_t)some;
    }
    base64_write(bytes, sizeof bytes, nonce);
    return true;
}

void scram_begin(struct scram *scram, const char *user, const char *nonce)
{
    int front = snprintf(scram->first, sizeof scram->first, "n,,n=%s,r=", user);
    scram->nonce = scram->first + front;
    snprintf(scram->first + front, sizeof scram->first - (size_t)front, "%s", nonce);
    scram->final[0] = '\0';
    scram->acceptance[0] = '\0';
}

/* Takes what is after a front, up to a comma or the end, from the front of a text. */
static bool take(struct part *text, const char *front, struct part *to)
{
    const unsigned char *bytes = text->bytes;
    size_t skipped = strlen(front);
    if (text->length < skipped || memcmp(bytes, front, skipped) != 0)
        return false;
    const unsigned char *comma = memchr(bytes + skipped, ',', text->length - skipped);
    to->bytes = bytes + skipped;
    to->length = comma ? (size_t)(comma - bytes) - skipped : text->length - skipped;
    text->bytes = bytes + skipped + to->length;
    text->length -= skipped + to->length;
    return true;
}

/* Whether a nonce is the client's with a part of the server's own after it. */
static bool is_nonce(struct part nonce, const char *own)
{
    const unsigned char *bytes = nonce.bytes;
    size_t front = strlen(own);
    if (nonce.length <= front || nonce.length > front + MOST_NONCE || memcmp(bytes, own, front) != 0)
        return false;
    while (front < nonce.length && '!' <= bytes[front] && bytes[front] <= '~')
        front++;
    return front == nonce.length;
}

/* A decimal number without leading zeros, or 0: there is none, or it is out of the limits. */
static unsigned read_iterations(struct part text)
{
    const unsigned char *digits = text.bytes;
    unsigned number = 0;
    if (text.length == 0 || digits[0] == '0')
        return 0;
    for (size_t at = 0; at < text.length; at++) {
        if (digits[at] < '0' || digits[at] > '9')
            return 0;
        number = 10 * number + (unsigned)(digits[at] - '0');
        if (number > MOST_ITERATIONS)
            return 0;
    }
    return number < LEAST_ITERATIONS ? 0 : number;
}

static bool read_challenge(struct part text, const char *nonce, struct asked *to)
{
    struct part salt, iterations;
    if (!take(&text, "r=", &to->nonce) || !take(&text, ",s=", &salt) || !take(&text, ",i=", &iterations) || text.length > 0)
        return false;
    int length = base64_read(salt.bytes, salt.length, to->salt, sizeof to->salt);
    to->salt_length = length < 1 ? 0 : (size_t)length;
    to->iterations = read_iterations(iterations);
    return is_nonce(to->nonce, nonce) && length >= 1 && to->iterations > 0;
}

bool scram_answer(struct scram *scram, struct part secret, const unsigned char *challenge, size_t length)
{
    static const struct part client = {"Client Key", 10}, server = {"Server Key", 10};
    unsigned char salted[DIGEST_BYTES], key[DIGEST_BYTES], stored[DIGEST_BYTES], signature[DIGEST_BYTES];
    struct asked asked;
    if (!read_challenge((struct part){challenge, length}, scram->nonce, &asked))
        return false;
    int bare = snprintf(scram->final, sizeof scram->final, "c=biws,r=%.*s", (int)asked.nonce.length, (const char *)asked.nonce.bytes);
    /* what both sides sign */
    const struct part all[] = {
        {scram->first + 3, strlen(scram->first + 3)}, {",", 1}, {challenge, length}, {",", 1}, {scram->final, (size_t)bare},
    };
    enum { ALL = sizeof all / sizeof all[0] };
    pbkdf2_sha256(secret.bytes, secret.length, (struct part){asked.salt, asked.salt_length}, asked.iterations, salted);
    hmac_sha256(salted, sizeof salted, &client, 1, key);
    sha256(&(struct part){key, sizeof key}, 1, stored);
    hmac_sha256(stored, sizeof stored, all, ALL, signature);
    for (int at = 0; at < DIGEST_BYTES; at++)
        signature[at] ^= key[at];
    char proof[DIGEST_LENGTH + 1];
    base64_write(signature, sizeof signature, proof);
    hmac_sha256(salted, sizeof salted, &server, 1, key);
    hmac_sha256(key, sizeof key, all, ALL, signature);
    snprintf(scram->final + bare, sizeof scram->final - (size_t)bare, ",p=%s", proof);
    memcpy(scram->acceptance, "v=", 2);
    base64_write(signature, sizeof signature, scram->acceptance + 2);
    explicit_bzero(salted, sizeof salted);
    explicit_bzero(key, sizeof key);
    explicit_bzero(stored, sizeof stored);
    explicit_bzero(signature, sizeof signature);
    return true;
}

bool scram_is_accepted(const struct scram *scram, const unsigned char *last, size_t length)
{
    unsigned char differs = 0;
    if (length != MOST_ACCEPTANCE || scram->acceptance[0] == '\0')
        return false;
    for (size_t at = 0; at < length; at++)
        differs |= (unsigned char)(last[at] ^ (unsigned char)scram->acceptance[at]);
    return differs == 0;
}
