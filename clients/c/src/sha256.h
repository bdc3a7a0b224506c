/* SHA-256 (FIPS 180-4), HMAC (RFC 2104) by it, and PBKDF2 (RFC 8018) by that. What they held of secrets is wiped. */
#ifndef XARM_SHA256_H
#define XARM_SHA256_H

#include <stddef.h>

enum { DIGEST_BYTES = 32 };

/* One of the texts that are hashed as if they stood one after the other. */
struct part {
    const void *bytes;
    size_t length;
};

void sha256(const struct part *parts, size_t count, unsigned char *to);

void hmac_sha256(const void *key, size_t length, const struct part *parts, size_t count, unsigned char *to);

/* The first 32 bytes, which RFC 5802 calls Hi; of one iteration or more. */
void pbkdf2_sha256(const void *secret, size_t length, struct part salt, unsigned iterations, unsigned char *to);

#endif
