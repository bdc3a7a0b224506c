#define _DEFAULT_SOURCE

#include "sha256.h"

#include <stdint.h>
#include <string.h>

enum { BLOCK_BYTES = 64, WORDS = 8, ROUNDS = 64, LENGTH_AT = BLOCK_BYTES - 8 };

struct hash {
    uint32_t words[WORDS];
    uint64_t length; /* of all that was hashed, in bytes */
    unsigned char block[BLOCK_BYTES];
};

/* What HMAC hashes after the padded keys. */
struct keyed {
    struct hash inner, outer;
};

/* FIPS 180-4, 5.3.3 and 4.2.2: the first bits of the fractions of square roots and of cube roots of primes. */
static const uint32_t first_words[WORDS] = {
    0x6a09e667, 0xbb67ae85, 0x3c6ef372, 0xa54ff53a, 0x510e527f, 0x9b05688c, 0x1f83d9ab, 0x5be0cd19,
};
static const uint32_t constants[ROUNDS] = {
    0x428a2f98, 0x71374491, 0xb5c0fbcf, 0xe9b5dba5, 0x3956c25b, 0x59f111f1, 0x923f82a4, 0xab1c5ed5, 0xd807aa98, 0x12835b01, 0x243185be,
    0x550c7dc3, 0x72be5d74, 0x80deb1fe, 0x9bdc06a7, 0xc19bf174, 0xe49b69c1, 0xefbe4786, 0x0fc19dc6, 0x240ca1cc, 0x2de92c6f, 0x4a7484aa,
    0x5cb0a9dc, 0x76f988da, 0x983e5152, 0xa831c66d, 0xb00327c8, 0xbf597fc7, 0xc6e00bf3, 0xd5a79147, 0x06ca6351, 0x14292967, 0x27b70a85,
    0x2e1b2138, 0x4d2c6dfc, 0x53380d13, 0x650a7354, 0x766a0abb, 0x81c2c92e, 0x92722c85, 0xa2bfe8a1, 0xa81a664b, 0xc24b8b70, 0xc76c51a3,
    0xd192e819, 0xd6990624, 0xf40e3585, 0x106aa070, 0x19a4c116, 0x1e376c08, 0x2748774c, 0x34b0bcb5, 0x391c0cb3, 0x4ed8aa4a, 0x5b9cca4f,
    0x682e6ff3, 0x748f82ee, 0x78a5636f, 0x84c87814, 0x8cc70208, 0x90befffa, 0xa4506ceb, 0xbef9a3f7, 0xc67178f2,
};

static uint32_t rotated(uint32_t word, int by)
{
    return word >> by | word << (32 - by);
}

static uint32_t read_word(const unsigned char *from)
{
    return (uint32_t)from[0] << 24 | (uint32_t)from[1] << 16 | (uint32_t)from[2] << 8 | from[3];
}

static void write_word(unsigned char *to, uint32_t word)
{
    for (int at = 0; at < 4; at++)
        to[at] = (unsigned char)(word >> (24 - 8 * at));
}

/* FIPS 180-4, 6.2.2. */
static void hash_block(struct hash *hash, const unsigned char *block)
{
    uint32_t schedule[ROUNDS], words[WORDS];
    for (int at = 0; at < 16; at++)
        schedule[at] = read_word(block + 4 * at);
    for (int at = 16; at < ROUNDS; at++) {
        uint32_t two = schedule[at - 2], fifteen = schedule[at - 15];
        schedule[at] = (rotated(two, 17) ^ rotated(two, 19) ^ two >> 10) + schedule[at - 7]
            + (rotated(fifteen, 7) ^ rotated(fifteen, 18) ^ fifteen >> 3) + schedule[at - 16];
    }
    memcpy(words, hash->words, sizeof words);
    for (int at = 0; at < ROUNDS; at++) {
        uint32_t a = words[0], e = words[4];
        uint32_t one = words[7] + (rotated(e, 6) ^ rotated(e, 11) ^ rotated(e, 25)) + ((e & words[5]) ^ (~e & words[6])) + constants[at]
            + schedule[at];
        uint32_t other = (rotated(a, 2) ^ rotated(a, 13) ^ rotated(a, 22)) + ((a & words[1]) ^ (a & words[2]) ^ (words[1] & words[2]));
        memmove(words + 1, words, sizeof words - sizeof words[0]);
        words[4] += one;
        words[0] = one + other;
    }
    for (int at = 0; at < WORDS; at++)
        hash->words[at] += words[at];
    explicit_bzero(schedule, sizeof schedule);
    explicit_bzero(words, sizeof words);
}

static void hash_begin(struct hash *hash)
{
    memcpy(hash->words, first_words, sizeof first_words);
    hash->length = 0;
}

static void hash_add(struct hash *hash, const void *bytes, size_t length)
{
    const unsigned char *from = bytes;
    while (length > 0) {
        size_t at = (size_t)(hash->length % BLOCK_BYTES);
        size_t some = length < BLOCK_BYTES - at ? length : BLOCK_BYTES - at;
        memcpy(hash->block + at, from, some);
        hash->length += some;
        from += some;
        length -= some;
        if (at + some == BLOCK_BYTES)
            hash_block(hash, hash->block);
    }
}

static void hash_add_all(struct hash *hash, const struct part *parts, size_t count)
{
    for (size_t at = 0; at < count; at++)
        hash_add(hash, parts[at].bytes, parts[at].length);
}

/* FIPS 180-4, 5.1.1: a bit, zeros, and the length in bits fill the last block. */
static void hash_end(struct hash *hash, unsigned char *to)
{
    static const unsigned char padding[BLOCK_BYTES] = {0x80};
    unsigned char length[8];
    size_t at = (size_t)(hash->length % BLOCK_BYTES);
    write_word(length, (uint32_t)(hash->length >> 29));
    write_word(length + 4, (uint32_t)(hash->length << 3));
    hash_add(hash, padding, (at < LENGTH_AT ? LENGTH_AT : LENGTH_AT + BLOCK_BYTES) - at);
    hash_add(hash, length, sizeof length);
    for (int word = 0; word < WORDS; word++)
        write_word(to + 4 * word, hash->words[word]);
    explicit_bzero(hash, sizeof *hash);
}

void sha256(const struct part *parts, size_t count, unsigned char *to)
{
    struct hash hash;
    hash_begin(&hash);
    hash_add_all(&hash, parts, count);
    hash_end(&hash, to);
}

/* RFC 2104, 2: a key that is longer than a block is hashed first. */
static void key_begin(struct keyed *keyed, const void *key, size_t length)
{
    unsigned char padded[BLOCK_BYTES] = {0};
    if (length > BLOCK_BYTES)
        sha256(&(struct part){key, length}, 1, padded);
    else if (length > 0)
        memcpy(padded, key, length);
    for (int at = 0; at < BLOCK_BYTES; at++)
        padded[at] ^= 0x36;
    hash_begin(&keyed->inner);
    hash_add(&keyed->inner, padded, sizeof padded);
    for (int at = 0; at < BLOCK_BYTES; at++)
        padded[at] ^= 0x36 ^ 0x5c;
    hash_begin(&keyed->outer);
    hash_add(&keyed->outer, padded, sizeof padded);
    explicit_bzero(padded, sizeof padded);
}

/* By a key that is kept for more. */
static void hmac(const struct keyed *keyed, const struct part *parts, size_t count, unsigned char *to)
{
    struct keyed copy = *keyed;
    unsigned char digest[DIGEST_BYTES];
    hash_add_all(&copy.inner, parts, count);
    hash_end(&copy.inner, digest);
    hash_add(&copy.outer, digest, sizeof digest);
    hash_end(&copy.outer, to);
    explicit_bzero(digest, sizeof digest);
}

void hmac_sha256(const void *key, size_t length, const struct part *parts, size_t count, unsigned char *to)
{
    struct keyed keyed;
    key_begin(&keyed, key, length);
    hmac(&keyed, parts, count, to);
    explicit_bzero(&keyed, sizeof keyed);
}

void pbkdf2_sha256(const void *secret, size_t length, struct part salt, unsigned iterations, unsigned char *to)
{
    static const unsigned char first_block[4] = {0, 0, 0, 1};
    struct keyed keyed;
    unsigned char link[DIGEST_BYTES];
    key_begin(&keyed, secret, length);
    hmac(&keyed, (struct part[]){salt, {first_block, sizeof first_block}}, 2, link);
    memcpy(to, link, sizeof link);
    for (unsigned done = 1; done < iterations; done++) {
        hmac(&keyed, &(struct part){link, sizeof link}, 1, link);
        for (int at = 0; at < DIGEST_BYTES; at++)
            to[at] ^= link[at];
    }
    explicit_bzero(&keyed, sizeof keyed);
    explicit_bzero(link, sizeof link);
}
