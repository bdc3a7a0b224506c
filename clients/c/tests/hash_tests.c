/* What a login is made of, by the vectors of FIPS 180-4, RFC 4231, RFC 7914, RFC 4648 and RFC 7677. */
#include <stdio.h>
#include <stdlib.h>
#include <string.h>

#include "guard.h"
#include "harness.h"
#include "src/scram.h"

#define PART(text) ((struct part){(text), sizeof(text) - 1})
#define ALL(parts) (parts), sizeof(parts) / sizeof(parts)[0]

static void is_digest(const unsigned char *digest, size_t length, const char *wanted, const char *what)
{
    char text[2 * DIGEST_BYTES + 1] = "";
    for (size_t at = 0; at < length; at++)
        snprintf(text + 2 * at, 3, "%02x", digest[at]);
    if (strcmp(text, wanted) != 0)
        fail("%s is %s", what, text);
}

static void hashes(void)
{
    static const struct {
        struct part text;
        const char *digest;
    } rows[] = {
        {{"", 0}, "e3b0c44298fc1c149afbf4c8996fb92427ae41e4649b934ca495991b7852b855"},
        {{"abc", 3}, "ba7816bf8f01cfea414140de5dae2223b00361a396177a9cb410ff61f20015ad"},
        {{"abcdbcdecdefdefgefghfghighijhijkijkljklmklmnlmnomnopnopq", 56},
            "248d6a61d20638b8e5c026930c3e6039a33ce45964ff2167f6ecedd419db06c1"},
        {{"abcdefghbcdefghicdefghijdefghijkefghijklfghijklmghijklmnhijklmnoijklmnopjklmnopqklmnopqrlmnopqrsmnopqrstnopqrstu", 112},
            "cf5b16a778af8380036ce59e7b0492370b249b11e8f07a51afac45037afee9d1"},
    };
    unsigned char digest[DIGEST_BYTES];
    for (size_t at = 0; at < sizeof rows / sizeof rows[0]; at++) {
        sha256(&rows[at].text, 1, digest);
        is_digest(digest, sizeof digest, rows[at].digest, rows[at].text.bytes);
        /* the same in two parts, wherever they meet */
        for (size_t front = 0; front <= rows[at].text.length; front++) {
            const char *bytes = rows[at].text.bytes;
            struct part parts[] = {{bytes, front}, {bytes + front, rows[at].text.length - front}};
            sha256(ALL(parts), digest);
            is_digest(digest, sizeof digest, rows[at].digest, "in two parts it");
        }
    }
}

static void million(void)
{
    enum { MILLION = 1000000 };
    unsigned char digest[DIGEST_BYTES];
    char *text = malloc(MILLION);
    HOLDS(text);
    memset(text, 'a', MILLION);
    sha256(&(struct part){text, MILLION}, 1, digest);
    free(text);
    is_digest(digest, sizeof digest, "cdc76e5c9914fb9281a1c7e284d73e67f1809a48a497200e046d39ccc7112cd0", "a million of a");
}

static void macs(void)
{
    static unsigned char ascending[25], ones[20], twelves[20], many[131], dds[50], cds[50];
    for (size_t at = 0; at < sizeof ascending; at++)
        ascending[at] = (unsigned char)(at + 1);
    memset(ones, 0x0b, sizeof ones);
    memset(twelves, 0x0c, sizeof twelves);
    memset(many, 0xaa, sizeof many);
    memset(dds, 0xdd, sizeof dds);
    memset(cds, 0xcd, sizeof cds);
    const struct {
        struct part key, text;
        size_t length; /* of what the RFC has of it */
        const char *digest;
    } rows[] = {
        {{ones, 20}, PART("Hi There"), 32, "b0344c61d8db38535ca8afceaf0bf12b881dc200c9833da726e9376c2e32cff7"},
        {PART("Jefe"), PART("what do ya want for nothing?"), 32, "5bdcc146bf60754e6a042426089575c75a003f089d2739839dec58b964ec3843"},
        {{many, 20}, {dds, 50}, 32, "773ea91e36800e46854db8ebd09181a72959098b3ef8c122d9635514ced565fe"},
        {{ascending, 25}, {cds, 50}, 32, "82558a389a443c0ea4cc819899f2083a85f0faa3e578f8077a2e3ff46729665b"},
        {{twelves, 20}, PART("Test With Truncation"), 16, "a3b6167473100ee06e0c796c2955552b"},
        {{many, 131}, PART("Test Using Larger Than Block-Size Key - Hash Key First"), 32,
            "60e431591ee0b67f0d8a26aacbf5b77f8e0bc6213728c5140546040f0ee37f54"},
        {{many, 131},
            PART("This is a test using a larger than block-size key and a larger than block-size data. The key needs to be hashed before "
                 "being used by the HMAC algorithm."),
            32, "9b09ffa71b942fcb27635fbcd5b0e944bfdc63644f0713938a7f51535c3a35e2"},
    };
    unsigned char digest[DIGEST_BYTES];
    for (size_t at = 0; at < sizeof rows / sizeof rows[0]; at++) {
        char what[20];
        snprintf(what, sizeof what, "test case %zu", at + 1);
        hmac_sha256(rows[at].key.bytes, rows[at].key.length, &rows[at].text, 1, digest);
        is_digest(digest, rows[at].length, rows[at].digest, what);
    }
}

/* Of the 64 bytes that the RFC has the first 32. */
static void derived(void)
{
    unsigned char key[DIGEST_BYTES];
    pbkdf2_sha256("passwd", 6, PART("salt"), 1, key);
    is_digest(key, sizeof key, "55ac046e56e3089fec1691c22544b605f94185216dde0465e68b9d57c20dacbc", "of one iteration it");
    pbkdf2_sha256("Password", 8, PART("NaCl"), 80000, key);
    is_digest(key, sizeof key, "4ddcd8f60b98be21830cee5ef22701f9641a4418d04c0414aeff08876b34ab56", "of 80,000 iterations it");
}

static void coded(void)
{
    static const char *const rows[][2] = {
        {"", ""}, {"f", "Zg=="}, {"fo", "Zm8="}, {"foo", "Zm9v"}, {"foob", "Zm9vYg=="}, {"fooba", "Zm9vYmE="}, {"foobar", "Zm9vYmFy"},
    };
    static const char *const none[] = {
        "Z", "Zg", "Zg=", "Zm9", "=", "==", "===", "====", "Z===", "Zh==", "Zm9=", "Zm=v", "Z=9v", "Zm9v=", "Zm9v====", "Zm9 ", "Zm9\n",
        "Zm9-", "Zm9_", "Zg==Zg==", "Zm9vYmFyZm9v",
    };
    unsigned char bytes[6];
    char text[20];
    for (size_t at = 0; at < sizeof rows / sizeof rows[0]; at++) {
        size_t length = strlen(rows[at][0]);
        base64_write((const unsigned char *)rows[at][0], length, text);
        HOLDS(strcmp(text, rows[at][1]) == 0);
        CODE((long)length, base64_read((const unsigned char *)text, strlen(text), bytes, length));
        HOLDS(memcmp(bytes, rows[at][0], length) == 0);
        if (length > 0)
            CODE(-1, base64_read((const unsigned char *)text, strlen(text), bytes, length - 1));
    }
    for (size_t at = 0; at < sizeof none / sizeof none[0]; at++) {
        if (base64_read((const unsigned char *)none[at], strlen(none[at]), bytes, sizeof bytes) != -1)
            fail("'%s' was read", none[at]);
    }
    CODE(-1, base64_read((const unsigned char *)"Zm\0v", 4, bytes, sizeof bytes));
}

#define NONCE "rOprNGfwEbeRWgbNEkqO"

static bool answers(struct scram *scram, const char *challenge)
{
    return scram_answer(scram, PART("pencil"), (const unsigned char *)challenge, strlen(challenge));
}

static bool accepts(const struct scram *scram, const char *last)
{
    return scram_is_accepted(scram, (const unsigned char *)last, strlen(last));
}

static void standard(void)
{
    static const char welcome[] = "v=6rriTRBi23WpRR/wtup+mMhUZUn/dB5nLTJRsjl95G4=";
    struct scram scram;
    scram_begin(&scram, "user", NONCE);
    HOLDS(strcmp(scram.first, "n,,n=user,r=" NONCE) == 0);
    HOLDS(!accepts(&scram, "") && !accepts(&scram, welcome));
    HOLDS(answers(&scram, "r=" NONCE OWN ",s=" SALT ",i=4096"));
    HOLDS(strcmp(scram.final, "c=biws,r=" NONCE OWN ",p=dHzbZapWIk4jUhN+Ute9ytag9zjfMHgsqmmiz7AndVQ=") == 0);
    HOLDS(accepts(&scram, welcome));
    for (size_t at = 0; at < sizeof welcome - 1; at++) {
        char other[sizeof welcome];
        memcpy(other, welcome, sizeof other);
        other[at] ^= 1;
        HOLDS(!accepts(&scram, other));
        other[at] = '\0';
        HOLDS(!accepts(&scram, other));
    }
    HOLDS(!accepts(&scram, "v=6rriTRBi23WpRR/wtup+mMhUZUn/dB5nLTJRsjl95G4=,x=y") && !accepts(&scram, ""));
}

#define X64 "xxxxxxxxxxxxxxxxxxxxxxxxxxxxxxxxxxxxxxxxxxxxxxxxxxxxxxxxxxxxxxxx"
#define A43 "AAAAAAAAAAAAAAAAAAAAAAAAAAAAAAAAAAAAAAAAAAA"

/* What isn't a challenge to this login, or asks for too little or too much. */
static void challenges(void)
{
    static const char *const none[] = {
        "", "r=", "r=" NONCE, "r=" NONCE "x", "r=" NONCE "x,s=" SALT, "r=" NONCE ",s=" SALT ",i=4096", "r=other,s=" SALT ",i=4096",
        "r=x" NONCE ",s=" SALT ",i=4096", "r=" NONCE X64 "x,s=" SALT ",i=4096", "r=" NONCE "\x7f,s=" SALT ",i=4096",
        "r=" NONCE " ,s=" SALT ",i=4096", "r=" NONCE "x,s=,i=4096", "r=" NONCE "x,s=W22ZaJ0SNY7soEsUEjb6gQ,i=4096",
        "r=" NONCE "x,s=W22ZaJ0SNY7soEsUEjb6gR==,i=4096", "r=" NONCE "x,s=" A43 "A,i=4096", "r=" NONCE "x,s=" SALT ",i=",
        "r=" NONCE "x,s=" SALT ",i=4095", "r=" NONCE "x,s=" SALT ",i=1", "r=" NONCE "x,s=" SALT ",i=0", "r=" NONCE "x,s=" SALT ",i=04096",
        "r=" NONCE "x,s=" SALT ",i=-4096", "r=" NONCE "x,s=" SALT ",i=+4096", "r=" NONCE "x,s=" SALT ",i=1000001",
        "r=" NONCE "x,s=" SALT ",i=4294971392", "r=" NONCE "x,s=" SALT ",i=99999999999999999999", "r=" NONCE "x,s=" SALT ",i=4096,x=y",
        "r=" NONCE "x,s=" SALT ",i=4096,", "r=" NONCE "x,s=" SALT ",i=4096\n", "m=y,r=" NONCE "x,s=" SALT ",i=4096",
        "r=" NONCE "x,i=4096,s=" SALT, "R=" NONCE "x,s=" SALT ",i=4096",
    };
    static const char *const well[] = {
        "r=" NONCE "x,s=" A43 "=,i=4096", "r=" NONCE X64 ",s=AA==,i=4097", "r=" NONCE "!~+-,s=" SALT ",i=10000",
    };
    struct scram scram;
    for (size_t at = 0; at < sizeof none / sizeof none[0]; at++) {
        scram_begin(&scram, "user", NONCE);
        if (answers(&scram, none[at]) || scram.final[0] != '\0' || scram.acceptance[0] != '\0')
            fail("'%s' was answered", none[at]);
    }
    for (size_t at = 0; at < sizeof well / sizeof well[0]; at++) {
        scram_begin(&scram, "user", NONCE);
        if (!answers(&scram, well[at]) || strlen(scram.acceptance) != MOST_ACCEPTANCE)
            fail("'%s' wasn't answered", well[at]);
    }
}

/* The longest messages have room. */
static void longest(void)
{
    struct scram scram;
    char nonce[NONCE_LENGTH + 1];
    char text[300];
    HOLDS(scram_nonce(nonce) && strlen(nonce) == NONCE_LENGTH);
    scram_begin(&scram, X64, nonce);
    CODE(MOST_FIRST, (long)strlen(scram.first));
    snprintf(text, sizeof text, "r=%s%s,s=%s=,i=4096", nonce, X64, A43);
    HOLDS(answers(&scram, text));
    CODE(MOST_FINAL, (long)strlen(scram.final));
    CODE(MOST_ACCEPTANCE, (long)strlen(scram.acceptance));
}

void hash_tests(void)
{
    test("SHA-256 is that of FIPS 180-4's examples", hashes);
    test("SHA-256 of a million bytes is that of FIPS 180-4's example", million);
    test("HMAC is that of RFC 4231's test cases", macs);
    test("PBKDF2 is that of RFC 7914's vectors", derived);
    test("Base64 is that of RFC 4648's vectors, and each text has one", coded);
    test("the messages of a login are those of RFC 7677", standard);
    test("a challenge that isn't to this login, or that asks for too little or too much, isn't answered", challenges);
    test("the longest messages of a login have room", longest);
}
