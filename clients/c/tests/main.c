/* Runs the suites of the C library's tests against the program: all, or those that are named. */
#define _DEFAULT_SOURCE

#include <stdio.h>
#include <stdlib.h>
#include <string.h>

#include "harness.h"

enum { SECONDS = 600 };

static const struct {
    const char *name;
    void (*run)(void);
} suites[] = {
    {"info", info_tests},       {"entries", entry_tests}, {"records", record_tests}, {"states", state_tests},
    {"broken", broken_tests},   {"replies", reply_tests}, {"threads", thread_tests}, {"recover", recover_tests},
    {"hashes", hash_tests},     {"logins", login_tests},   {"secrets", secret_tests},
};

int main(int count, char **words)
{
    if (count < 3) {
        fprintf(stderr, "usage: %s PROGRAM FOLDER [SUITE..]\n", words[0]);
        return 2;
    }
    unsetenv("XARM_PASSWORD_FILE");
    begin_tests(words[1], words[2], SECONDS);
    for (size_t at = 0; at < sizeof suites / sizeof suites[0]; at++) {
        bool is_asked = count == 3;
        for (int word = 3; word < count; word++)
            is_asked = is_asked || strcmp(words[word], suites[at].name) == 0;
        if (is_asked)
            suites[at].run();
    }
    return end_of_tests();
}
