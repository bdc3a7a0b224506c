#define _GNU_SOURCE
#include "harness.h"

#include <setjmp.h>
#include <signal.h>
#include <stdarg.h>
#include <stdio.h>
#include <stdlib.h>
#include <string.h>
#include <unistd.h>

const char *program, *folder;

static int passed, failed, limit;
static jmp_buf end_of_test;
static char wrong[1000];
static const char *running = "none";

void test(const char *name, void (*body)(void))
{
    running = name;
    if (setjmp(end_of_test) == 0) {
        body();
        passed++;
        printf("c: %s ... ok\n", name);
    } else {
        failed++;
        printf("c: %s ... FAILED: %s\n", name, wrong);
    }
    fflush(stdout);
}

void fail(const char *form, ...)
{
    va_list words;
    va_start(words, form);
    vsnprintf(wrong, sizeof wrong, form, words);
    va_end(words);
    longjmp(end_of_test, 1);
}

void expect_code(const char *file, int line, const char *what, long expected, long found)
{
    if (expected != found)
        fail("%s:%d: %s is %ld, not %ld (%s)", file, line, what, found, expected, xarm_why());
}

void expect_holds(const char *file, int line, const char *what, bool holds)
{
    if (!holds)
        fail("%s:%d: %s (%s)", file, line, what, xarm_why());
}

int end_of_tests(void)
{
    printf("%d passed, %d failed\n", passed, failed);
    return failed == 0 ? 0 : 1;
}

/* Whichever test waits by then has failed. */
static void too_late(int number)
{
    (void)number;
    printf("c: %s ... FAILED: not done after %d seconds of all tests\n%d passed, %d failed\n", running, limit, passed, failed + 1);
    fflush(stdout);
    _exit(1);
}

void begin_tests(const char *the_program, const char *the_folder, int seconds)
{
    program = the_program;
    folder = the_folder;
    limit = seconds;
    signal(SIGALRM, too_late);
    alarm((unsigned)seconds);
}
