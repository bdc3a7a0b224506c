/* A password is in memory only while it is used. */
#define _GNU_SOURCE
#include <fcntl.h>
#include <stdint.h>
#include <stdio.h>
#include <stdlib.h>
#include <string.h>
#include <unistd.h>

#include "guard.h"
#include "work.h"

enum { RMID = 1, LENGTH = 48, MASK = 0x80, DEPTH = 65536 };

static struct guard *guard;
static char path[100], info[MAXINFOSIZE];
static unsigned char masked[LENGTH]; /* so that the tests don't have it in memory themselves */

/* Opens it with the right password, and then gives the file another one. */
static void begin(void)
{
    HOLDS(snprintf(path, sizeof path, "%s/w%d", folder, (int)getpid()) < (int)sizeof path);
    guard = guard_make();
    snprintf(info, sizeof info, "port=%d name=fake user=user password_file=%s timeout=20", guard_port(guard), path);
    int file = open(path, O_WRONLY | O_CREAT | O_TRUNC | O_CLOEXEC, 0600);
    HOLDS(write(file, "pencil", 6) == 6);
    CODE(XA_OK, xa_open(info, RMID));
    for (int at = 0; at < LENGTH; at++) {
        unsigned char byte = (unsigned char)('0' + at * 37 % 71);
        masked[at] = byte ^ MASK;
        HOLDS(pwrite(file, &byte, 1, at) == 1);
    }
    close(file);
    guard_break(guard);
    HOLDS(strcmp(guard_ended(guard), " 74 75 1") == 0);
}

/* The bounds of the memory that has this address: the stack, if it is a variable's. */
static void bounds_of(const void *address, uintptr_t *start, uintptr_t *end)
{
    FILE *maps = fopen("/proc/self/maps", "r");
    char line[500];
    *start = *end = 0;
    while (maps && fgets(line, sizeof line, maps)) {
        if (sscanf(line, "%lx-%lx", start, end) == 2 && *start <= (uintptr_t)address && (uintptr_t)address < *end)
            break;
    }
    if (maps)
        fclose(maps);
    HOLDS(*start <= (uintptr_t)address && (uintptr_t)address < *end);
}

/* Whether bytes are the password's, each with this mask. */
static bool is_secret(const unsigned char *bytes, unsigned char mask)
{
    int at = 0;
    while (at < LENGTH && (bytes[at] ^ masked[at]) == (MASK ^ mask))
        at++;
    return at == LENGTH;
}

/* Whether the password, or a key that HMAC makes of it, is on the stack. */
static bool is_on_stack(void)
{
    uintptr_t start, end;
    bool found = false;
    bounds_of(&start, &start, &end);
    size_t size = end - start;
    unsigned char *copy = malloc(size);
    int memory = open("/proc/self/mem", O_RDONLY | O_CLOEXEC);
    HOLDS(copy && memory >= 0);
    ssize_t came = pread(memory, copy, size, (off_t)start);
    close(memory);
    for (ssize_t at = 0; at + LENGTH <= came; at++)
        found = found || is_secret(copy + at, 0) || is_secret(copy + at, 0x36) || is_secret(copy + at, 0x5c);
    free(copy);
    HOLDS(came == (ssize_t)size);
    return found;
}

/* Makes a call so far down the stack that later calls don't write over what it left. */
static int far_down(int (*call)(void))
{
    volatile char room[DEPTH];
    room[0] = room[DEPTH - 1] = 0;
    return call() + room[0] + room[DEPTH - 1];
}

/* A call that connects anew. */
static int ask(void)
{
    return xa_recover(NULL, 0, RMID, TMSTARTRSCAN);
}

/* What a call that doesn't wipe it leaves, to see that it would be found. */
static int read_it(void)
{
    char bytes[LENGTH];
    int file = open(path, O_RDONLY | O_CLOEXEC);
    ssize_t came = read(file, bytes, sizeof bytes);
    close(file);
    return came == LENGTH ? XA_OK : XAER_RMERR;
}

static void wiped(void)
{
    CODE(XAER_RMFAIL, far_down(ask));
    HOLDS(strcmp(guard_ended(guard), " 74 75") == 0);
    HOLDS(!is_on_stack());
    guard_answer(guard, FIRST_STEP, XA_OK, 0, CHALLENGED, "", -1);
    CODE(XAER_RMFAIL, far_down(ask));
    HOLDS(!is_on_stack());
    guard_answer(guard, FIRST_STEP, XA_OK, 0, CHALLENGED, "", 0);
    CODE(XAER_RMFAIL, far_down(ask));
    HOLDS(!is_on_stack());
}

static void found(void)
{
    CODE(XA_OK, far_down(read_it));
    HOLDS(is_on_stack());
    CODE(XA_OK, xa_close(RMID));
}

void secret_tests(void)
{
    test("a server wants a password", begin);
    test("a password that was used is wiped", wiped);
    test("one that wasn't wiped would be found", found);
}
