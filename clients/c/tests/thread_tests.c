/* Threads of control, each with a connection of its own; two servers; a process that forks. */
#define _GNU_SOURCE
#include <pthread.h>
#include <stdio.h>
#include <stdlib.h>
#include <string.h>
#include <sys/wait.h>
#include <unistd.h>

#include "work.h"

enum { RMID = 1, SHOP = 2, THREADS = 8, BRANCHES = 25 };

static struct server bank, shop;
static pthread_barrier_t all_open, all_seen;

static void begin(void)
{
    make_server(&bank, "bank");
    make_server(&shop, "shop");
}

/* How many sessions the server has, this one included. */
static int sessions(const struct server *server)
{
    const char *line = server_talk(server, program, "connect\\n1 status\\n");
    const char *found = strstr(line, "sessions ");
    return found ? atoi(found + 9) : -1;
}

/* Writes records in branches of its own, in two phases, on one rmid. 0, or the line that was wrong. */
static void *work(void *with)
{
    long number = *(const int *)with;
    int opened = xa_open(bank.info, RMID);
    pthread_barrier_wait(&all_open);
    pthread_barrier_wait(&all_seen);
    if (opened != XA_OK)
        return (void *)__LINE__;
    for (int at = 0; at < BRANCHES; at++) {
        XID xid;
        char key[30], value[30], found[30];
        size_t length = 0;
        snprintf(key, sizeof key, "thread %ld", number);
        snprintf(value, sizeof value, "%d", at);
        xid = named(key);
        xid.bqual_length = snprintf(xid.data + xid.gtrid_length, 10, "%d", at);
        if (xa_start(&xid, RMID, TMNOFLAGS) != XA_OK)
            return (void *)__LINE__;
        if (at > 0 && (xarm_get(RMID, key, strlen(key), found, sizeof found, &length) != XA_OK || atoi(found) != at - 1))
            return (void *)__LINE__;
        if (put(RMID, key, value) != XA_OK || xarm_put(RMID, key, strlen(key), value, strlen(value) + 1) != XA_OK)
            return (void *)__LINE__;
        if (xa_end(&xid, RMID, TMSUCCESS) != XA_OK || xa_prepare(&xid, RMID) != XA_OK || xa_commit(&xid, RMID, TMNOFLAGS) != XA_OK)
            return (void *)__LINE__;
    }
    /* every second one leaves it open: it is closed with the thread */
    if (number % 2 == 0 && xa_close(RMID) != XA_OK)
        return (void *)__LINE__;
    return NULL;
}

static void threads(void)
{
    pthread_t made[THREADS];
    int numbers[THREADS];
    long wrong = 0;
    pthread_barrier_init(&all_open, NULL, THREADS + 1);
    pthread_barrier_init(&all_seen, NULL, THREADS + 1);
    for (int at = 0; at < THREADS; at++) {
        numbers[at] = at;
        if (pthread_create(&made[at], NULL, work, &numbers[at]) != 0)
            abort();
    }
    pthread_barrier_wait(&all_open);
    int found = sessions(&bank);
    pthread_barrier_wait(&all_seen);
    for (int at = 0; at < THREADS; at++) {
        void *line;
        pthread_join(made[at], &line);
        wrong = line ? (long)line : wrong;
    }
    CODE(0, wrong);
    CODE(THREADS + 1, found);
    /* no association is one's own in another thread */
    CODE(XAER_PROTO, get(RMID, "thread 1"));
    for (int tries = 0; sessions(&bank) > 1 && tries < 1000; tries++)
        sleep_for(5);
    CODE(1, sessions(&bank));
}

static int open_bank(void *with)
{
    return xa_open(with, RMID);
}

static int start_there(void *xid)
{
    return xa_start(xid, RMID, TMNOFLAGS);
}

static int put_there(void *with)
{
    (void)with;
    return put(RMID, "t1", "v");
}

static int end_there(void *xid)
{
    return xa_end(xid, RMID, TMSUCCESS);
}

static int resume_there(void *xid)
{
    return xa_start(xid, RMID, TMRESUME);
}

static int close_there(void *with)
{
    (void)with;
    return xa_close(RMID);
}

static void migrates(void)
{
    struct actor *actor = actor_make();
    XID xid = fresh();
    CODE(XA_OK, xa_open(bank.info, RMID));
    CODE(XAER_PROTO, actor_do(actor, start_there, &xid));
    CODE(XA_OK, actor_do(actor, open_bank, bank.info));
    begin_work(RMID, &xid, "t1", "u");
    CODE(XAER_PROTO, actor_do(actor, put_there, NULL));
    CODE(XA_OK, xa_end(&xid, RMID, TMSUSPEND | TMMIGRATE));
    CODE(XA_OK, actor_do(actor, resume_there, &xid));
    CODE(XA_OK, actor_do(actor, put_there, NULL));
    CODE(XA_OK, actor_do(actor, end_there, &xid));
    CODE(XA_OK, xa_prepare(&xid, RMID));
    CODE(XA_OK, xa_commit(&xid, RMID, TMNOFLAGS));
    CODE(XA_OK, actor_do(actor, close_there, NULL));
    expect_value(RMID, "t1", "v");
    CODE(XA_OK, xa_close(RMID));
    actor_end(actor);
}

/* A thread that ends under its work: its connection is closed, and another thread rolls the branch back. */
static void thread_ends(void)
{
    for (int at = 0; at < 20; at++) {
        struct actor *actor = actor_make();
        XID xid = fresh();
        CODE(XA_OK, actor_do(actor, open_bank, bank.info));
        CODE(XA_OK, actor_do(actor, start_there, &xid));
        CODE(XA_OK, actor_do(actor, put_there, NULL));
        actor_end(actor);
        CODE(XA_OK, xa_open(bank.info, RMID));
        CODE(XA_RBCOMMFAIL, xa_rollback(&xid, RMID));
        CODE(XA_OK, xa_close(RMID));
    }
}

static void two_servers(void)
{
    XID at_bank = fresh(), at_shop = fresh(), lost = fresh();
    CODE(XA_OK, xa_open(bank.info, RMID));
    CODE(XA_OK, xa_open(shop.info, SHOP));
    begin_work(RMID, &at_bank, "t2", "-1");
    begin_work(SHOP, &at_shop, "t2", "1");
    CODE(XA_OK, xa_end(&at_bank, RMID, TMSUCCESS));
    CODE(XA_OK, xa_end(&at_shop, SHOP, TMSUCCESS));
    CODE(XA_OK, xa_prepare(&at_bank, RMID));
    CODE(XA_OK, xa_prepare(&at_shop, SHOP));
    CODE(XA_OK, xa_commit(&at_bank, RMID, TMNOFLAGS));
    server_kill(&shop);
    CODE(XAER_RMFAIL, xa_commit(&at_shop, SHOP, TMNOFLAGS));
    start_server(&shop);
    expect_listed(SHOP, &at_shop, 1);
    expect_listed(RMID, NULL, 0);
    CODE(XA_OK, xa_commit(&at_shop, SHOP, TMNOFLAGS));
    expect_value(RMID, "t2", "-1");
    expect_value(SHOP, "t2", "1");
    /* what is lost of one doesn't hold up the other */
    begin_work(SHOP, &lost, "t2", "2");
    server_kill(&shop);
    start_server(&shop);
    CODE(XAER_RMFAIL, get(SHOP, "t2"));
    expect_value(RMID, "t2", "-1");
    CODE(XA_RBCOMMFAIL, xa_end(&lost, SHOP, TMSUCCESS));
    CODE(XA_OK, xa_rollback(&lost, SHOP));
    CODE(XA_OK, xa_close(SHOP));
}

/* A child has nothing open, and what it does leaves the parent's session alone. */
static void forks(void)
{
    XID xid = fresh();
    int status = 99;
    begin_work(RMID, &xid, "t3", "v");
    pid_t child = fork();
    if (child == 0) {
        XID own = named("child");
        if (xa_end(&xid, RMID, TMSUCCESS) != XAER_PROTO || put(RMID, "t3", "w") != XAER_PROTO)
            _exit(1);
        if (xa_open(bank.info, RMID) != XA_OK || xa_start(&own, RMID, TMNOFLAGS) != XA_OK || put(RMID, "t4", "v") != XA_OK)
            _exit(2);
        if (xa_end(&own, RMID, TMSUCCESS) != XA_OK || xa_commit(&own, RMID, TMONEPHASE) != XA_OK || xa_close(RMID) != XA_OK)
            _exit(3);
        _exit(0);
    }
    waitpid(child, &status, 0);
    CODE(0, status);
    CODE(XA_OK, put(RMID, "t3", "w"));
    CODE(XA_OK, xa_end(&xid, RMID, TMSUCCESS));
    CODE(XA_OK, xa_commit(&xid, RMID, TMONEPHASE));
    expect_value(RMID, "t3", "w");
    expect_value(RMID, "t4", "v");
    CODE(XA_OK, xa_close(RMID));
}

void thread_tests(void)
{
    test("two servers start", begin);
    test("8 threads work on one rmid, each by a connection of its own, which ends with the thread", threads);
    test("an association migrates to another thread", migrates);
    test("another thread rolls back what a thread that ended left", thread_ends);
    test("two rmids of two servers in one thread, of which one is killed", two_servers);
    test("a child that is forked opens anew, and leaves the parent's session alone", forks);
    server_kill(&bank);
    server_kill(&shop);
}
