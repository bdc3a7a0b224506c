/* A small transaction manager, in one thread: it registers the switch twice, as rmids 0 and 1, moves amounts from accounts of the one server
   to accounts of the other in two phases, and keeps a journal. Whenever it starts, it recovers what an earlier run left, and compares the
   books with its journal. It may be killed at any moment, and at some kills itself.

       tm JOURNAL SEED INFO INFO    works until it is killed; for each transfer that begins it prints a byte
       tm JOURNAL audit INFO INFO   recovers, compares the books, and ends

   The journal's lines: 'begin N', before anything is asked of a server; 'commit N AMOUNT', synced, once both branches are prepared: what has
   no such line is rolled back; 'done N', once both are completed; and 'found N', for each branch that xa_recover listed at a start. */
#define _GNU_SOURCE
#include <fcntl.h>
#include <signal.h>
#include <stdbool.h>
#include <stdio.h>
#include <stdlib.h>
#include <string.h>
#include <sys/stat.h>
#include <time.h>
#include <unistd.h>

#include "xarm.h"

enum { SERVERS = 2, ACCOUNTS = 8, BALANCE = 1000000, MOST_AMOUNT = 100, FORMAT = 7077, MOST_FOUND = 600, PATIENCE = 60, KILLS_ITSELF = 300 };

static struct xa_switch_t *const switches[SERVERS] = {&xarm_switch, &xarm_switch};
static const char *const branches[SERVERS] = {"bank", "shop"};
static const char *infos[SERVERS];
static int journal;
static long last;         /* the number of the last transfer that began */
static long moved;        /* by all transfers that were decided */
static bool is_open;      /* the last one isn't done */
static long open_amount;  /* it is decided to commit, if this is above 0 */
static bool may_kill_itself;

static void wrong(const char *what, int rmid, int code)
{
    fprintf(stderr, "tm: %s of %s is %d (%s)\n", what, branches[rmid], code, xarm_why());
    exit(3);
}

static void wait_a_little(void)
{
    struct timespec time = {.tv_nsec = 2000000};
    nanosleep(&time, NULL);
}

/* A random number below another. */
static int below(int bound)
{
    return (int)(random() % bound);
}

/* Here a kill -9 may come from within. */
static void point(void)
{
    if (may_kill_itself && below(KILLS_ITSELF) == 0)
        kill(getpid(), SIGKILL);
}

static void note(bool is_synced, const char *what, long number, long amount)
{
    char line[60];
    int length = snprintf(line, sizeof line, "%s %ld", what, number);
    if (amount > 0)
        length += snprintf(line + length, sizeof line - (size_t)length, " %ld", amount);
    line[length++] = '\n';
    if (write(journal, line, (size_t)length) != length || (is_synced && fsync(journal) != 0)) {
        perror("tm: journal");
        exit(3);
    }
}

static void read_journal(const char *path)
{
    char line[60];
    long number, amount;
    FILE *file = fopen(path, "r");
    while (file && fgets(line, sizeof line, file)) {
        if (sscanf(line, "begin %ld", &number) == 1) {
            last = number;
            is_open = true;
            open_amount = 0;
        } else if (sscanf(line, "commit %ld %ld", &number, &amount) == 2) {
            moved += amount;
            open_amount = amount;
        } else if (sscanf(line, "done %ld", &number) == 1) {
            is_open = false;
        }
    }
    if (file)
        fclose(file);
    journal = open(path, O_WRONLY | O_CREAT | O_APPEND, 0600);
}

static XID xid_of(long number, int rmid)
{
    XID xid;
    memset(&xid, 0, sizeof xid);
    xid.formatID = FORMAT;
    xid.gtrid_length = snprintf(xid.data, 30, "transfer %ld", number);
    xid.bqual_length = (long)strlen(branches[rmid]);
    memcpy(xid.data + xid.gtrid_length, branches[rmid], (size_t)xid.bqual_length);
    return xid;
}

static void open_all(void)
{
    for (int rmid = 0; rmid < SERVERS; rmid++) {
        time_t start = time(NULL);
        int code;
        while ((code = switches[rmid]->xa_open_entry((char *)infos[rmid], rmid, TMNOFLAGS)) != XA_OK) {
            if (code != XAER_RMERR || time(NULL) - start > PATIENCE)
                wrong("xa_open", rmid, code);
            wait_a_little();
        }
    }
}

/* Commits a branch that was decided, or rolls one back, until it is done: a server may be down, or not have missed the last run yet. */
static void settle(long number, int rmid, bool commits)
{
    XID xid = xid_of(number, rmid);
    time_t start = time(NULL);
    for (;;) {
        int code = commits ? switches[rmid]->xa_commit_entry(&xid, rmid, TMNOFLAGS) : switches[rmid]->xa_rollback_entry(&xid, rmid, TMNOFLAGS);
        if (code == XA_OK || code == XAER_NOTA || (!commits && XA_RBBASE <= code && code <= XA_RBEND))
            return;
        bool is_over = time(NULL) - start > PATIENCE;
        if (is_over || (code != XAER_RMFAIL && code != XAER_RMERR && code != XA_RETRY && code != XAER_PROTO))
            wrong(commits ? "xa_commit" : "xa_rollback", rmid, code);
        wait_a_little();
    }
}

static void settle_all(long number, bool commits)
{
    for (int rmid = 0; rmid < SERVERS; rmid++) {
        settle(number, rmid, commits);
        point();
    }
}

/* What is in doubt, at each server. */
static void recover_one(int rmid)
{
    static XID found[MOST_FOUND];
    time_t start = time(NULL);
    int count;
    while ((count = switches[rmid]->xa_recover_entry(found, MOST_FOUND, rmid, TMSTARTRSCAN | TMENDRSCAN)) == XAER_RMFAIL) {
        if (time(NULL) - start > PATIENCE)
            wrong("xa_recover", rmid, count);
        wait_a_little();
    }
    if (count < 0)
        wrong("xa_recover", rmid, count);
    for (int at = 0; at < count; at++) {
        XID xid = xid_of(last, rmid);
        /* of all earlier ones it is known that they are done */
        if (found[at].formatID != FORMAT || memcmp(found[at].data, xid.data, sizeof xid.data) != 0)
            wrong("a branch in doubt", rmid, at);
        note(false, "found", last, 0);
        settle(last, rmid, open_amount > 0);
        point();
    }
}

static void recover_all(void)
{
    for (int rmid = 0; rmid < SERVERS; rmid++)
        recover_one(rmid);
    if (is_open) {
        settle_all(last, open_amount > 0);
        note(false, "done", last, 0);
    }
    is_open = false;
}

static void account_name(int number, char *to, size_t room)
{
    snprintf(to, room, "account %d", number);
}

static int read_account(int rmid, int number, long *balance)
{
    char key[20], value[30];
    size_t length;
    account_name(number, key, sizeof key);
    int code = xarm_get(rmid, key, strlen(key), value, sizeof value - 1, &length);
    value[length] = '\0';
    *balance = atol(value);
    return code;
}

static int write_account(int rmid, int number, long balance)
{
    char key[20], value[30];
    account_name(number, key, sizeof key);
    snprintf(value, sizeof value, "%ld", balance);
    return xarm_put(rmid, key, strlen(key), value, strlen(value));
}

/* In one branch, which ends in one phase: the sum of a server's accounts, after they were made if they weren't. False: it broke. */
static bool sum_once(int rmid, long round, long *sum)
{
    XID xid = xid_of(round, rmid);
    long balance = 0;
    xid.data[0] = 's';
    int code = switches[rmid]->xa_start_entry(&xid, rmid, TMNOFLAGS);
    *sum = 0;
    for (int number = 0; number < ACCOUNTS && code == XA_OK; number++) {
        code = read_account(rmid, number, &balance);
        if (code == XARM_ABSENT) {
            balance = BALANCE;
            code = write_account(rmid, number, balance);
        }
        *sum += balance;
    }
    int end = switches[rmid]->xa_end_entry(&xid, rmid, TMSUCCESS);
    if (code == XA_OK && end == XA_OK && switches[rmid]->xa_commit_entry(&xid, rmid, TMONEPHASE) == XA_OK)
        return true;
    switches[rmid]->xa_rollback_entry(&xid, rmid, TMNOFLAGS);
    return false;
}

static void audit(void)
{
    static long round;
    for (int rmid = 0; rmid < SERVERS; rmid++) {
        long sum, wanted = (long)ACCOUNTS * BALANCE + (rmid == 0 ? -moved : moved);
        time_t start = time(NULL);
        round = 1000000L * getpid();
        while (!sum_once(rmid, round, &sum)) {
            round++;
            if (time(NULL) - start > PATIENCE)
                wrong("the sum", rmid, 0);
            wait_a_little();
        }
        if (sum != wanted) {
            fprintf(stderr, "tm: the sum of %s is %ld, not %ld\n", branches[rmid], sum, wanted);
            exit(4);
        }
    }
}

/* A branch's work at one server. */
static int work(int rmid, XID *xid, int account, long amount, bool *is_begun)
{
    long balance = 0;
    int code = switches[rmid]->xa_start_entry(xid, rmid, TMNOFLAGS);
    *is_begun = code == XA_OK;
    point();
    if (code == XA_OK)
        code = read_account(rmid, account, &balance);
    if (code == XA_OK)
        code = write_account(rmid, account, balance + amount);
    point();
    return code;
}

static void transfer(void)
{
    XID xids[SERVERS];
    bool begun[SERVERS] = {false, false}, holds = true;
    long amount = 1 + below(MOST_AMOUNT);
    last++;
    is_open = true;
    open_amount = 0;
    note(false, "begin", last, 0);
    if (write(1, "b", 1) != 1)
        exit(0);
    for (int rmid = 0; rmid < SERVERS; rmid++) {
        xids[rmid] = xid_of(last, rmid);
        holds = holds && work(rmid, &xids[rmid], below(ACCOUNTS), rmid == 0 ? -amount : amount, &begun[rmid]) == XA_OK;
    }
    for (int rmid = 0; rmid < SERVERS; rmid++) {
        if (begun[rmid])
            holds = switches[rmid]->xa_end_entry(&xids[rmid], rmid, holds ? TMSUCCESS : TMFAIL) == XA_OK && holds;
        point();
    }
    for (int rmid = 0; rmid < SERVERS; rmid++) {
        holds = holds && switches[rmid]->xa_prepare_entry(&xids[rmid], rmid, TMNOFLAGS) == XA_OK;
        point();
    }
    if (holds) {
        note(true, "commit", last, amount);
        moved += amount;
        point();
    }
    settle_all(last, holds);
    note(false, "done", last, 0);
    is_open = false;
}

int main(int count, char **words)
{
    if (count != 5) {
        fprintf(stderr, "usage: tm JOURNAL SEED|audit INFO INFO\n");
        return 2;
    }
    bool is_audit = strcmp(words[2], "audit") == 0;
    infos[0] = words[3];
    infos[1] = words[4];
    read_journal(words[1]);
    srandom(is_audit ? 1 : (unsigned)strtoul(words[2], NULL, 10));
    may_kill_itself = !is_audit;
    open_all();
    recover_all();
    audit();
    while (!is_audit)
        transfer();
    return 0;
}
