/* Runs the small transaction manager over two servers, and kills it, one of them, or all three, again and again: rounds PROGRAM FOLDER TM
   [ROUNDS [SEED]]. Each is started again, and the books have to balance whenever the manager starts, and in the end. */
#define _GNU_SOURCE
#include <fcntl.h>
#include <poll.h>
#include <signal.h>
#include <stdio.h>
#include <stdlib.h>
#include <string.h>
#include <sys/prctl.h>
#include <sys/wait.h>
#include <time.h>
#include <unistd.h>

#include "work.h"

enum { SECONDS = 600, PATIENCE = 60, LONGEST_WORK = 15 /* milliseconds between the first transfer of a round and its kill */ };

static struct server servers[2];
static const char *manager_program;
static char journal[300];
static unsigned seed;
static int rounds = 200;
static pid_t manager;
static int tells = -1; /* a byte for each transfer that begins */
static int kills[2], manager_kills, own_kills, managers;

static int run_manager(const char *word, int to)
{
    pid_t process = fork();
    if (process == 0) {
        prctl(PR_SET_PDEATHSIG, SIGKILL);
        dup2(to, 1);
        execl(manager_program, "tm", journal, word, servers[0].info, servers[1].info, (char *)NULL);
        _exit(127);
    }
    return process;
}

static void start_manager(void)
{
    int ends[2];
    char word[20];
    if (pipe2(ends, O_CLOEXEC) != 0)
        fail("no pipe");
    snprintf(word, sizeof word, "%u", seed + (unsigned)++managers);
    manager = run_manager(word, ends[1]);
    close(ends[1]);
    tells = ends[0];
    fcntl(tells, F_SETFL, O_NONBLOCK);
}

/* It was killed, by this or by itself; if it ended otherwise, something is wrong. */
static void bury_manager(void)
{
    int status;
    waitpid(manager, &status, 0);
    close(tells);
    manager = 0;
    if (!WIFSIGNALED(status) || WTERMSIG(status) != SIGKILL)
        fail("the manager ended with status %d", status);
}

static void kill_manager(void)
{
    kill(manager, SIGKILL);
    bury_manager();
    manager_kills++;
}

/* Waits for a transfer to begin. False: the manager killed itself. */
static bool await_transfer(void)
{
    char bytes[4096];
    ssize_t some;
    while ((some = read(tells, bytes, sizeof bytes)) > 0)
        continue;
    struct pollfd one = {.fd = tells, .events = POLLIN};
    if (some < 0 && poll(&one, 1, 1000 * PATIENCE) == 0)
        fail("no transfer begins in %d seconds", PATIENCE);
    return some < 0 && read(tells, bytes, sizeof bytes) > 0;
}

static void kill_server(int number)
{
    server_kill(&servers[number]);
    kills[number]++;
}

static void one_round(void)
{
    if (manager == 0)
        start_manager();
    if (!await_transfer()) {
        bury_manager();
        own_kills++;
        return;
    }
    struct timespec work = {.tv_nsec = random() % (LONGEST_WORK * 1000000L)};
    nanosleep(&work, NULL);
    int victim = (int)(random() % 10);
    if (victim < 3 || victim == 9)
        kill_manager();
    for (int number = 0; number < 2; number++) {
        if (victim == 9 || (victim >= 3 && victim % 2 == number))
            kill_server(number);
    }
    for (int number = 0; number < 2; number++) {
        if (servers[number].process == 0)
            start_server(&servers[number]);
    }
}

static void many_rounds(void)
{
    int status;
    make_server(&servers[0], "bank");
    make_server(&servers[1], "shop");
    for (int at = 0; at < rounds; at++)
        one_round();
    if (manager != 0)
        kill_manager();
    waitpid(run_manager("audit", 2), &status, 0);
    CODE(0, status);
}

/* How many lines of the journal begin so. */
static int lines(const char *word)
{
    char line[60];
    int found = 0;
    FILE *file = fopen(journal, "r");
    while (file && fgets(line, sizeof line, file))
        found += strncmp(line, word, strlen(word)) == 0;
    if (file)
        fclose(file);
    return found;
}

int main(int count, char **words)
{
    if (count < 4) {
        fprintf(stderr, "usage: %s PROGRAM FOLDER TM [ROUNDS [SEED]]\n", words[0]);
        return 2;
    }
    begin_tests(words[1], words[2], SECONDS);
    manager_program = words[3];
    if (count > 4)
        rounds = atoi(words[4]);
    seed = count > 5 ? (unsigned)strtoul(words[5], NULL, 10) : (unsigned)time(NULL) ^ (unsigned)getpid() << 16;
    srandom(seed);
    snprintf(journal, sizeof journal, "%s/journal%d", folder, (int)getpid());
    char name[100];
    snprintf(name, sizeof name, "%d rounds of kill -9 of a transaction manager and two servers: the books balance", rounds);
    test(name, many_rounds);
    printf("c: seed %u: %d transfers began, %d were committed; %d branches were found in doubt; the manager was killed %d times and killed "
           "itself %d times, and the servers were killed %d and %d times\n",
        seed, lines("begin"), lines("commit"), lines("found"), manager_kills, own_kills, kills[0], kills[1]);
    return end_of_tests();
}
