#define _POSIX_C_SOURCE 200809L

#include "threads.h"

#include <pthread.h>
#include <stdlib.h>
#include <unistd.h>

struct thread {
    pid_t process; /* which opened them: a child that was forked has none of them */
    struct connection *first;
};

static pthread_once_t once = PTHREAD_ONCE_INIT;
static pthread_key_t key;
static bool has_key;

static void end_connection(struct connection *connection)
{
    connection_break(connection);
    branches_remove_all(&connection->branches);
    free(connection);
}

static void end_connections(struct thread *thread)
{
    while (thread->first) {
        struct connection *connection = thread->first;
        thread->first = connection->next;
        end_connection(connection);
    }
}

/* The thread ends. */
static void end_thread(void *of)
{
    struct thread *thread = of;
    end_connections(thread);
    free(thread);
}

static void begin(void)
{
    has_key = pthread_key_create(&key, end_thread) == 0;
    notes_begin();
}

static struct thread *this_thread(void)
{
    pthread_once(&once, begin);
    struct thread *thread = has_key ? pthread_getspecific(key) : NULL;
    if (thread && thread->process != getpid()) {
        /* the parent's associations and connections stay: closing the child's handles ends none */
        for (struct connection *one = thread->first; one; one = one->next)
            branches_remove_all(&one->branches);
        end_connections(thread);
        thread->process = getpid();
    }
    return thread;
}

static struct thread *new_thread(void)
{
    struct thread *thread = has_key ? calloc(1, sizeof *thread) : NULL;
    if (thread && pthread_setspecific(key, thread) != 0) {
        free(thread);
        return NULL;
    }
    if (thread)
        thread->process = getpid();
    return thread;
}

struct connection *thread_find(int rmid)
{
    struct thread *thread = this_thread();
    struct connection *connection = thread ? thread->first : NULL;
    while (connection && connection->rmid != rmid)
        connection = connection->next;
    return connection;
}

struct connection *thread_add(int rmid, const struct info *server)
{
    struct thread *thread = this_thread();
    if (!thread)
        thread = new_thread();
    struct connection *connection = thread ? calloc(1, sizeof *connection) : NULL;
    if (!connection)
        return NULL;
    connection->rmid = rmid;
    connection->socket = -1;
    connection->server = *server;
    connection->next = thread->first;
    thread->first = connection;
    return connection;
}

void thread_remove(struct connection *connection)
{
    struct connection **at = &this_thread()->first;
    while (*at != connection)
        at = &(*at)->next;
    *at = connection->next;
    end_connection(connection);
}
