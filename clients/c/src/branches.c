#define _POSIX_C_SOURCE 200809L

#include "branches.h"

#include <pthread.h>
#include <stdlib.h>

/* As many as a server knows at most. The eldest goes first: nobody asked for its completion. */
enum { MOST_NOTES = 4096 };

struct note {
    struct note *next;
    bool is_marked;
    struct packed xid;
    struct info server;
};

static pthread_mutex_t lock = PTHREAD_MUTEX_INITIALIZER;
static struct note *eldest;
static struct note **end = &eldest;
static int notes;

struct branch *branch_add(struct branch **list, const struct info *server, const struct packed *xid, enum standing standing)
{
    struct branch *branch = malloc(sizeof *branch);
    struct note *note = malloc(sizeof *note);
    if (!branch || !note) {
        free(branch);
        free(note);
        return NULL;
    }
    note->server = *server;
    note->xid = *xid;
    branch->xid = *xid;
    branch->note = note;
    branch->standing = standing;
    branch->next = *list;
    *list = branch;
    return branch;
}

struct branch *branch_find(struct branch *list, const struct packed *xid)
{
    while (list && !is_same_xid(&list->xid, xid))
        list = list->next;
    return list;
}

bool branches_any(const struct branch *list, enum standing standing)
{
    while (list && list->standing != standing)
        list = list->next;
    return list != NULL;
}

void branch_remove(struct branch **list, struct branch *branch)
{
    while (*list != branch)
        list = &(*list)->next;
    *list = branch->next;
    free(branch->note);
    free(branch);
}

void branches_remove_lost(struct branch **list)
{
    while (*list) {
        if ((*list)->standing == LOST)
            branch_remove(list, *list);
        else
            list = &(*list)->next;
    }
}

void branches_remove_all(struct branch **list)
{
    while (*list)
        branch_remove(list, *list);
}

static void note_add(struct note *note, bool is_marked)
{
    struct note *gone = NULL;
    note->is_marked = is_marked;
    note->next = NULL;
    pthread_mutex_lock(&lock);
    *end = note;
    end = &note->next;
    if (++notes > MOST_NOTES) {
        gone = eldest;
        eldest = gone->next;
        notes--;
    }
    pthread_mutex_unlock(&lock);
    free(gone);
}

void branches_break(struct branch **list)
{
    while (*list) {
        struct branch *branch = *list;
        enum standing stood = branch->standing;
        if (stood != LOST) {
            note_add(branch->note, stood == AT_WORK || stood == SUSPENDED);
            branch->note = NULL;
            branch->standing = LOST;
        }
        if (stood == STARTING || stood == ENDING)
            branch_remove(list, branch);
        else
            list = &branch->next;
    }
}

static bool is_of(const struct note *note, const struct info *server, const struct packed *xid)
{
    return is_same_xid(&note->xid, xid) && is_one_server(&note->server, server);
}

enum noted note_find(const struct info *server, const struct packed *xid)
{
    enum noted found = NOT_NOTED;
    pthread_mutex_lock(&lock);
    for (const struct note *note = eldest; note && found != NOTED_MARKED; note = note->next) {
        if (is_of(note, server, xid))
            found = note->is_marked ? NOTED_MARKED : NOTED_UNSURE;
    }
    pthread_mutex_unlock(&lock);
    return found;
}

void note_drop(const struct info *server, const struct packed *xid)
{
    pthread_mutex_lock(&lock);
    struct note **at = &eldest;
    while (*at) {
        struct note *note = *at;
        if (is_of(note, server, xid)) {
            *at = note->next;
            free(note);
            notes--;
        } else {
            at = &note->next;
        }
    }
    end = at;
    pthread_mutex_unlock(&lock);
}

static void take_lock(void)
{
    pthread_mutex_lock(&lock);
}

static void leave_lock(void)
{
    pthread_mutex_unlock(&lock);
}

void notes_begin(void)
{
    pthread_atfork(take_lock, leave_lock, leave_lock);
}
