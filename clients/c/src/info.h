/* The info string of xa_open: which server, who logs in, and how long to wait for it. */
#ifndef XARM_INFO_H
#define XARM_INFO_H

#include <stdbool.h>
#include <stddef.h>

#include "scram.h"

enum { MOST_HOST = 255, MOST_PORT = 5, MOST_PATH = 107, MOST_NAME = 255, MOST_FILE = 255, MOST_SECONDS = 3600 };

/* All bytes that aren't used are 0, so that two of the same server are equal as bytes. */
struct info {
    char host[MOST_HOST + 1]; /* empty: the server has a Unix socket */
    char port[MOST_PORT + 1];
    char path[MOST_PATH + 1]; /* empty: it has a port */
    char name[MOST_NAME + 1];
    char user[MOST_USER + 1];          /* empty: nobody logs in */
    char password_file[MOST_FILE + 1]; /* empty: an environment variable names it */
    int milliseconds; /* a call's time-out */
};

/* Reads a string as xarm.h describes it. If it isn't one, says why in xarm_why's words, and answers false. */
bool info_read(const char *text, struct info *to);

/* Whether two name one server, whatever their users and time-outs. */
bool is_one_server(const struct info *one, const struct info *other);

/* Whether two say the same. */
bool is_one_info(const struct info *one, const struct info *other);

/* The server in words, as "127.0.0.1:4187", in at most this many bytes with the ending null. */
void info_words(const struct info *info, char *to, size_t room);

#endif
