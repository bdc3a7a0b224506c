/* The password of who logs in, in memory for as long as that takes. */
#ifndef XARM_SECRET_H
#define XARM_SECRET_H

#include <stdbool.h>
#include <stddef.h>

#include "info.h"

enum { MOST_SECRET = 1024 };

struct secret {
    size_t length;
    unsigned char bytes[MOST_SECRET + 2]; /* a carriage return and a line feed may end it */
};

/* Reads the first line of the file that the info string names, or else the environment variable XARM_PASSWORD_FILE. If there is no
   password, says why in xarm_why's words, and answers false. */
bool secret_read(const struct info *info, struct secret *to);

void secret_wipe(struct secret *secret);

#endif
