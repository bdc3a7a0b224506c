#define _POSIX_C_SOURCE 200809L

#include "info.h"

#include <stdio.h>
#include <string.h>

#include "why.h"
#include "xa.h"

enum { DEFAULT_SECONDS = 30 };

/* The decimal number that a word is, or -1 if it isn't one, or above the greatest. */
static int number_of(const char *word, size_t length, int greatest)
{
    int number = 0;
    if (length == 0 || (length > 1 && word[0] == '0'))
        return -1;
    for (size_t at = 0; at < length; at++) {
        if (word[at] < '0' || word[at] > '9')
            return -1;
        number = 10 * number + (word[at] - '0');
        if (number > greatest)
            return -1;
    }
    return number;
}

static bool keep(const char *value, size_t length, size_t least, char *to, size_t most)
{
    if (length < least || length > most || to[0] != '\0')
        return false;
    memcpy(to, value, length);
    return true;
}

/* Whether a user can have a name: nothing in it has to be escaped in a login's messages. */
static bool is_user(const char *name, size_t length)
{
    size_t at = 0;
    while (at < length && name[at] != '\0'
        && strchr("ABCDEFGHIJKLMNOPQRSTUVWXYZabcdefghijklmnopqrstuvwxyz0123456789-_.@", name[at]))
        at++;
    return at == length;
}

/* Reads one word, KEY=VALUE. Each may be given once; has_name tells of the name, which may be empty. */
static bool read_word(const char *word, size_t length, struct info *to, bool *has_name)
{
    const char *value = memchr(word, '=', length);
    if (!value)
        return false;
    size_t key = (size_t)(value - word);
    value++;
    size_t rest = length - key - 1;
    if (key == 4 && memcmp(word, "host", key) == 0)
        return keep(value, rest, 1, to->host, MOST_HOST);
    if (key == 4 && memcmp(word, "port", key) == 0)
        return number_of(value, rest, 65535) > 0 && keep(value, rest, 1, to->port, MOST_PORT);
    if (key == 6 && memcmp(word, "socket", key) == 0)
        return keep(value, rest, 1, to->path, MOST_PATH);
    if (key == 4 && memcmp(word, "user", key) == 0)
        return is_user(value, rest) && keep(value, rest, 1, to->user, MOST_USER);
    if (key == 13 && memcmp(word, "password_file", key) == 0)
        return keep(value, rest, 1, to->password_file, MOST_FILE);
    if (key == 7 && memcmp(word, "timeout", key) == 0) {
        int seconds = number_of(value, rest, MOST_SECONDS);
        bool is_first = to->milliseconds == 0;
        to->milliseconds = 1000 * seconds;
        return is_first && seconds > 0;
    }
    if (key == 4 && memcmp(word, "name", key) == 0) {
        bool is_first = !*has_name;
        *has_name = true;
        return is_first && keep(value, rest, 0, to->name, MOST_NAME);
    }
    return false;
}

static bool has_control(const char *text, size_t length)
{
    size_t at = 0;
    while (at < length && (unsigned char)text[at] >= ' ')
        at++;
    return at < length;
}

bool info_read(const char *text, struct info *to)
{
    bool has_name = false;
    memset(to, 0, sizeof *to);
    size_t length = strnlen(text, MAXINFOSIZE);
    if (length >= MAXINFOSIZE) {
        why_set("xa_open: an info string of more than %d bytes", MAXINFOSIZE - 1);
        return false;
    }
    if (has_control(text, length)) {
        why_set("xa_open: a control character in the info string");
        return false;
    }
    for (size_t at = strspn(text, " "); at < length; at += strspn(text + at, " ")) {
        size_t word = strcspn(text + at, " ");
        if (!read_word(text + at, word, to, &has_name)) {
            why_set("xa_open: the info string's word '%.*s'", (int)word, text + at);
            return false;
        }
        at += word;
    }
    if (!has_name || (to->port[0] == '\0') == (to->path[0] == '\0') || (to->path[0] != '\0' && to->host[0] != '\0')) {
        why_set("xa_open: the info string wants a name, and either a port or a socket");
        return false;
    }
    if (to->password_file[0] != '\0' && to->user[0] == '\0') {
        why_set("xa_open: the info string has a password_file, and no user");
        return false;
    }
    if (to->path[0] == '\0' && to->host[0] == '\0')
        strcpy(to->host, "127.0.0.1");
    if (to->milliseconds == 0)
        to->milliseconds = 1000 * DEFAULT_SECONDS;
    return true;
}

bool is_one_server(const struct info *one, const struct info *other)
{
    return strcmp(one->host, other->host) == 0 && strcmp(one->port, other->port) == 0 && strcmp(one->path, other->path) == 0
        && strcmp(one->name, other->name) == 0;
}

bool is_one_info(const struct info *one, const struct info *other)
{
    return is_one_server(one, other) && one->milliseconds == other->milliseconds && strcmp(one->user, other->user) == 0
        && strcmp(one->password_file, other->password_file) == 0;
}

void info_words(const struct info *info, char *to, size_t room)
{
    if (info->path[0] != '\0')
        snprintf(to, room, "%s", info->path);
    else
        snprintf(to, room, "%s:%s", info->host, info->port);
}
