#define _DEFAULT_SOURCE

#include "secret.h"

#include <errno.h>
#include <fcntl.h>
#include <stdlib.h>
#include <string.h>
#include <sys/stat.h>
#include <unistd.h>

#include "why.h"

/* Reads until a line's end, the file's, or there is no more room. What failed, as a number of errno, or 0. */
static int read_line(int file, struct secret *to)
{
    to->length = 0;
    while (to->length < sizeof to->bytes && !memchr(to->bytes, '\n', to->length)) {
        ssize_t some = read(file, to->bytes + to->length, sizeof to->bytes - to->length);
        if (some < 0 && errno != EINTR)
            return errno;
        if (some == 0)
            break;
        to->length += some < 0 ? 0 : (size_t)some;
    }
    const unsigned char *end = memchr(to->bytes, '\n', to->length);
    if (end)
        to->length = (size_t)(end - to->bytes);
    if (to->length > 0 && to->bytes[to->length - 1] == '\r')
        to->length--;
    return 0;
}

/* Why a file has no password, or NULL. */
static const char *fault_of(int file, struct secret *to)
{
    struct stat status;
    int error = fstat(file, &status) == 0 ? 0 : errno;
    if (error == 0 && (status.st_mode & 077) != 0)
        return "it isn't its owner's alone: its mode is to be 0600";
    if (error == 0)
        error = read_line(file, to);
    if (error != 0)
        return words_of(error);
    if (to->length == 0)
        return "its first line, the password, is empty";
    return to->length > MOST_SECRET ? "its first line, the password, has more than 1,024 bytes" : NULL;
}

bool secret_read(const struct info *info, struct secret *to)
{
    const char *path = info->password_file[0] != '\0' ? info->password_file : getenv("XARM_PASSWORD_FILE");
    if (!path || path[0] == '\0') {
        why_set("login as %s: neither password_file nor XARM_PASSWORD_FILE names a file with the password", info->user);
        return false;
    }
    /* one that would have to be waited for isn't */
    int file = open(path, O_RDONLY | O_CLOEXEC | O_NOCTTY | O_NONBLOCK);
    const char *fault = file < 0 ? words_of(errno) : fault_of(file, to);
    if (file >= 0)
        close(file);
    if (!fault)
        return true;
    secret_wipe(to);
    why_set("login as %s: %s: %s", info->user, path, fault);
    return false;
}

void secret_wipe(struct secret *secret)
{
    explicit_bzero(secret, sizeof *secret);
}
