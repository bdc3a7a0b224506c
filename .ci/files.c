/* Tells of each call on a file, and of each send, that a program makes which is run under it (LD_PRELOAD), by a line to the
   descriptor whose number stands in TELL: the call, the file's name, what was asked and what came of it. One call can be made to
   fail: FAULT has its name, which one of that name, counted from 1, and the error's number. The error 0 stands for a short write, of
   half of the bytes, and a + after the count for all from that one on, a / for each whose count is a multiple, and a - with a second
   count for all from one to the other. The name 'over' stands for each pwrite of more bytes than the number says, and 'slow' for an
   fdatasync that takes so many milliseconds longer as the error says; so does a chmod of its name. By their names a thread isn't made, and
   a wait for events fails, of which it tells then alone, as of each time that a thread lets others run. Where ONLY has a file's name, pwrites of other files aren't counted.

   To the descriptor whose number stands in JOURNAL it writes what a crash needs to know: each pwrite and cut before it is made, with its
   bytes, and where each thread's sync begins and has ended. A kill leaves what was written, synced or not; from this one can make the files
   that a power failure leaves. */
typedef unsigned long size_t;
typedef long ssize_t;
typedef long off_t;

/* of the C library, by hand: the kit's clang comes without its headers */
extern long syscall(long number, ...);
extern int *__errno_location(void);
extern char *getenv(const char *name);
extern long strtol(const char *text, char **end, int base);
extern int snprintf(char *to, size_t room, const char *form, ...);
extern size_t strlen(const char *text);
extern int strncmp(const char *one, const char *other, size_t count);
extern char *strrchr(const char *text, int character);
extern ssize_t readlink(const char *path, char *to, size_t room);
extern ssize_t write(int file, const void *bytes, size_t count);
extern int poll(void *files, unsigned long count, int milliseconds);
extern void *dlsym(void *library, const char *call);
extern void abort(void);

enum { READ = 0, OPEN = 2, CLOSE = 3, PREAD = 17, PWRITE = 18, SENDTO = 44, FSYNC = 74, FDATASYNC = 75, FTRUNCATE = 77 };
enum { SCHED_YIELD = 24, CHMOD = 90, GETTID = 186, FADVISE = 221, EPOLL_WAIT = 232 };

struct piece {
    const void *bytes;
    size_t count;
};
extern ssize_t writev(int file, const struct piece *pieces, int count);

static long to, journal, number, last, error, seen;
static char form;
static char name[16], fault[64];
static const char *faults, *only;

/* the fault that this text says, of which no call was seen yet */
static void begin_fault(void)
{
    char *rest;
    int at = 0;
    while (fault[at] && fault[at] != ' ' && at < 15) {
        name[at] = fault[at];
        at++;
    }
    name[at] = 0;
    number = strtol(fault + at, &rest, 10);
    form = *rest;
    last = form == '-' ? strtol(rest + 1, &rest, 10) : 0;
    error = strtol(rest + (form == '+' || form == '/'), &rest, 10);
    seen = 0;
}

__attribute__((constructor)) static void begin(void)
{
    const char *tell = getenv("TELL"), *first = getenv("FAULT"), *keeps = getenv("JOURNAL");
    char *rest;
    faults = getenv("FAULTS");
    only = getenv("ONLY");
    to = tell ? strtol(tell, &rest, 10) : 0;
    journal = keeps ? strtol(keeps, &rest, 10) : 0;
    if (first && snprintf(fault, sizeof fault, "%s", first) > 0)
        begin_fault();
}

/* looks at the file of the fault, and begins anew where there is another one */
static void look(void)
{
    char text[64];
    long file = syscall(OPEN, faults, 0), length = file < 0 ? 0 : syscall(READ, file, text, sizeof text - 1);
    if (file >= 0)
        syscall(CLOSE, file);
    text[length < 0 ? 0 : length] = 0;
    if (strncmp(text, fault, sizeof fault) != 0 && snprintf(fault, sizeof fault, "%s", text) >= 0)
        begin_fault();
}

/* whether this call of that name is the one that is to fail */
static int fails(const char *call)
{
    static int is_busy;
    long count = 0;
    while (__sync_lock_test_and_set(&is_busy, 1))
        ;
    if (faults)
        look();
    if (number && strncmp(call, name, 16) == 0)
        count = ++seen;
    __sync_lock_release(&is_busy);
    if (!count)
        return 0;
    if (form == '/')
        return count % number == 0;
    if (form == '-')
        return count >= number && count <= last;
    return form == '+' ? count >= number : count == number;
}

/* the name of a file, and where it begins in the path */
static const char *name_of(int file, char *path, size_t room)
{
    char link[64];
    const char *slash;
    ssize_t length;
    snprintf(link, sizeof link, "/proc/self/fd/%d", file);
    length = readlink(link, path, room - 1);
    path[length < 0 ? 0 : length] = 0;
    slash = strrchr(path, '/');
    return slash ? slash + 1 : path;
}

/* whether it is the file whose calls alone are to fail, where there is one */
static int is_meant(int file)
{
    char path[512];
    return !only || strncmp(name_of(file, path, sizeof path), only, sizeof path) == 0;
}

/* an entry of the journal, in one write */
static void note(const char *what, int file, const void *bytes, size_t count, long at)
{
    char path[512], line[640];
    struct piece pieces[2];
    int kept = *__errno_location();
    if (!journal)
        return;
    pieces[0].bytes = line;
    pieces[0].count = (size_t)snprintf(line, sizeof line, "%s %s %ld %ld\n", what, name_of(file, path, sizeof path), at, (long)count);
    pieces[1].bytes = bytes;
    pieces[1].count = count;
    if (writev((int)journal, pieces, 2) != (ssize_t)(pieces[0].count + count))
        abort();
    *__errno_location() = kept;
}

static ssize_t told(const char *call, int file, long at, ssize_t answer)
{
    char path[512], line[640];
    ssize_t length;
    int kept = *__errno_location();
    if (!to)
        return answer;
    length = snprintf(line, sizeof line, "%s %s %ld %ld\n", call, name_of(file, path, sizeof path), at,
                      answer < 0 ? (long)-kept : (long)answer);
    if (write((int)to, line, (size_t)length) != length)
        abort();
    *__errno_location() = kept;
    return answer;
}

static ssize_t failed(void)
{
    *__errno_location() = (int)error;
    return -1;
}

ssize_t pread(int file, void *bytes, size_t count, off_t at)
{
    return told("pread", file, at, fails("pread") ? failed() : syscall(PREAD, file, bytes, count, at));
}

static ssize_t written(int file, const void *bytes, size_t count, off_t at)
{
    note("pwrite", file, bytes, count, at);
    return told("pwrite", file, at, syscall(PWRITE, file, bytes, count, at));
}

ssize_t pwrite(int file, const void *bytes, size_t count, off_t at)
{
    if (strncmp("over", name, 16) == 0 && count > (size_t)number)
        return told("pwrite", file, at, failed());
    if (!is_meant(file) || !fails("pwrite"))
        return written(file, bytes, count, at);
    return error ? told("pwrite", file, at, failed()) : written(file, bytes, (count + 1) / 2, at);
}

int ftruncate(int file, off_t length)
{
    if (fails("ftruncate"))
        return (int)told("ftruncate", file, length, failed());
    note("cut", file, (void *)0, 0, length);
    return (int)told("ftruncate", file, length, syscall(FTRUNCATE, file, length));
}

/* a sync that isn't to fail */
static int synced(long call, int file)
{
    int answer;
    note("begin", file, (void *)0, 0, syscall(GETTID));
    answer = (int)syscall(call, file);
    if (answer == 0)
        note("end", file, (void *)0, 0, syscall(GETTID));
    return answer;
}

int fdatasync(int file)
{
    /* counted by itself: it fails nothing */
    if (fails("slow"))
        poll((void *)0, 0, (int)error);
    return (int)told("fdatasync", file, 0, fails("fdatasync") ? failed() : synced(FDATASYNC, file));
}

int fsync(int file)
{
    return (int)told("fsync", file, 0, fails("fsync") ? failed() : syscall(FSYNC, file));
}

int chmod(const char *path, unsigned mode)
{
    if (fails("chmod"))
        poll((void *)0, 0, (int)error);
    return (int)syscall(CHMOD, path, mode);
}

int epoll_wait(int events, void *come, int most, int milliseconds)
{
    if (strncmp("epoll_wait", name, 16) != 0)
        return (int)syscall(EPOLL_WAIT, events, come, most, milliseconds);
    if (fails("epoll_wait"))
        return (int)failed();
    return (int)told("epoll_wait", events, milliseconds, syscall(EPOLL_WAIT, events, come, most, milliseconds));
}

int sched_yield(void)
{
    int answer = (int)syscall(SCHED_YIELD);
    return strncmp("epoll_wait", name, 16) == 0 ? (int)told("sched_yield", 0, 0, answer) : answer;
}

/* of the C library's, which is the next one after this */
int pthread_create(void *thread, const void *how, void *(*runs)(void *), void *given)
{
    int (*next)(void *, const void *, void *(*)(void *), void *) = dlsym((void *)-1, "pthread_create");
    return fails("pthread_create") ? (int)error : next(thread, how, runs, given);
}

/* of which the answer is the error's number itself */
int posix_fadvise(int file, off_t at, off_t count, int advice)
{
    int kept = *__errno_location(), answer = (int)error;
    if (!fails("posix_fadvise"))
        answer = syscall(FADVISE, file, at, count, advice) < 0 ? *__errno_location() : 0;
    told("posix_fadvise", file, at, answer);
    *__errno_location() = kept;
    return answer;
}

ssize_t send(int file, const void *bytes, size_t count, int flags)
{
    return told("send", file, 0, syscall(SENDTO, file, bytes, count, flags, (void *)0, 0));
}
