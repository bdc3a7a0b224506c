/* Refuses one allocation of a program that is run under it (LD_PRELOAD): the one whose number stands in REFUSED, counted from 1.
   It says that it did by a byte to the descriptor whose number stands in TELL. Where EACH has a number, it refuses each one whose count
   is a multiple of that, and says nothing. */
typedef unsigned long size_t;

/* of the C library, by hand: the kit's clang comes without its headers */
extern void *__libc_malloc(size_t size);
extern void *__libc_realloc(void *block, size_t size);
extern char *getenv(const char *name);
extern long atol(const char *text);
extern long write(int file, const void *bytes, size_t count);
extern void abort(void);

static long left, each;

__attribute__((constructor)) static void begin(void)
{
    const char *number = getenv("REFUSED"), *period = getenv("EACH");
    left = number ? atol(number) : 0;
    each = period ? atol(period) : 0;
}

static int is_refused(void)
{
    const char *to;
    static long seen;
    if (each)
        return __atomic_add_fetch(&seen, 1, __ATOMIC_SEQ_CST) % each == 0;
    if (__atomic_fetch_sub(&left, 1, __ATOMIC_SEQ_CST) != 1)
        return 0;
    to = getenv("TELL");
    if (!to || write((int)atol(to), "!", 1) != 1)
        abort();
    return 1;
}

void *malloc(size_t size)
{
    return is_refused() ? (void *)0 : __libc_malloc(size);
}

void *realloc(void *block, size_t size)
{
    return is_refused() ? (void *)0 : __libc_realloc(block, size);
}
