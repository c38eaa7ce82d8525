/* For LD_PRELOAD: the allocation with the number in FAIL_AT fails, counted from 1, and so does the start of the thread with
   the number in FAIL_THREAD_AT. As the program ends, the file named in
   COUNT_IN, where there is one, gets the number of allocations, the bytes of the largest and of all together, the number of
   reads from standard input, the fewest bytes that one asked for, and the number of writes to standard output and of flushes.
   It is compiled without the C library's headers, which the kit doesn't bring. */
typedef unsigned long size_t;
typedef long ssize_t;

void *dlsym(void *, const char *);
char *getenv(const char *);
long atol(const char *);
int open(const char *, int, ...);
int dprintf(int, const char *, ...);
int close(int);
int *__errno_location(void);

#define OUT_OF_MEMORY 12 /* ENOMEM */
#define NO_THREAD 11     /* EAGAIN */
#define NEXT ((void *)-1L)
#define WRITE_ONLY 1

static unsigned long count, largest, total, reads, writes, flushes, fewest = ~0ul;

static int fails(size_t size)
{
    static long at = -1;
    if (at < 0) {
        const char *text = getenv("FAIL_AT");
        at = text ? atol(text) : 0;
    }
    if (size > largest) largest = size;
    __atomic_add_fetch(&total, size, __ATOMIC_SEQ_CST);
    if (__atomic_add_fetch(&count, 1, __ATOMIC_SEQ_CST) != (unsigned long)at) return 0;
    *__errno_location() = OUT_OF_MEMORY;
    return 1;
}

void *malloc(size_t size)
{
    static void *(*next)(size_t);
    if (!next) next = (void *(*)(size_t))dlsym(NEXT, "malloc");
    return fails(size) ? 0 : next(size);
}

void *calloc(size_t number, size_t size)
{
    static void *(*next)(size_t, size_t);
    if (!next) next = (void *(*)(size_t, size_t))dlsym(NEXT, "calloc");
    return fails(number * size) ? 0 : next(number, size);
}

void *realloc(void *block, size_t size)
{
    static void *(*next)(void *, size_t);
    if (!next) next = (void *(*)(void *, size_t))dlsym(NEXT, "realloc");
    return fails(size) ? 0 : next(block, size);
}

int pthread_create(void *thread, const void *how, void *(*start)(void *), void *with)
{
    static int (*next)(void *, const void *, void *(*)(void *), void *);
    static unsigned long threads;
    const char *text = getenv("FAIL_THREAD_AT");
    if (!next) next = (int (*)(void *, const void *, void *(*)(void *), void *))dlsym(NEXT, "pthread_create");
    if (__atomic_add_fetch(&threads, 1, __ATOMIC_SEQ_CST) == (unsigned long)(text ? atol(text) : 0)) return NO_THREAD;
    return next(thread, how, start, with);
}

ssize_t read(int file, void *bytes, size_t size)
{
    static ssize_t (*next)(int, void *, size_t);
    if (!next) next = (ssize_t (*)(int, void *, size_t))dlsym(NEXT, "read");
    if (file == 0) reads++;
    if (file == 0 && size < fewest) fewest = size;
    return next(file, bytes, size);
}

ssize_t write(int file, const void *bytes, size_t size)
{
    static ssize_t (*next)(int, const void *, size_t);
    if (!next) next = (ssize_t (*)(int, const void *, size_t))dlsym(NEXT, "write");
    if (file == 1) writes++;
    return next(file, bytes, size);
}

int fflush(void *stream)
{
    static int (*next)(void *);
    if (!next) next = (int (*)(void *))dlsym(NEXT, "fflush");
    flushes++;
    return next(stream);
}

int fsync(int file)
{
    static int (*next)(int);
    if (!next) next = (int (*)(int))dlsym(NEXT, "fsync");
    flushes++;
    return next(file);
}

__attribute__((destructor)) static void tell(void)
{
    const char *name = getenv("COUNT_IN");
    int file = name ? open(name, WRITE_ONLY) : -1;
    if (file < 0) return;
    dprintf(file, "%lu %lu %lu %lu %lu %lu %lu\n", count, largest, total, reads, fewest, writes, flushes);
    close(file);
}

/* A program that may start threads ends by this call, and not by exit. */
__attribute__((noreturn)) void _exit(int status)
{
    static void (*next)(int);
    if (!next) next = (void (*)(int))dlsym(NEXT, "_exit");
    tell();
    next(status);
    __builtin_unreachable();
}
