/* What the programs of measure.py share: the requests of a task, a clock, and what is told of the times. */
#include <inttypes.h>
#include <stdint.h>
#include <stdio.h>
#include <stdlib.h>
#include <string.h>

#define KEYS 2048       /* of the table */
#define ROW_BYTES 16
#define OBJECT_BYTES 65536
#define PAGE_BYTES 4096 /* of one `get` */

/* NAME FIRST SIZE of the command line. */
struct task {
    const char *name;
    uint64_t first; /* where the data begins */
    uint64_t size;  /* list: hops; tree: keys; table: keys; filter: objects */
};

static int is_named(const struct task *task, const char *name)
{
    return !strcmp(task->name, name);
}

/* How many requests a time is taken of: a scan has one for each object. */
static uint64_t parts_of(const struct task *task)
{
    return is_named(task, "filter") ? task->size : 1;
}

/* The arguments of the k-th request. */
static void arguments_of(const struct task *task, uint64_t k, uint64_t arguments[5])
{
    uint64_t drawn = (k + 1) * 0x9e3779b97f4a7c15 >> 32;
    memset(arguments, 0, 5 * sizeof *arguments);
    if (is_named(task, "list")) {
        arguments[0] = task->first;
        arguments[1] = task->size;
    } else if (is_named(task, "tree")) {
        arguments[0] = task->first;
        arguments[1] = (drawn % task->size + 1) * 3;
    } else if (is_named(task, "table")) {
        arguments[0] = k % 10 == 9 ? 2 : 0; /* ADD, GET */
        arguments[1] = drawn % task->size + 1;
        arguments[2] = 1;
    } else {
        arguments[0] = task->first + (k % task->size << 32);
        arguments[1] = OBJECT_BYTES / ROW_BYTES;
        arguments[2] = 500;
        arguments[3] = 100;
        arguments[4] = 265;
    }
}

/* The sum that filter.c gives. */
static inline uint64_t sum_of(const unsigned char *bytes, size_t length, const uint64_t arguments[5])
{
    uint64_t sum = 0;
    for (size_t at = 0; at < length; at += ROW_BYTES) {
        uint32_t day, price;
        uint64_t amount;
        memcpy(&day, bytes + at, 4);
        memcpy(&price, bytes + at + 4, 4);
        memcpy(&amount, bytes + at + 8, 8);
        if (price >= arguments[2] && day >= arguments[3] && day <= arguments[4])
            sum += amount;
    }
    return sum;
}

static int by_size(const void *a, const void *b)
{
    double x = *(const double *)a, y = *(const double *)b;
    return (x > y) - (x < y);
}

/* Sends the requests of a task, so many times, and tells the times in microseconds, begin and end, and a sum of the results, by which
   ways are compared. `answer` gives the result of a request. */
static void time_all(const struct task *task, uint64_t count, double (*clock)(void), uint64_t (*answer)(const uint64_t *))
{
    uint64_t arguments[5], sum = 0, k = 0;
    double *times = malloc((count + 1) * sizeof *times), begin = 0;
    if (!times)
        exit(1);
    /* The first isn't counted. */
    for (uint64_t taken = 0; taken <= count; taken++) {
        double since = clock();
        for (uint64_t part = parts_of(task); part; part--) {
            arguments_of(task, k++, arguments);
            sum += answer(arguments);
        }
        times[taken] = (clock() - since) * 1e6;
        if (taken == 0)
            begin = clock();
    }
    double end = clock();
    qsort(times + 1, count, sizeof *times, by_size);
    printf("%.2f %.2f %.6f %.6f %" PRIu64 "\n", times[1 + count / 2], times[1 + count * 99 / 100], begin, end, sum);
    free(times);
}
