/* How much memory a process has whose objects are far: 1,000 objects of 64 KiB, which it hands out to a file and takes back, ten times.

   The C library is told first to keep large blocks outside of its heap. So an object that is handed out gives its memory back to the
   system. While all are far the process may have 10 MiB, and no more in the last round than in the first, but for a little. */
#define _DEFAULT_SOURCE
#include "common.h"
#include <malloc.h>
#include <unistd.h>

#define OBJECTS 1000u
#define LENGTH 65536u
#define ROUNDS 10u
#define THRESHOLD 32768
#define BOUND (10L << 20)
#define GROWTH (1L << 20)

/* Ends the program where something doesn't hold. */
static void holds(int is_so, const char *what)
{
    if (is_so) return;
    fprintf(stderr, "memory: %s\n", what);
    exit(1);
}

/* The resident memory of this process, in bytes. */
static long resident(void)
{
    long pages = 0;
    FILE *file = fopen("/proc/self/statm", "r");
    holds(file != NULL, "no file");
    holds(fscanf(file, "%*s %ld", &pages) == 1, "no /proc/self/statm");
    fclose(file);
    return pages * sysconf(_SC_PAGESIZE);
}

/* What an object holds. */
static void fill(uint8_t *bytes, uint32_t object)
{
    for (size_t at = 0; at < LENGTH; at += sizeof object) memcpy(bytes + at, &object, sizeof object);
}

/* All objects go to the file. */
static void hand_out(bpfagent *agent, FILE *file, uint8_t *bytes)
{
    bpfagent_parcel parcel;
    size_t length;
    rewind(file);
    for (uint32_t object = 1; object <= OBJECTS; object++) {
        must(bpfagent_leave(agent, object), BPFAGENT_OK, "leave");
        must(bpfagent_left_into(agent, object, bytes, LENGTH, &length, &parcel), BPFAGENT_OK, "left_into");
        holds(fwrite(bytes, 1, length, file) == LENGTH, "the file takes too little");
    }
    holds(fflush(file) == 0, "the file takes too little");
}

/* All objects come back, and are written, so that their bytes have to go again. */
static void take_back(bpfagent *agent, FILE *file, uint8_t *bytes, uint8_t *expected)
{
    rewind(file);
    for (uint32_t object = 1; object <= OBJECTS; object++) {
        fill(expected, object);
        holds(fread(bytes, 1, LENGTH, file) == LENGTH, "the file gives too little");
        holds(memcmp(bytes, expected, LENGTH) == 0, "the bytes aren't those that were handed out");
        must(bpfagent_return(agent, object), BPFAGENT_OK, "return");
        must(bpfagent_returned_from(agent, object, bytes, LENGTH), BPFAGENT_OK, "returned_from");
        must(bpfagent_put(agent, object, 0, bytes, LENGTH), BPFAGENT_OK, "put");
    }
}

int main(void)
{
    static uint8_t bytes[LENGTH], expected[LENGTH];
    bpfagent agent = BPFAGENT_INIT;
    long far[ROUNDS], here;
    FILE *file = tmpfile();
    holds(file != NULL, "no file");
    holds(mallopt(M_MMAP_THRESHOLD, THRESHOLD) == 1, "mallopt takes no threshold");
    must(bpfagent_new_handing(&agent, OBJECTS * LENGTH), BPFAGENT_OK, "new_handing");
    for (uint32_t number = 1; number <= OBJECTS; number++) {
        uint32_t object;
        must(bpfagent_make(&agent, LENGTH, &object), BPFAGENT_OK, "make");
        holds(object == number, "an object has another number");
        fill(bytes, object);
        must(bpfagent_put(&agent, object, 0, bytes, LENGTH), BPFAGENT_OK, "put");
    }
    here = resident();
    holds(here > (long)OBJECTS * LENGTH, "the objects aren't here");
    for (unsigned round = 0; round < ROUNDS; round++) {
        hand_out(&agent, file, bytes);
        far[round] = resident();
        holds(far[round] < BOUND, "too much memory while all objects are far");
        take_back(&agent, file, bytes, expected);
    }
    holds(far[ROUNDS - 1] < far[0] + GROWTH, "the memory grows from round to round");
    bpfagent_delete(&agent);
    fclose(file);
    printf("memory: %ld KiB while %u objects of %u bytes are here, %ld KiB while they are far\n", here >> 10, OBJECTS, LENGTH, far[ROUNDS - 1] >> 10);
    return 0;
}
