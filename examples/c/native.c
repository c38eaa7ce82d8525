// Runs the programs of this folder as native code, for the values that tests expect of them.
//
// Standard input has commands: `make`, `put`, `get` and `out` as bpfagent knows them, and `run NAME A1 A2 A3 A4 A5`,
// which runs out/NAME.so to its end as the next machine and answers `exit V`. Each object is a buffer at its own
// address, so programs get the same arguments as in the agent.
#define _GNU_SOURCE
#include "bpfagent_program.h"
#include <dlfcn.h>
#include <inttypes.h>
#include <stdio.h>
#include <stdlib.h>
#include <string.h>
#include <sys/mman.h>

#define OBJECTS 1024
#define MACHINES 48
#define EMITTED 64

typedef uint64_t entry(uint64_t, uint64_t, uint64_t, uint64_t, uint64_t);

static uint64_t lengths[OBJECTS + 1], objects;
static uint64_t emitted[MACHINES + 1][EMITTED], emitted_count[MACHINES + 1], machines;

static void give_up(const char *why)
{
    fprintf(stderr, "native: %s\n", why);
    exit(1);
}

uint64_t object_length(uint64_t object)
{
    return object <= objects ? lengths[object] : 0;
}

uint64_t machine_number(void)
{
    return machines;
}

uint64_t emit(uint64_t value)
{
    if (emitted_count[machines] == EMITTED)
        return 1;
    emitted[machines][emitted_count[machines]++] = value;
    return 0;
}

uint64_t close_scopes(void)
{
    return 0;
}

static void make(uint64_t length)
{
    if (objects == OBJECTS)
        give_up("too many objects");
    void *place = address_of(++objects, 0);
    int flags = MAP_PRIVATE | MAP_ANONYMOUS | MAP_FIXED_NOREPLACE;
    if (mmap(place, length, PROT_READ | PROT_WRITE, flags, -1, 0) != place)
        give_up("no object at its address");
    lengths[objects] = length;
    printf("made %" PRIu64 "\n", objects);
}

static uint8_t *bytes_of(uint64_t object, uint64_t offset, uint64_t length)
{
    if (offset + length > object_length(object))
        give_up("a command is outside");
    return address_of(object, offset);
}

static void put(uint64_t object, uint64_t offset, const char *digits)
{
    uint64_t length = strlen(digits) / 2;
    uint8_t *bytes = bytes_of(object, offset, length);
    for (uint64_t i = 0; i < length; i++)
        sscanf(digits + 2 * i, "%2hhx", &bytes[i]);
    printf("ok\n");
}

static void get(uint64_t object, uint64_t offset, uint64_t length)
{
    const uint8_t *bytes = bytes_of(object, offset, length);
    printf("bytes ");
    for (uint64_t i = 0; i < length; i++)
        printf("%02x", bytes[i]);
    printf("\n");
}

static void out(uint64_t machine)
{
    printf("out %" PRIu64, machine);
    for (uint64_t i = 0; i < emitted_count[machine]; i++)
        printf(" %016" PRIx64, emitted[machine][i]);
    printf("\n");
}

static void run(const char *name, const uint64_t a[5])
{
    char path[100];
    snprintf(path, sizeof path, "out/%.80s.so", name);
    void *library = dlopen(path, RTLD_NOW | RTLD_LOCAL);
    entry *program = library ? (entry *)dlsym(library, "program") : NULL;
    if (program == NULL)
        give_up(dlerror());
    if (++machines > MACHINES)
        give_up("too many machines");
    printf("exit %016" PRIx64 "\n", program(a[0], a[1], a[2], a[3], a[4]));
}

int main(void)
{
    static char line[70000], word[2][70000];
    while (fgets(line, sizeof line, stdin)) {
        uint64_t a[5] = {0};
        int words = sscanf(line, "%s %s %" SCNi64 " %" SCNi64 " %" SCNi64 " %" SCNi64 " %" SCNi64, word[0], word[1], &a[0], &a[1], &a[2], &a[3], &a[4]);
        uint64_t first = words > 1 ? strtoull(word[1], NULL, 0) : 0;
        if (strcmp(word[0], "make") == 0)
            make(first);
        else if (strcmp(word[0], "put") == 0)
            put(first, a[0], strrchr(line, ' ') + 1);
        else if (strcmp(word[0], "get") == 0)
            get(first, a[0], a[1]);
        else if (strcmp(word[0], "out") == 0)
            out(first);
        else if (strcmp(word[0], "run") == 0)
            run(word[1], a);
        else
            give_up("what command?");
    }
    return 0;
}
