/* What the programs of this folder share. */
#include "bpfagent.h"
#include <inttypes.h>
#include <stdio.h>
#include <stdlib.h>
#include <string.h>

/* Ends the program where a call isn't answered as it should be. */
static inline void must(uint32_t reply, uint32_t wanted, const char *what)
{
    if (reply == wanted)
        return;
    fprintf(stderr, "%s: answered %" PRIu32 ", not %" PRIu32 "\n", what, reply, wanted);
    exit(1);
}

/* Raw code from a file, of at most so many bytes. */
static inline size_t code_of(const char *path, uint8_t *code, size_t room)
{
    FILE *file = fopen(path, "rb");
    if (!file) {
        perror(path);
        exit(1);
    }
    size_t length = fread(code, 1, room, file);
    if (ferror(file)) {
        perror(path);
        exit(1);
    }
    if (length == room && fgetc(file) != EOF) {
        fprintf(stderr, "%s: more than %zu bytes\n", path, room);
        exit(1);
    }
    fclose(file);
    return length;
}
