/* A plain line loop in C over the flat interpreter: `make`, `get`, `ship` and `step`, each reply written before the next line
   is looked at. It trusts its lines and the code: a measure of cost, no reference for the protocol. */
#include "flat.h"
#include <inttypes.h>
#include <stdio.h>
#include <stdlib.h>
#include <string.h>
#include <unistd.h>

#define LINE_LIMIT 70000
#define MACHINES 48
#define OBJECTS 1024

struct line_machine {
    struct flat_machine m;
    uint64_t fuel;
    int is_stopped;
    enum flat_stop stop;
};

static struct line_machine machines[MACHINES];
static struct flat_object objects[OBJECTS];
static size_t machine_count, object_count;

static void put(const char *text, size_t length)
{
    while (length > 0) {
        ssize_t n = write(1, text, length);
        if (n <= 0) exit(3);
        text += n;
        length -= (size_t)n;
    }
}

static int digit(char c)
{
    return c <= '9' ? c - '0' : (c | 32) - 'a' + 10;
}

static void make(char *words, char *reply)
{
    struct flat_object *object = &objects[object_count++];
    object->length = strtoull(words, NULL, 0);
    object->bytes = calloc(object->length, 1);
    if (!object->bytes) exit(3);
    for (size_t k = 0; k < machine_count; k++) machines[k].m.table[object_count + 1] = *object;
    sprintf(reply, "made %zu\n", object_count);
}

static void get(char *words, char *reply)
{
    static const char digits[] = "0123456789abcdef";
    size_t number = strtoull(words, &words, 0), offset = strtoull(words, &words, 0), count = strtoull(words, &words, 0);
    if (number == 0 || number > object_count || offset + count > objects[number - 1].length) {
        strcpy(reply, "outside\n");
        return;
    }
    char *to = reply + sprintf(reply, "bytes ");
    const uint8_t *from = objects[number - 1].bytes + offset;
    for (size_t i = 0; i < count; i++) {
        *to++ = digits[from[i] >> 4];
        *to++ = digits[from[i] & 15];
    }
    strcpy(to, "\n");
}

static void ship(char *words, char *reply)
{
    uint64_t fuel = strtoull(words, &words, 0), arguments[5];
    for (int i = 0; i < 5; i++) arguments[i] = strtoull(words, &words, 0);
    char *hex = words + 1;
    size_t bytes = strlen(hex) / 2;
    uint8_t *raw = malloc(bytes);
    struct flat_instr *code = calloc(bytes / 8, sizeof *code);
    if (!raw || !code) exit(3);
    for (size_t i = 0; i < bytes; i++) raw[i] = (uint8_t)(digit(hex[2 * i]) << 4 | digit(hex[2 * i + 1]));
    flat_decode(code, raw, bytes / 8);
    free(raw);
    struct line_machine *m = &machines[machine_count++];
    flat_start(&m->m, code, 1, 0);
    memcpy(m->m.table + 2, objects, sizeof objects);
    memcpy(&m->m.registers[1], arguments, sizeof arguments);
    m->fuel = fuel;
    sprintf(reply, "shipped %zu\n", machine_count);
}

static void reply_stop(size_t number, const struct line_machine *m, char *reply)
{
    static const char *const names[] = { "exit", "outside", "misaligned", "depth", "spent" };
    if (m->stop == FLAT_EXIT) sprintf(reply, "stopped %zu exit %016" PRIx64 "\n", number, m->m.registers[0]);
    else sprintf(reply, "stopped %zu %s\n", number, names[m->stop]);
}

/* One instruction; the interpreter is given fuel for one. */
static void do_one(struct line_machine *m)
{
    m->m.fuel = m->fuel > 0;
    m->stop = flat_run(&m->m);
    m->is_stopped = m->stop != FLAT_SPENT || m->fuel == 0;
    if (m->stop == FLAT_EXIT || !m->is_stopped) m->fuel--;
}

static void step(char *words, char *reply)
{
    size_t number = strtoull(words, NULL, 0);
    if (number == 0 || number > machine_count) {
        strcpy(reply, "none\n");
        return;
    }
    struct line_machine *m = &machines[number - 1];
    if (!m->is_stopped) do_one(m);
    if (m->is_stopped) reply_stop(number, m, reply);
    else sprintf(reply, "ran %zu %" PRIu32 "\n", number, m->m.slot);
}

static void answer(char *line)
{
    static char reply[LINE_LIMIT];
    if (!strncmp(line, "step ", 5)) step(line + 5, reply);
    else if (!strncmp(line, "get ", 4)) get(line + 4, reply);
    else if (!strncmp(line, "make ", 5)) make(line + 5, reply);
    else if (!strncmp(line, "ship ", 5)) ship(line + 5, reply);
    else strcpy(reply, "bad\n");
    put(reply, strlen(reply));
}

int main(void)
{
    static char line[LINE_LIMIT + 1];
    char piece[4096];
    size_t length = 0;
    ssize_t n;
    while ((n = read(0, piece, sizeof piece)) > 0) {
        const char *rest = piece, *end = piece + n, *stop;
        while ((stop = memchr(rest, '\n', (size_t)(end - rest)))) {
            memcpy(line + length, rest, (size_t)(stop - rest));
            line[length + (size_t)(stop - rest)] = 0;
            length = 0;
            answer(line);
            rest = stop + 1;
        }
        memcpy(line + length, rest, (size_t)(end - rest));
        length += (size_t)(end - rest);
    }
    return 0;
}
