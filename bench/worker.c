/* A worker of a service in plain C, for bench/service.py and bench/turns.py: worker FUEL CODE. It runs code written in hex with so
   much fuel, by the flat interpreter, R1 at an object of 64 bytes that threads share, and 1 to 4 in R2 to R5, a turn at a time under
   the machine's mutex, and prints in how many turns. */
#include "flat_shared.h"
#include <pthread.h>
#include <stdatomic.h>
#include <stdio.h>
#include <stdlib.h>
#include <string.h>

/* How many instructions are done under the mutex at a time, as the agent's workers do. */
#define TURN_LIMIT 64
#define SLOTS 64
#define OBJECT_LENGTH 64

/* A machine under its lock, and the fuel that it has beside that of a turn. */
struct cell {
    pthread_mutex_t lock;
    struct flat_machine machine;
    uint64_t fuel;
    enum flat_stop stop;
};

/* What a worker looks at between two turns: whether the service ends, and how many other machines are queued. */
static _Atomic int over, queued;

/* One turn: whether the machine goes on. */
static int turn(struct cell *cell)
{
    uint64_t most = cell->fuel < TURN_LIMIT ? cell->fuel : TURN_LIMIT;
    pthread_mutex_lock(&cell->lock);
    cell->machine.fuel = most;
    cell->stop = flat_run(&cell->machine);
    cell->fuel -= most - cell->machine.fuel;
    pthread_mutex_unlock(&cell->lock);
    return cell->stop == FLAT_SPENT && cell->fuel > 0;
}

/* How many slots of code this is; 0 where it isn't any, or too long. */
static size_t read_code(const char *hex, uint8_t *bytes)
{
    size_t slots = strlen(hex) / 16;
    if (slots == 0 || slots > SLOTS || strlen(hex) != 16 * slots) return 0;
    for (size_t k = 0; k < 8 * slots; k++)
        if (sscanf(hex + 2 * k, "%2hhx", &bytes[k]) != 1) return 0;
    return slots;
}

static int work(uint64_t fuel, const char *hex)
{
    static struct flat_instr code[SLOTS];
    static struct flat_object table[FLAT_TABLE];
    static uint8_t object[OBJECT_LENGTH], bytes[8 * SLOTS];
    static struct cell cell = {.lock = PTHREAD_MUTEX_INITIALIZER};
    size_t slots = read_code(hex, bytes);
    if (slots == 0) return 2;
    flat_decode(code, bytes, slots);
    flat_start(&cell.machine, code, 0, UINT64_C(1) << 32);
    for (uint64_t k = 1; k <= 4; k++) cell.machine.registers[k + 1] = k;
    table[1].bytes = object;
    table[1].length = sizeof object;
    cell.machine.table = table;
    cell.fuel = fuel;
    uint64_t turns = 1;
    while (turn(&cell) && !atomic_load(&over) && !atomic_load(&queued)) turns++;
    printf("%llu\n", (unsigned long long)turns);
    return cell.stop == FLAT_SPENT ? 0 : 1;
}

int main(int count, char **words)
{
    return count == 3 ? work(strtoull(words[1], NULL, 10), words[2]) : 2;
}
