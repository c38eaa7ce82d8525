/* What an interpreter of bench/flat.h makes of programs: forms FOLDER [NAME..]. A line for each of the programs that bench/steps.c
   measures, or for the code NAME.code in the folder, each run at once and in portions of fuel: how it stopped, after how many
   instructions, at which slot and depth, R0 to R10, and a hash of object and stack. bench/forms.py compares the lines of all forms. */
#include "codes.h"
#include "flat.h"

/* Of the bytes that aren't 0, with their places. */
static uint64_t hash_of(const uint8_t *bytes, size_t length, uint64_t hash)
{
    for (size_t k = 0; k < length; k++)
        if (bytes[k]) hash = (hash ^ (k << 8 | bytes[k])) * 0x100000001b3;
    return hash;
}

/* Runs the code up to its end or its last unit of fuel, with at most so much fuel at once. */
static void tell(const char *name, const struct code *c, uint64_t fuel, uint64_t portion)
{
    static struct flat_machine m;
    static struct flat_instr decoded[CODE_LIMIT / 8];
    static uint8_t object[OBJECT_BYTES];
    uint64_t left = fuel;
    enum flat_stop stop;
    memset(object, 0, sizeof object);
    flat_decode(decoded, c->bytes, c->length / 8);
    flat_start(&m, decoded, 0, OBJECT(1));
    m.table[2] = (struct flat_object){ object, sizeof object };
    do {
        m.fuel = portion < left ? portion : left;
        left -= m.fuel;
        stop = flat_run(&m);
    } while (stop == FLAT_SPENT && left > 0);
    uint64_t ran = fuel - left - m.fuel, hash = hash_of(m.stack, sizeof m.stack, hash_of(object, sizeof object, 1));
    printf("%s: %d %llu %u %u", name, (int)stop, (unsigned long long)ran, (unsigned)m.slot, (unsigned)m.depth);
    for (int k = 0; k <= 10; k++) printf(" %llx", (unsigned long long)m.registers[k]);
    printf(" %llx\n", (unsigned long long)hash);
}

static void tell_all(const char *name, const struct code *c, uint64_t fuel)
{
    tell(name, c, fuel, fuel);
    tell(name, c, fuel, 97);
    tell(name, c, fuel, 1);
}

int main(int count, char **words)
{
    static struct code c;
    if (count < 2) return 2;
    for (int k = 2; k < count; k++) {
        stored(words[1], words[k], &c);
        tell_all(words[k], &c, STEPS);
    }
    for (size_t n = 0; count == 2 && n < COMPILED; n++) {
        stored(words[1], compiled_names[n], &c);
        tell_all(compiled_names[n], &c, 1u << 30);
    }
    for (size_t n = 0; count == 2 && n < ROWS; n++) {
        c = made[n].code();
        tell_all(made[n].name, &c, STEPS);
    }
    return 0;
}
