/* Nanoseconds a step of the library for C: by bpfagent_run with n large and with n 1, and by bpfagent_step, beside Machine::step in a
   loop of its own (crates/bench_steps). Runs are interleaved, and of each the tenth percentile counts. R0 and the number of steps are
   compared.

   embed FOLDER                   measures the stored programs
   embed FOLDER SIDE NAME FUEL    runs one side once, for bench/embed.py: run, one, step or bare; tells the steps that ran and R0 */
#include "bpfagent.h"
#include "times.h"
#include "work.h"
#include <inttypes.h>
#include <stdio.h>
#include <stdlib.h>
#include <string.h>

#define RUNS 41
#define SIDES 4
#define OBJECT_BYTES 65536
#define FUEL 400000

static const char *const NAMES[] = { "checksum", "gcd", "sieve", "sort", "table" };
static const char *const SIDE_NAMES[SIDES] = { "run", "one", "step", "bare" };

static uint8_t code[32768];
static size_t length;

struct outcome {
    uint64_t steps, result;
};

static double now(void)
{
    return seconds_by(CLOCK_MONOTONIC);
}

static void check(int ok, const char *what)
{
    if (ok)
        return;
    fprintf(stderr, "%s\n", what);
    exit(1);
}

static void load(const char *folder, const char *name)
{
    char path[512];
    snprintf(path, sizeof path, "%s/%s.code", folder, name);
    FILE *f = fopen(path, "rb");
    check(f != NULL, path);
    length = fread(code, 1, sizeof code, f);
    fclose(f);
}

/* The time of a run of the library: in calls of at most n steps, or by bpfagent_step where n is 0. */
static double by_library(uint64_t n, uint64_t fuel, struct outcome *o)
{
    bpfagent agent = { 0 };
    uint32_t object, reply;
    size_t machine;
    bpfagent_end end;
    bpfagent_refusal refusal;
    bpfagent_registers registers;
    uint64_t steps = 0;
    check(bpfagent_new(&agent, 1 << 26) == 0 && bpfagent_make(&agent, OBJECT_BYTES, &object) == 0, "make");
    check(bpfagent_ship(&agent, code, length, fuel, bpfagent_address(object, 0), 0, 0, 0, 0, &machine, &refusal) == 0, "ship");
    double a = now();
    while ((reply = n ? bpfagent_run(&agent, machine, n, &end) : bpfagent_step(&agent, machine, &end)) == BPFAGENT_RAN)
        steps += end.ran;
    double b = now();
    check(reply == BPFAGENT_STOPPED && bpfagent_regs(&agent, machine, &registers) == 0, "no stop");
    *o = (struct outcome){ steps + end.ran, registers.registers[0] };
    bpfagent_delete(&agent);
    return b - a;
}

/* The time of a run of Machine::step; that of loading the code is taken off. */
static double bare(uint64_t fuel, struct outcome *o)
{
    double a = now();
    bpf_run(code, length, &(struct work){ 0, bpfagent_address(1, 0), 1, 1, 0 }, &o->steps);
    double b = now();
    o->result = bpf_run(code, length, &(struct work){ fuel, bpfagent_address(1, 0), 1, 1, 0 }, &o->steps);
    return now() - b - (b - a);
}

static double side(size_t which, uint64_t fuel, struct outcome *o)
{
    static const uint64_t most[] = { UINT64_MAX, 1, 0 };
    return which == SIDES - 1 ? bare(fuel, o) : by_library(most[which], fuel, o);
}

static void measure(const char *name)
{
    static double times[SIDES][RUNS];
    struct outcome first = { 0, 0 }, other;
    for (int r = 0; r < RUNS; r++)
        for (size_t which = 0; which < SIDES; which++) {
            times[which][r] = side(which, FUEL, &other);
            if (r == 0 && which == 0)
                first = other;
            check(first.steps == other.steps && first.result == other.result, "the results differ");
        }
    double best[SIDES];
    printf("%-10s", name);
    for (size_t which = 0; which < SIDES; which++) {
        best[which] = tenth_percentile(times[which], RUNS);
        printf("%s %6.2f ns%s", SIDE_NAMES[which], 1e9 * best[which] / (double)first.steps, which < SIDES - 1 ? ", " : "");
    }
    printf("; run beside bare %.2f\n", best[0] / best[SIDES - 1]);
}

int main(int count, char **words)
{
    if (count == 5) {
        struct outcome o = { 0, 0 };
        load(words[1], words[3]);
        for (size_t which = 0; which < SIDES; which++)
            if (!strcmp(words[2], SIDE_NAMES[which]))
                side(which, strtoull(words[4], NULL, 10), &o);
        printf("%" PRIu64 " %" PRIu64 "\n", o.steps, o.result);
        return 0;
    }
    check(count == 2, "embed FOLDER [SIDE NAME FUEL]");
    for (size_t k = 0; k < sizeof NAMES / sizeof NAMES[0]; k++) {
        load(words[1], NAMES[k]);
        measure(NAMES[k]);
    }
    return 0;
}
