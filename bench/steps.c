/* Nanoseconds and machine instructions a step of the agent's machine, called once an instruction, beside another interpreter with the
   calls of bench/flat.h; and what the number of objects, of machines and of scopes costs. Runs are interleaved, and of each the tenth
   percentile counts. Machine instructions are counted by bench/counts.py, which has this program run one side once. */
#include "codes.h"
#include "flat.h"
#include "times.h"
#include "work.h"
#include <stdio.h>
#include <stdlib.h>
#include <string.h>

#define RUNS 101
/* R0 at the end, and how many instructions ran before the stop. */
struct outcome {
    uint64_t result, steps;
};

/* Seconds that the processor worked for this program: other work on the machine takes none of them. */
static double now(void)
{
    return seconds_by(CLOCK_PROCESS_CPUTIME_ID);
}

/* ---- machine instructions */

/* The counts' lines: two numbers of machine instructions a step, and the name. Null where none were counted. */
static const char *counts_path;

struct counts {
    double first, second;
};

/* What was counted under a name; zeros where nothing was. */
static struct counts counts_of(const char *name)
{
    FILE *f = counts_path ? fopen(counts_path, "r") : NULL;
    struct counts line, found = { 0, 0 };
    char its[64];
    while (f && fscanf(f, "%lf %lf %63[^\n]", &line.first, &line.second, its) == 3)
        if (!strcmp(its, name)) found = line;
    if (f) fclose(f);
    return found;
}

/* Ends a line with what was counted, and gives it. */
static struct counts tell_counts(const char *name)
{
    struct counts c = counts_of(name);
    if (c.first > 0) printf("; %5.1f and %5.1f machine instructions", c.first, c.second);
    printf("\n");
    return c;
}

/* ---- both interpreters */

/* The time of a run; that of loading the code and making the objects is taken off. */
static double ours(const struct code *c, uint64_t fuel, const struct setting *s, struct outcome *o)
{
    double a = now();
    bpf_run(c->bytes, c->length, &(struct work){ 0, s->argument, s->objects, s->machines, s->granted }, &o->steps);
    double b = now();
    o->result = bpf_run(c->bytes, c->length, &(struct work){ fuel, s->argument, s->objects, s->machines, s->granted }, &o->steps);
    return now() - b - (b - a);
}

static double theirs(const struct flat_instr *decoded, uint64_t fuel, struct outcome *o)
{
    static uint8_t object[OBJECT_BYTES];
    static struct flat_machine m;
    memset(object, 0, sizeof object);
    flat_start(&m, decoded, fuel, OBJECT(1));
    m.table[2] = (struct flat_object){ object, sizeof object };
    double a = now();
    enum flat_stop stop = flat_run(&m);
    double b = now();
    /* EXIT takes fuel too. */
    o->steps = fuel - m.fuel - (stop == FLAT_EXIT);
    o->result = m.registers[0];
    return b - a;
}

/* A program, and the times of its runs. */
struct timed {
    const char *name;
    struct code code;
    struct flat_instr decoded[CODE_LIMIT / 8];
    uint64_t fuel;
    struct outcome outcome;
    double ours[RUNS], theirs[RUNS];
};

/* One run of both. */
static void run_both(struct timed *t, int k)
{
    static const struct setting one = { OBJECT(1), 1, 1, 0 };
    struct outcome other;
    t->ours[k] = ours(&t->code, t->fuel, &one, &t->outcome);
    t->theirs[k] = theirs(t->decoded, t->fuel, &other);
    if (t->outcome.result != other.result || t->outcome.steps != other.steps) {
        printf("%s: the results differ\n", t->name);
        exit(1);
    }
}

/* Two ratios of a step, by time and by machine instructions, and the machine instructions of both sides. */
struct ratios {
    double time, counts, ours, theirs;
};

/* Tells the times of both and what was counted, and gives their ratios. */
static struct ratios tell(struct timed *t)
{
    double a = tenth_percentile(t->ours, RUNS), b = tenth_percentile(t->theirs, RUNS), steps = (double)t->outcome.steps;
    printf("%-28s agent %6.2f ns a step, other %6.2f, ratio %.2f", t->name, 1e9 * a / steps, 1e9 * b / steps, a / b);
    struct counts c = tell_counts(t->name);
    return (struct ratios){ a / b, c.first > 0 ? c.first / c.second : 0, c.first, c.second };
}

/* Runs the programs in turn, many times, and gives the mean of their ratios. */
static struct ratios compare(struct timed *programs, size_t count)
{
    struct ratios sum = { 0, 0, 0, 0 };
    for (size_t n = 0; n < count; n++) flat_decode(programs[n].decoded, programs[n].code.bytes, programs[n].code.length / 8);
    for (int k = 0; k < RUNS; k++)
        for (size_t n = 0; n < count; n++) run_both(&programs[n], k);
    for (size_t n = 0; n < count; n++) {
        struct ratios r = tell(&programs[n]);
        sum.time += r.time / (double)count;
        sum.counts += r.counts / (double)count;
        sum.ours += r.ours / (double)count;
        sum.theirs += r.theirs / (double)count;
    }
    return sum;
}

/* The ratio of the agent's times of two programs in two settings: the second beside the first. */
static void scales(const char *name, const struct code *c, struct setting first, const struct code *d, struct setting second)
{
    double one[RUNS], other[RUNS];
    for (int k = 0; k < RUNS; k++) {
        struct outcome o;
        one[k] = ours(c, STEPS, &first, &o);
        other[k] = ours(d, STEPS, &second, &o);
    }
    double a = tenth_percentile(one, RUNS), b = tenth_percentile(other, RUNS);
    printf("%-28s %6.2f beside %6.2f ns a step, ratio %.2f", name, 1e9 * b / STEPS, 1e9 * a / STEPS, b / a);
    struct counts counted = counts_of(name);
    if (counted.first > 0) printf("; %5.1f beside %5.1f machine instructions", counted.second, counted.first);
    printf("\n");
}

/* ---- what is measured */

static void compiled(const char *folder)
{
    static struct timed programs[COMPILED];
    for (size_t n = 0; n < COMPILED; n++) {
        programs[n].name = compiled_names[n];
        stored(folder, programs[n].name, &programs[n].code);
        programs[n].fuel = 1u << 30;
    }
    struct ratios mean = compare(programs, COMPILED);
    printf("%-28s ratio %.2f by time", "mean of the five", mean.time);
    if (mean.counts > 0) printf(", %.2f by machine instructions; %.1f and %.1f machine instructions", mean.counts, mean.ours, mean.theirs);
    printf("\n");
}

/* The rows from the one of this number on. */
static void rows(size_t first)
{
    static struct timed programs[ROWS];
    for (size_t n = first; n < ROWS; n++) {
        programs[n].name = made[n].name;
        programs[n].code = made[n].code();
        programs[n].fuel = STEPS;
    }
    compare(programs + first, ROWS - first);
}

/* Runs a program once on one side, and tells how many instructions ran: what is counted. */
static int run_once(const char *folder, const char *side, const char *name, uint64_t fuel)
{
    static struct code c;
    static struct flat_instr decoded[CODE_LIMIT / 8];
    struct setting s = { OBJECT(1), 1, 1, 0 };
    struct outcome o = { 0, 0 };
    size_t n = 0;
    while (n < sizeof made / sizeof *made && strcmp(made[n].name, name)) n++;
    if (n < sizeof made / sizeof *made) {
        c = made[n].code();
        s = made[n].setting;
    } else {
        stored(folder, name, &c);
    }
    if (!strcmp(side, "flat")) {
        flat_decode(decoded, c.bytes, c.length / 8);
        theirs(decoded, fuel, &o);
    } else {
        o.result = bpf_run(c.bytes, c.length, &(struct work){ fuel, s.argument, s.objects, s.machines, s.granted }, &o.steps);
    }
    printf("%llu %llu\n", (unsigned long long)o.steps, (unsigned long long)o.result);
    return 0;
}

static void growth(void)
{
    const struct setting alone = { OBJECT(1), 1, 1, 0 }, many_objects = { OBJECT(1024), 1024, 1, 0 };
    const struct setting many_machines = { OBJECT(1), 1, 48, 0 }, eight_objects = { OBJECT(1), 8, 1, 0 }, sixteen_grants = { OBJECT(1), 1, 1, 16 };
    const struct code c = loads(), one = loads_in_turn(1), two = loads_in_turn(2), four = loads_in_turn(4), five = loads_in_turn(5), eight = loads_in_turn(8);
    scales("loads, 1 and 1024 objects", &c, alone, &c, many_objects);
    scales("loads, 1 and 48 machines", &c, alone, &c, many_machines);
    scales("loads, 1 and 2 objects in turn", &one, eight_objects, &two, eight_objects);
    scales("loads, 1 and 4 objects in turn", &one, eight_objects, &four, eight_objects);
    scales("loads, 1 and 5 objects in turn", &one, eight_objects, &five, eight_objects);
    scales("loads, 1 and 8 objects in turn", &one, eight_objects, &eight, eight_objects);
    scales("loads, all and 16 granted", &c, alone, &c, sixteen_grants);
}

/* steps FOLDER [COUNTS]: the folder has the code of the compiled programs, the file what was counted of each program.
   steps FOLDER COUNTS all: the programs that run on both sides; with 'straight' those without a loop.
   steps FOLDER SIDE NAME FUEL: runs one of them once, on the side 'agent' or 'flat'. */
int main(int count, char **words)
{
    if (count == 5) return run_once(words[1], words[2], words[3], strtoull(words[4], NULL, 10));
    if (count < 2 || count > 4) return 2;
    counts_path = count > 2 ? words[2] : NULL;
    if (count == 4 && !strcmp(words[3], "straight")) {
        rows(ROWS - STRAIGHT);
        return 0;
    }
    compiled(words[1]);
    rows(0);
    if (count < 4) growth();
    return 0;
}
