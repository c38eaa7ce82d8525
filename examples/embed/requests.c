/* Requests in process: a program that is shipped once answers requests for as long as the agent lives. Between two requests its machine
   is paused at a breakpoint (examples/requests/table.c, a table of keys and values). A tenth of the requests add to a value; the others
   read one. The results have to be those of a table in C.

   requests table.code SLOT: the slot is what `bpfagent-ship --awaits` tells. */
#define _XOPEN_SOURCE 700
#include "../../python/bpfagent/include/bpfagent_request.h"
#include "common.h"
#include <time.h>

#define PLACES 4096
#define KEYS 2048
#define REQUESTS 200000

enum operation { GET, PUT, ADD };

struct procedure {
    bpfagent *agent;
    size_t machine;
    uint32_t object; /* of the request */
    struct request request;
};

/* Processor time, in nanoseconds. */
static double now(void)
{
    struct timespec t;
    clock_gettime(CLOCK_PROCESS_CPUTIME_ID, &t);
    return (double)t.tv_sec * 1e9 + (double)t.tv_nsec;
}

/* Runs the machine to where it pauses. An object that it waits for is brought back. */
static void run_to_pause(struct procedure *p)
{
    bpfagent_end end;
    for (;;) {
        uint32_t reply = bpfagent_run(p->agent, p->machine, UINT64_MAX, &end);
        if (reply == BPFAGENT_PAUSED)
            return;
        must(reply, BPFAGENT_WAITING, "run");
        must(bpfagent_return(p->agent, (uint32_t)end.value), BPFAGENT_OK, "return");
        must(bpfagent_returned(p->agent, (uint32_t)end.value), BPFAGENT_OK, "returned");
    }
}

/* Ships the program, whose second argument is the table, and has it pause where it awaits a request. */
static void begin(struct procedure *p, const uint8_t *code, size_t length, uint32_t slot, uint32_t table)
{
    bpfagent_refusal refusal;
    bpfagent_grant granted[2];
    must(bpfagent_make(p->agent, sizeof p->request, &p->object), BPFAGENT_OK, "make");
    granted[0] = (bpfagent_grant){ p->object, 1 };
    granted[1] = (bpfagent_grant){ table, 1 };
    must(bpfagent_ship_granted(p->agent, code, length, UINT64_MAX, bpfagent_address(p->object, 0), bpfagent_address(table, 0), 0, 0, 0,
                               granted, 2, &p->machine, &refusal),
         BPFAGENT_OK, "ship");
    must(bpfagent_break(p->agent, p->machine, slot), BPFAGENT_OK, "break");
    run_to_pause(p);
}

/* Sends a request, and gives its result. */
static uint64_t ask(struct procedure *p, uint64_t operation, uint64_t key, uint64_t value)
{
    struct request *r = &p->request;
    uint64_t arguments[5] = { operation, key, value };
    r->number++;
    memcpy(r->arguments, arguments, sizeof arguments);
    must(bpfagent_put(p->agent, p->object, 0, (const uint8_t *)r, REQUEST_BYTES), BPFAGENT_OK, "put");
    must(bpfagent_resume(p->agent, p->machine), BPFAGENT_OK, "resume");
    run_to_pause(p);
    must(bpfagent_get(p->agent, p->object, REQUEST_BYTES, (uint8_t *)&r->answered, ANSWER_BYTES), BPFAGENT_OK, "get");
    must(r->answered == r->number, 1, "the number that is answered");
    must((uint32_t)r->status, REQUEST_DONE, "the status");
    return r->result;
}

/* Sends the table away, as an evacuator would. While the machine awaits a request no object is in its scope. */
static void send_away(bpfagent *agent, uint32_t table)
{
    must(bpfagent_leave(agent, table), BPFAGENT_OK, "leave");
    must(bpfagent_left(agent, table), BPFAGENT_OK, "left");
}

int main(int count, char **words)
{
    static uint64_t values[KEYS + 1];
    uint8_t code[4096];
    bpfagent agent = BPFAGENT_INIT;
    struct procedure p = { .agent = &agent };
    uint32_t table;
    if (count != 3) {
        fprintf(stderr, "use: requests table.code SLOT\n");
        return 2;
    }
    size_t length = code_of(words[1], code, sizeof code);
    must(bpfagent_new(&agent, 1 << 20), BPFAGENT_OK, "new");
    must(bpfagent_make(&agent, PLACES * 16, &table), BPFAGENT_OK, "make");
    begin(&p, code, length, (uint32_t)strtoul(words[2], NULL, 10), table);
    for (uint64_t key = 1; key <= KEYS; key++)
        must(ask(&p, PUT, key, values[key] = 2 * key) == 0, 1, "what was there before");
    send_away(&agent, table);
    double since = now();
    for (uint64_t k = 0; k < REQUESTS; k++) {
        uint64_t key = (k * 0x9e3779b97f4a7c15 >> 32) % KEYS + 1, is_added = k % 10 == 9;
        values[key] += is_added;
        must(ask(&p, is_added ? ADD : GET, key, 1) == values[key], 1, "a value");
    }
    printf("%d requests by one machine, %.0f ns each\n", REQUESTS, (now() - since) / REQUESTS);
    bpfagent_delete(&agent);
    return 0;
}
