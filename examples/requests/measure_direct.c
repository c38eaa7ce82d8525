/* Sends the requests of a task to a program in this process, by the library for C, and tells how long they took:
   measure_direct FOLDER CODE SLOT NAME FIRST SIZE COUNT OBJECT

   FOLDER has the objects, each in a file of its number. The request lies in object 1. */
#define _XOPEN_SOURCE 700
#include "../embed/common.h"
#include "bpfagent_request.h"
#include "measure.h"
#include <time.h>

static bpfagent agent = BPFAGENT_INIT;
static size_t machine;
static struct request request;

static double now(void)
{
    struct timespec t;
    clock_gettime(CLOCK_MONOTONIC, &t);
    return (double)t.tv_sec + (double)t.tv_nsec * 1e-9;
}

static uint64_t answer(const uint64_t *arguments)
{
    bpfagent_end end;
    memcpy(request.arguments, arguments, sizeof request.arguments);
    request.number++;
    must(bpfagent_put(&agent, 1, 0, (const uint8_t *)&request, REQUEST_BYTES), BPFAGENT_OK, "put");
    must(bpfagent_resume(&agent, machine), BPFAGENT_OK, "resume");
    must(bpfagent_run(&agent, machine, UINT64_MAX, &end), BPFAGENT_PAUSED, "run");
    must(bpfagent_get(&agent, 1, REQUEST_BYTES, (uint8_t *)&request.answered, ANSWER_BYTES), BPFAGENT_OK, "get");
    must(request.answered == request.number && request.status == 0, 1, "the answer");
    return request.result;
}

int main(int count, char **words)
{
    static uint8_t bytes[OBJECT_BYTES];
    bpfagent_refusal refusal;
    bpfagent_end end;
    if (count != 9)
        return 2;
    must(bpfagent_new(&agent, 1u << 26), BPFAGENT_OK, "new");
    for (unsigned number = 1;; number++) {
        char path[512];
        uint32_t made;
        snprintf(path, sizeof path, "%s/%u", words[1], number);
        FILE *file = fopen(path, "rb");
        if (!file)
            break;
        size_t length = fread(bytes, 1, sizeof bytes, file);
        fclose(file);
        must(bpfagent_make(&agent, length, &made), BPFAGENT_OK, "make");
        must(bpfagent_put(&agent, made, 0, bytes, length), BPFAGENT_OK, "put");
    }
    size_t length = code_of(words[2], bytes, sizeof bytes);
    uint64_t object = strtoull(words[8], NULL, 10) << 32;
    must(bpfagent_ship(&agent, bytes, length, UINT64_MAX, bpfagent_address(1, 0), object, 0, 0, 0, &machine, &refusal), BPFAGENT_OK, "ship");
    must(bpfagent_break(&agent, machine, (uint32_t)atoi(words[3])), BPFAGENT_OK, "break");
    must(bpfagent_run(&agent, machine, 10000, &end), BPFAGENT_PAUSED, "run");
    struct task task = { words[4], strtoull(words[5], NULL, 0), strtoull(words[6], NULL, 0) };
    time_all(&task, strtoull(words[7], NULL, 10), now, answer);
    bpfagent_delete(&agent);
    return 0;
}
