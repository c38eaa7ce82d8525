/* A program that uses the installed library: it ships one that adds two numbers of an object, and reads the sum. Both C and C++. */
#include <bpfagent.h>
#include <stdio.h>
#include <string.h>

static const char PROGRAM[] = "ldxdw r0, [r1]\n"
                              "ldxdw r2, [r1+8]\n"
                              "add r0, r2\n"
                              "exit\n";

static int fails(const char *what, uint32_t reply)
{
    fprintf(stderr, "%s: %s\n", what, bpfagent_name(reply));
    return 1;
}

int main(void)
{
    bpfagent agent = BPFAGENT_INIT;
    const uint64_t numbers[2] = { 40, 2 };
    uint8_t code[256], bytes[sizeof numbers];
    uint32_t object = 0, reply;
    size_t length = 0, machine = 0;
    bpfagent_wrong_line wrong;
    bpfagent_refusal refusal;
    bpfagent_end end;

    if (bpfagent_version() != BPFAGENT_VERSION) {
        fprintf(stderr, "the header is of version %d, the library of %u\n", BPFAGENT_VERSION, bpfagent_version());
        return 1;
    }
    memcpy(bytes, numbers, sizeof numbers);
    if ((reply = bpfagent_assemble((const uint8_t *)PROGRAM, sizeof PROGRAM - 1, code, sizeof code, &length, &wrong)) != BPFAGENT_OK)
        return fails("assemble", reply);
    if ((reply = bpfagent_new(&agent, 1 << 20)) != BPFAGENT_OK)
        return fails("new", reply);
    if ((reply = bpfagent_make(&agent, sizeof bytes, &object)) != BPFAGENT_OK)
        return fails("make", reply);
    if ((reply = bpfagent_put(&agent, object, 0, bytes, sizeof bytes)) != BPFAGENT_OK)
        return fails("put", reply);
    if ((reply = bpfagent_ship(&agent, code, length, 100, bpfagent_address(object, 0), 0, 0, 0, 0, &machine, &refusal)) != BPFAGENT_OK)
        return fails("ship", reply);
    if ((reply = bpfagent_run(&agent, machine, 100, &end)) != BPFAGENT_STOPPED || end.stop != BPFAGENT_EXIT)
        return fails("run", reply);
    bpfagent_delete(&agent);
    printf("%s: %d\n", BPFAGENT_VERSION_TEXT, (int)end.value);
    return end.value != 42;
}
