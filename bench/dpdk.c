/* DPDK's interpreter in the place of bench/flat.c, for programs without a loop: its validator takes no other. With -DDPDK_JIT its
   compiler. A program's last slot, which jumps back to the start, is its end here, and it is run again. DPDK proves before that all
   accesses are in the object or the stack. So it tests no bounds as it runs, and counts no fuel. */
#include "flat.h"
#include <rte_bpf.h>
#include <rte_errno.h>
#include <stdio.h>
#include <stdlib.h>
#include <string.h>

#define OBJECT_BYTES 65536

/* What stands in the place of a program's instructions. */
struct loaded {
    const struct rte_bpf *bpf;
    uint64_t slots;
};

void flat_decode(struct flat_instr *code, const uint8_t *bytes, size_t slots)
{
    static const struct ebpf_insn end = { .code = BPF_JMP | EBPF_EXIT };
    struct ebpf_insn *copy = malloc(slots * sizeof *copy);
    if (!copy) abort();
    memcpy(copy, bytes, slots * sizeof *copy);
    copy[slots - 1] = end;
    struct rte_bpf_prm parameters = { .ins = copy, .nb_ins = (uint32_t)slots, .prog_arg = { .type = RTE_BPF_ARG_PTR, .size = OBJECT_BYTES } };
    struct loaded l = { rte_bpf_load(&parameters), slots };
    free(copy);
    if (!l.bpf) {
        fprintf(stderr, "DPDK refuses a program: %s\n", rte_strerror(rte_errno));
        exit(1);
    }
    memcpy(code, &l, sizeof l);
}

void flat_start(struct flat_machine *m, const struct flat_instr *code, uint64_t fuel, uint64_t argument)
{
    memset(m, 0, sizeof *m);
    m->code = code;
    m->fuel = fuel;
    m->registers[1] = argument;
}

/* Runs the program as often as there is fuel for all of it. */
enum flat_stop flat_run(struct flat_machine *m)
{
    struct loaded l;
    memcpy(&l, m->code, sizeof l);
#ifdef DPDK_JIT
    struct rte_bpf_jit jit;
    if (rte_bpf_get_jit(l.bpf, &jit) || !jit.func) {
        fprintf(stderr, "DPDK compiles no program here\n");
        exit(1);
    }
    for (; m->fuel >= l.slots; m->fuel -= l.slots) m->registers[0] = jit.func(m->table[2].bytes);
#else
    for (; m->fuel >= l.slots; m->fuel -= l.slots) m->registers[0] = rte_bpf_exec(l.bpf, m->table[2].bytes);
#endif
    return FLAT_SPENT;
}
