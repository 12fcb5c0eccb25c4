/* DPDK's librte_bpf: its load validates a program and translates it to machine code. */
#include "engine.h"
#ifdef WITH_DPDK
#include <rte_bpf.h>
#include <rte_log.h>

static const char *absent(void) { return NULL; }

static void begin(const struct program *program) {
    (void)program;
    rte_log_set_global_level(RTE_LOG_EMERG);
}

static void end(void) {}

static void *load(const struct program *program) {
    struct rte_bpf_prm prm = {.ins = (const struct ebpf_insn *)program->bytes, .nb_ins = program->length / 8};
    prm.prog_arg.type = RTE_BPF_ARG_PTR;
    prm.prog_arg.size = CONTEXT;
    return rte_bpf_load(&prm);
}

static void unload(void *loaded) { rte_bpf_destroy(loaded); }

static uint64_t interpret(void *loaded, const struct program *program, unsigned times) {
    uint64_t r0 = 0;
    while (times--) r0 = rte_bpf_exec(loaded, program->context);
    return r0;
}

/* What is accepted and has machine code. */
static void *translate(const struct program *program) {
    struct rte_bpf_jit jit;
    void *loaded = load(program);
    if (loaded && (rte_bpf_get_jit(loaded, &jit) || !jit.func)) return rte_bpf_destroy(loaded), NULL;
    return loaded;
}

static uint64_t jump(void *loaded, const struct program *program, unsigned times) {
    struct rte_bpf_jit jit;
    uint64_t r0 = 0;
    rte_bpf_get_jit(loaded, &jit);
    while (times--) r0 = jit.func(program->context);
    return r0;
}
#else
static const char *absent(void) { return "librte_bpf is not installed (Debian: libdpdk-dev)"; }
#define begin 0
#define end 0
#define load 0
#define unload 0
#define interpret 0
#define translate 0
#define jump 0
#endif

const struct engine dpdk_engine = {"dpdk", absent, begin, end, load, unload, interpret, NULL, NULL, 0};
const struct engine dpdk_jit_engine = {"dpdk-jit", absent, begin, end, translate, unload, jump, NULL, NULL, 1};
