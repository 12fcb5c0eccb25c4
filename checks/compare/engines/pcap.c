/* libpcap's classic filters, in user space. */
#include "engine.h"
#ifdef WITH_PCAP
#include <pcap/pcap.h>

static const char *absent(void) { return NULL; }

/* Calls the machine once, so that what the linker looks up at a first call is looked up. */
static void begin(const struct program *program) {
    static const struct bpf_insn least = {BPF_RET | BPF_K, 0, 0, 0};
    bpf_filter(&least, program->context, CONTEXT, CONTEXT);
}

static void end(void) {}

static void *load(const struct program *program) {
    const struct bpf_insn *code = (const struct bpf_insn *)program->classic;
    return bpf_validate(code, (int)(program->classic_length / 8)) ? (void *)code : NULL;
}

static void unload(void *loaded) { (void)loaded; }

/* Leaves marks where the next call has its locals, so that r0 shows what nothing has written. */
static __attribute__((noinline)) void stain(void) {
    volatile unsigned char marks[1024];
    for (unsigned i = 0; i < sizeof marks; i++) marks[i] = 0x5a;
}

static uint64_t run(void *loaded, const struct program *program, unsigned times) {
    uint64_t r0 = 0;
    stain();
    while (times--) r0 = bpf_filter(loaded, program->context, CONTEXT, CONTEXT);
    return r0;
}
#else
static const char *absent(void) { return "libpcap is not installed (Debian: libpcap-dev)"; }
#define begin 0
#define end 0
#define load 0
#define unload 0
#define run 0
#endif

const struct engine pcap_engine = {"pcap", absent, begin, end, load, unload, run, NULL, NULL, 0};
