/*
 * The kernel's verifier, by bpf(): programs of the type that is run by a system call, whose context is 4,096 bytes.
 * `linux` loads with CAP_BPF alone, as a sandbox that does not trust its programs; `linux-perfmon` with CAP_PERFMON
 * too, by which the kernel lets a program read stack that nothing has written, and does not look at what a processor
 * guesses.
 */
#include "engine.h"
#include <linux/bpf.h>
#include <linux/capability.h>
#include <errno.h>
#include <string.h>
#include <sys/syscall.h>
#include <unistd.h>

#define CAP_OF(number) (1ull << (number))

static struct __user_cap_header_struct head = {_LINUX_CAPABILITY_VERSION_3, 0};
static struct __user_cap_data_struct all[2];
static int is_known;

/* Keeps only these of the capabilities in effect; what was there before comes back with `end`. */
static void keep(uint64_t mask) {
    struct __user_cap_data_struct some[2];
    if (!is_known) syscall(SYS_capget, &head, all);
    is_known = 1;
    memcpy(some, all, sizeof some);
    some[0].effective &= (uint32_t)mask;
    some[1].effective &= (uint32_t)(mask >> 32);
    syscall(SYS_capset, &head, some);
}

static void begin(const struct program *program) {
    (void)program;
    keep(CAP_OF(39));
}

static void begin_lenient(const struct program *program) {
    (void)program;
    keep(CAP_OF(38) | CAP_OF(39));
}

static void end(void) { syscall(SYS_capset, &head, all); }

static long load_bytes(const uint8_t *bytes, size_t length) {
    union bpf_attr attr;
    memset(&attr, 0, sizeof attr);
    attr.prog_type = BPF_PROG_TYPE_SYSCALL;
    attr.prog_flags = BPF_F_SLEEPABLE;
    attr.insns = (uintptr_t)bytes;
    attr.insn_cnt = length / 8;
    attr.license = (uintptr_t)"GPL";
    return syscall(SYS_bpf, BPF_PROG_LOAD, &attr, sizeof attr);
}

static void *load(const struct program *program) {
    long file = load_bytes(program->bytes, program->length);
    return file < 0 ? NULL : (void *)(file + 1);
}

static void unload(void *loaded) { close((int)(intptr_t)loaded - 1); }

/* A system call for each run, which gives the low 32 bits of r0. */
static uint64_t run(void *loaded, const struct program *program, unsigned times) {
    union bpf_attr attr;
    memset(&attr, 0, sizeof attr);
    attr.test.prog_fd = (int)(intptr_t)loaded - 1;
    attr.test.ctx_in = (uintptr_t)program->context;
    attr.test.ctx_size_in = CONTEXT;
    while (times--)
        if (syscall(SYS_bpf, BPF_PROG_TEST_RUN, &attr, sizeof attr)) _exit(9);
    return attr.test.retval;
}

static const char *absent(void) {
    static const uint8_t least[16] = {0xb7, 0, 0, 0, 0, 0, 0, 0, 0x95};
    begin(NULL);
    long file = load_bytes(least, sizeof least);
    int why = errno;
    end();
    if (file >= 0) close((int)file);
    return file >= 0 ? NULL : why == EPERM ? "bpf() is not allowed" : strerror(why);
}

const struct engine linux_engine = {"linux", absent, begin, end, load, unload, run, NULL, NULL, 0};
const struct engine linux_lenient_engine = {
    "linux-perfmon", absent, begin_lenient, end, load, unload, run, NULL, NULL, 0,
};
