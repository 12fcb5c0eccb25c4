/* What calls cost, in processor time: the least of rounds. */
#define _POSIX_C_SOURCE 200809L
#include <byzlab_sandbox.h>
#include <stdio.h>
#include <stdlib.h>
#include <string.h>
#include <time.h>

enum { ROUNDS = 40, CALLS = 5000, CONTEXTS = 1000 };

static double now(void) {
    struct timespec t;
    clock_gettime(CLOCK_PROCESS_CPUTIME_ID, &t);
    return (double)t.tv_sec * 1e6 + (double)t.tv_nsec / 1e3;
}

static void put(uint8_t *at, uint8_t opcode, uint8_t registers, int16_t offset, int32_t immediate) {
    at[0] = opcode;
    at[1] = registers;
    memcpy(at + 2, &offset, 2);
    memcpy(at + 4, &immediate, 4);
}

/* 64 instructions: sums, loads and stores of the stack, and a branch forward in each sixth. */
static void mixed(uint8_t *p) {
    int n = 0;
    put(p + 8 * n++, 0x79, 0x16, 0, 0);
    put(p + 8 * n++, 0xb7, 0x00, 0, 1);
    while (n + 6 <= 62) {
        put(p + 8 * n++, 0x7b, 0x6a, -8, 0);
        put(p + 8 * n, 0x25, 0x06, 2, n);
        n++;
        put(p + 8 * n++, 0x07, 0x00, 0, 3);
        put(p + 8 * n++, 0x57, 0x06, 0, 255);
        put(p + 8 * n++, 0x79, 0xa7, -8, 0);
        put(p + 8 * n++, 0x0f, 0x70, 0, 0);
    }
    while (n < 63) put(p + 8 * n++, 0x07, 0x00, 0, 1);
    put(p + 8 * n, 0x95, 0, 0, 0);
}

/* 64 instructions on one way: moves and sums. */
static void straight(uint8_t *p) {
    put(p, 0xb7, 0x00, 0, 1);
    for (int n = 1; n < 63; n++) put(p + 8 * n, n % 2 ? 0x07 : 0xb7, 0x00, 0, n);
    put(p + 8 * 63, 0x95, 0, 0, 0);
}

static void verify(const char *what, const uint8_t *p) {
    struct byzlab_fault fault;
    double least = 1e9;
    uint32_t all = 0;
    for (int round = 0; round < ROUNDS; round++) {
        double begun = now();
        for (int i = 0; i < CALLS; i++) all |= byzlab_verify(p, 512, &fault);
        double spent = now() - begun;
        if (spent < least) least = spent;
    }
    printf("byzlab_verify, 64 instructions, %-9s %.2f us%s\n", what, least / CALLS, all ? " (refused)" : "");
}

static void run_many(const char *what, const uint8_t *p) {
    static uint8_t contexts[CONTEXTS * 4096];
    static struct byzlab_outcome outcomes[CONTEXTS];
    struct byzlab_fault fault;
    double least = 1e9;
    uint32_t all = 0;
    for (int i = 0; i < CONTEXTS; i++) contexts[4096 * i] = (uint8_t)i;
    for (int round = 0; round < 5 * ROUNDS; round++) {
        double begun = now();
        all |= byzlab_run_many(p, 512, contexts, sizeof contexts, &fault, outcomes, CONTEXTS);
        double spent = now() - begun;
        if (spent < least) least = spent;
    }
    printf("a run in byzlab_run_many, the %-10s %.2f us, %u steps%s\n", what, least / CONTEXTS, outcomes[0].steps,
           all ? " (refused)" : "");
}

static void run_loaded(const char *what, const uint8_t *p, size_t length, size_t context_length) {
    static uint8_t context[4096];
    static uint64_t board[BYZLAB_BOARD_WORDS];
    struct byzlab_program loaded = {0};
    struct byzlab_outcome outcome = {0};
    struct byzlab_fault fault;
    double least = 1e9;
    uint32_t all = byzlab_load(p, length, BYZLAB_BOARD_HELPERS, &loaded, &fault);
    for (int round = 0; round < 5 * ROUNDS; round++) {
        double begun = now();
        for (int i = 0; i < CALLS; i++) all |= byzlab_run_loaded(&loaded, context, context_length, board, &outcome);
        double spent = now() - begun;
        if (spent < least) least = spent;
    }
    byzlab_unload(&loaded);
    printf("byzlab_run_loaded, %-9s context of %4zu: %.3f us, %u steps%s\n", what, context_length, least / CALLS,
           outcome.steps, all ? " (refused)" : "");
}

int main(void) {
    static const uint8_t answer[16] = {0xb7, 0, 0, 0, 42, 0, 0, 0, 0x95};
    static uint8_t p[512], q[512];
    mixed(p);
    straight(q);
    verify("mixed", p);
    verify("straight", q);
    run_many("mixed", p);
    run_many("straight", q);
    run_loaded("42", answer, 16, 4096);
    run_loaded("42", answer, 16, 64);
    run_loaded("mixed", p, 512, 4096);
    run_loaded("straight", q, 512, 4096);
    return 0;
}
