/* A first call: a program of two instructions is verified and run. */
#include <byzlab_sandbox.h>
#include <stdio.h>

int main(void) {
    static const uint8_t program[16] = {0xb7, 0, 0, 0, 42, 0, 0, 0, 0x95}; /* mov r0, 42; exit */
    static uint8_t context[BYZLAB_CONTEXT_BYTES];
    uint64_t board[BYZLAB_BOARD_WORDS] = {0};
    struct byzlab_fault fault;
    struct byzlab_outcome outcome;
    uint32_t status = byzlab_run(program, sizeof program, context, sizeof context, board, &fault, &outcome);
    if (status == BYZLAB_DONE) printf("r0 %llu steps %u\n", (unsigned long long)outcome.r0, outcome.steps);
    return (int)status;
}
