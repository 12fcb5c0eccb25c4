/* Loads the program on standard input, and runs it on each argument, with one board. */
#include <byzlab_sandbox.h>
#include <stdio.h>
#include <string.h>

int main(int count, char **words) {
    static uint8_t program[BYZLAB_MOST_BYTES + 8];
    static uint64_t board[BYZLAB_BOARD_WORDS];
    struct byzlab_program loaded = {0};
    struct byzlab_fault fault = {0};
    size_t length = fread(program, 1, sizeof program, stdin);
    uint32_t status = byzlab_load(program, length, BYZLAB_BOARD_HELPERS, &loaded, &fault);
    for (int i = 1; !status && i < count; i++) {
        struct byzlab_outcome outcome;
        status = byzlab_run_loaded(&loaded, (const uint8_t *)words[i], strlen(words[i]), board, &outcome);
        if (!status) printf("%s: r0 %llu\n", words[i], (unsigned long long)outcome.r0);
    }
    byzlab_unload(&loaded);
    if (status) {
        char text[128] = {0};
        size_t needed;
        byzlab_message(status, fault.number, text, sizeof text - 1, &needed);
        printf("%s (fault %u, unit %zu)\n", text, fault.number, fault.unit);
    }
    return (int)status;
}
