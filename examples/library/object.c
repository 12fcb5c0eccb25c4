/* Runs a function of an ELF object: object FILE.o [FUNCTION] */
#include <byzlab_sandbox.h>
#include <stdio.h>
#include <string.h>

int main(int count, char **words) {
    static uint8_t object[1 << 20], program[BYZLAB_MOST_BYTES];
    static uint64_t board[BYZLAB_BOARD_WORDS];
    struct byzlab_program loaded = {0};
    struct byzlab_fault fault = {0};
    struct byzlab_outcome outcome = {0};
    FILE *file = count > 1 ? fopen(words[1], "rb") : NULL;
    const char *entry = count > 2 ? words[2] : "";
    if (!file) return 99;
    size_t length = fread(object, 1, sizeof object, file), needed = 0;
    fclose(file);
    uint32_t status = byzlab_object(object, length, entry, strlen(entry), program, sizeof program, &needed, &fault);
    if (!status) status = byzlab_load(program, needed, BYZLAB_BOARD_HELPERS, &loaded, &fault);
    if (!status) status = byzlab_run_loaded(&loaded, NULL, 0, board, &outcome);
    byzlab_unload(&loaded);
    if (status) printf("status %u number %u unit %zu\n", status, fault.number, fault.unit);
    else printf("r0 %llu\n", (unsigned long long)outcome.r0);
    return (int)status;
}
