/*
 * Does one thing so many times, for checks/growth/run, which counts instructions.
 *
 *     growth verify|run|explain FILE TIMES      a program's bytes are verified; a program is run, verified once before; the
 *                                               length of its explanation is asked for
 */
#include <byzlab_sandbox.h>
#include <stdio.h>
#include <stdlib.h>
#include <string.h>

enum { MOST_RUNS = 9 };

static uint8_t program[BYZLAB_MOST_BYTES], contexts[MOST_RUNS * BYZLAB_CONTEXT_BYTES];
static struct byzlab_outcome outcomes[MOST_RUNS];

int main(int count, char **words) {
    struct byzlab_fault fault;
    FILE *file = count == 4 ? fopen(words[2], "rb") : NULL;
    if (!file) return fprintf(stderr, "growth verify|run|explain FILE TIMES\n"), 2;
    size_t length = fread(program, 1, sizeof program, file), times = strtoul(words[3], NULL, 10);
    uint32_t status = 0;
    if (strcmp(words[1], "run") == 0 && times <= MOST_RUNS)
        status = byzlab_run_many(program, length, contexts, times * BYZLAB_CONTEXT_BYTES, &fault, outcomes, times);
    else if (strcmp(words[1], "explain") == 0)
        for (size_t i = 0, needed; i < times; i++) status |= byzlab_explain(program, length, NULL, 0, &needed, &fault);
    else
        for (size_t i = 0; i < times; i++) status |= byzlab_verify(program, length, &fault);
    return (int)status;
}
