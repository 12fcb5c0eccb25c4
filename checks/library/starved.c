/* Each request for memory is refused in turn. Link with -Wl,--wrap=malloc,--wrap=realloc,--wrap=free.
 *
 * A refused request gives status 3, with nothing written, or is done without: then all is as if it had been granted.
 * Bytes that spell no program are told so, whichever is refused. No block stays behind. */
#include <byzlab_sandbox.h>
#include <stdio.h>
#include <string.h>

void *__real_malloc(size_t);
void *__real_realloc(void *, size_t);
void __real_free(void *);

/* How many requests there were, which one is refused, and how many blocks are held. */
static long requests, refused, held;

void *__wrap_malloc(size_t size) {
    void *block = requests++ == refused ? NULL : __real_malloc(size);
    held += block != NULL;
    return block;
}

void *__wrap_realloc(void *before, size_t size) {
    void *block = requests++ == refused ? NULL : __real_realloc(before, size);
    held += block != NULL && before == NULL;
    return block;
}

void __wrap_free(void *block) {
    held -= block != NULL;
    __real_free(block);
}

/* r0 = board_add(3, 5), with a jump that is taken or not; exit */
static const uint8_t program[56] = {
    0x71, 0x16, 0, 0, 0, 0, 0, 0, 0xb7, 1, 0, 0, 3, 0, 0, 0, 0xb7, 2, 0, 0, 5, 0, 0, 0, 0x25, 0x06, 1, 0, 9, 0, 0, 0,
    0x07, 2,    0, 0, 1, 0, 0, 0, 0x85, 0, 0, 0, 3, 0, 0, 0, 0x95,
};
static const uint8_t unset[16] = {0xbf, 0x20, 0, 0, 0, 0, 0, 0, 0x95};
/* board_swap(0, 5); board_copy(0, r10 - 8, 1); r0 = 0; exit */
static const uint8_t copies[72] = {
    0xb7, 1, 0,    0, 0, 0, 0, 0, 0xb7, 2, 0, 0, 5,    0,    0,    0,    0x85, 0, 0, 0, 2, 0, 0, 0,
    0xb7, 1, 0,    0, 0, 0, 0, 0, 0xbf, 0xa2, 0, 0, 0, 0,    0,    0,    0x07, 2, 0, 0, 0xf8, 0xff, 0xff, 0xff,
    0xb7, 3, 0,    0, 1, 0, 0, 0, 0x85, 0, 0, 0, 5,    0,    0,    0,    0x95,
};
static const uint8_t misspelt[16] = {0xb7, 0, 0, 0, 0, 0, 0, 0, 0xff};
static const uint8_t contexts[3 * 4096] = {[0] = 9, [4096] = 10};

/* All that a call may write. */
struct written {
    struct byzlab_fault fault;
    struct byzlab_outcome outcomes[3];
    uint64_t board[BYZLAB_BOARD_WORDS];
    size_t needed;
    char text[4096];
};

/* The first status above 0 of loading a program over another and running it twice. All is given back by unloading. */
static uint32_t loaded(const uint8_t *bytes, size_t length, struct written *all) {
    struct byzlab_program one = {0};
    uint32_t status = byzlab_load(program, 56, BYZLAB_BOARD_HELPERS, &one, &all->fault);
    if (!status) status = byzlab_load(bytes, length, BYZLAB_BOARD_HELPERS, &one, &all->fault);
    for (int i = 0; i < 2 && !status; i++) {
        struct written before = *all;
        status = byzlab_run_loaded(&one, contexts, 1, all->board, all->outcomes);
        if (status && memcmp(&before, all, sizeof before)) status = 99;
        if (status) memset(all, '#', sizeof *all);
    }
    byzlab_unload(&one);
    return status;
}

static uint32_t call(int which, struct written *all) {
    struct byzlab_fault *fault = &all->fault;
    switch (which) {
    case 0: return byzlab_verify(program, 56, fault);
    case 1: return byzlab_run(program, 56, contexts, 4096, all->board, fault, all->outcomes);
    case 2: return byzlab_run_many(program, 56, contexts, sizeof contexts, fault, all->outcomes, 3);
    case 3: return byzlab_explain(program, 56, all->text, sizeof all->text, &all->needed, fault);
    case 4: return byzlab_explain(unset, 16, all->text, sizeof all->text, &all->needed, fault);
    case 5: return byzlab_disassemble(program, 56, all->text, sizeof all->text, &all->needed, fault);
    case 6: return byzlab_verify(unset, 16, fault);
    case 7: return byzlab_verify(misspelt, 16, fault);
    case 8: return loaded(program, 56, all);
    case 9: return loaded(copies, 72, all);
    default: return byzlab_disassemble(misspelt, 16, all->text, sizeof all->text, &all->needed, fault);
    }
}

/* Status of a call of which so many requests are granted before one is refused, and what is written. */
static uint32_t asked(int which, long granted, struct written *all) {
    memset(all, '#', sizeof *all);
    refused = granted;
    requests = held = 0;
    uint32_t status = call(which, all);
    refused = -1;
    return status;
}

/* Whether nothing is written; of run_many the first outcomes may be. */
static int is_untouched(int which, const struct written *all) {
    static struct written none;
    memset(&none, '#', sizeof none);
    if (which == 2) memcpy(none.outcomes, all->outcomes, sizeof none.outcomes);
    return !memcmp(all, &none, sizeof none);
}

int main(void) {
    static const char *const names[] = {
        "byzlab_verify",           "byzlab_run",         "byzlab_run_many",        "byzlab_explain",
        "byzlab_explain, refused", "byzlab_disassemble", "byzlab_verify, refused",
        "byzlab_verify, misspelt", "byzlab_run_loaded",  "byzlab_run_loaded, a copy", "byzlab_disassemble, misspelt",
    };
    static const uint32_t wanted[] = {0, 0, 0, 0, 2, 0, 2, 1, 0, 0, 1};
    static struct written full, all;
    int wrong = 0;
    for (int which = 0; which < 11; which++) {
        uint32_t last = asked(which, -1, &full);
        long count = requests, without = 0;
        wrong += last != wanted[which] || count == 0 || held != 0;
        for (long granted = 0; granted < count; granted++) {
            uint32_t status = asked(which, granted, &all);
            int is_done = status == last && !memcmp(&all, &full, sizeof all);
            int may_want = status == BYZLAB_MEMORY && last != BYZLAB_MISSPELT;
            wrong += held != 0 || !(is_done || (may_want && is_untouched(which, &all)));
            without += is_done;
        }
        printf("%s: %ld requests, status 3 at %ld", names[which], count, count - without);
        printf(", done without at %ld\n", without);
    }
    printf("%s\n", wrong ? "wrong" : "nothing written at 3, each block given back");
    return wrong != 0;
}
