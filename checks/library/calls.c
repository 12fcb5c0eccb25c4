/* Each function and each status once, with the values that are wanted, and what is not to be written; by as many
 * threads at once as the first word says. The second word is the path of crates/rows/data/several.o. */
#include <byzlab_sandbox.h>
#include <pthread.h>
#include <stdatomic.h>
#include <stdio.h>
#include <stdlib.h>
#include <string.h>

static atomic_int wrong;
#define WANT(what) ((what) ? (void)0 : missed(__LINE__, #what))

static void missed(int line, const char *what) {
    wrong++;
    printf("line %d: %s\n", line, what);
}

/* An instruction: its opcode, its registers, and the low bytes of its offset and its immediate. */
#define UNIT(opcode, registers, offset, immediate) opcode, registers, offset, 0, immediate, 0, 0, 0
#define EXIT UNIT(0x95, 0, 0, 0)

static const uint8_t answer[16] = {UNIT(0xb7, 0, 0, 42), EXIT};
static const uint8_t unset[16] = {UNIT(0xbf, 0x20, 0, 0), EXIT}; /* r0 = r2, which nothing has set */

/* A block of its own for each call, so that what is read or written past its end is seen. */
static void *copied(const void *bytes, size_t length) {
    void *block = malloc(length ? length : 1);
    if (!block) exit(2);
    return memcpy(block, bytes, length);
}

/* Status, number and unit of byzlab_verify, which writes the fault at 1 and 2 alone. */
static void verified(const uint8_t *bytes, size_t length, uint32_t status, uint32_t number, size_t unit) {
    struct byzlab_fault fault = {777, 888};
    uint8_t *program = copied(bytes, length);
    uint32_t got = byzlab_verify(program, length, &fault);
    int is_told = status == BYZLAB_MISSPELT || status == BYZLAB_REFUSED;
    WANT(got == status);
    WANT(fault.number == (is_told ? number : 777));
    WANT(fault.unit == (is_told ? unit : 888));
    free(program);
}

#define VERIFIED(status, number, unit, ...) \
    verified((const uint8_t[]){__VA_ARGS__}, sizeof((const uint8_t[]){__VA_ARGS__}), status, number, unit)

static void misspelt(void) {
    static uint8_t long_one[BYZLAB_MOST_BYTES + 8];
    verified(answer, 16, BYZLAB_DONE, 0, 0);
    verified(answer, 15, BYZLAB_MISSPELT, BYZLAB_C1_LENGTH, 1);
    VERIFIED(BYZLAB_MISSPELT, BYZLAB_C2_OPCODE, 0, UNIT(0xff, 0, 0, 42), EXIT);
    VERIFIED(BYZLAB_MISSPELT, BYZLAB_C3_RESERVED, 1, UNIT(0xb7, 0, 0, 42), UNIT(0x95, 0, 1, 0));
    VERIFIED(BYZLAB_MISSPELT, BYZLAB_C4_WIDE_CUT, 0, UNIT(0x18, 0, 0, 42));
    VERIFIED(BYZLAB_MISSPELT, BYZLAB_C5_REGISTER, 0, UNIT(0xb7, 11, 0, 42), EXIT);
    VERIFIED(BYZLAB_MISSPELT, BYZLAB_C6_LEFT_OUT, 0, UNIT(0xdb, 0, 0, 42), EXIT); /* an atomic */
    VERIFIED(BYZLAB_MISSPELT, BYZLAB_C7_OPERAND, 0, UNIT(0xbf, 0x10, 3, 0), EXIT); /* a move that extends 3 bits */
    verified(answer, 0, BYZLAB_MISSPELT, BYZLAB_C8_COUNT, 0);
    verified(long_one, sizeof long_one, BYZLAB_MISSPELT, BYZLAB_C8_COUNT, 0);
}

static void refused(void) {
    VERIFIED(BYZLAB_REFUSED, BYZLAB_V1_BACK_JUMP, 0, 0x05, 0, 0xff, 0xff, 0, 0, 0, 0, EXIT);
    VERIFIED(BYZLAB_REFUSED, BYZLAB_V2_JUMP_OUT, 0, UNIT(0x05, 0, 9, 0), EXIT);
    VERIFIED(BYZLAB_REFUSED, BYZLAB_V3_JUMP_IN_WIDE, 0, UNIT(0x05, 0, 1, 0), UNIT(0x18, 0, 0, 0), UNIT(0, 0, 0, 0),
             EXIT);
    VERIFIED(BYZLAB_REFUSED, BYZLAB_V4_LAST_NOT_EXIT, 0, UNIT(0xb7, 0, 0, 42));
    verified(unset, 16, BYZLAB_REFUSED, BYZLAB_V5_UNSET, 0);
    VERIFIED(BYZLAB_REFUSED, BYZLAB_V6_FRAME_WRITE, 0, UNIT(0xb7, 10, 0, 0), EXIT);
    VERIFIED(BYZLAB_REFUSED, BYZLAB_V7_POINTER_USE, 0, UNIT(0x27, 1, 0, 2), EXIT);
    VERIFIED(BYZLAB_REFUSED, BYZLAB_V8_BOUNDS, 0, 0x79, 0x10, 0xf9, 0x0f, 0, 0, 0, 0, EXIT); /* 8 bytes at 4,089 */
    VERIFIED(BYZLAB_DONE, 0, 0, 0x79, 0x10, 0xf8, 0x0f, 0, 0, 0, 0, EXIT);                   /* 8 bytes at 4,088 */
    VERIFIED(BYZLAB_REFUSED, BYZLAB_V9_STACK_UNSET, 0, 0x79, 0xa0, 0xf8, 0xff, 0, 0, 0, 0, EXIT);
    VERIFIED(BYZLAB_REFUSED, BYZLAB_V10_CONTEXT_WRITE, 0, UNIT(0x72, 1, 0, 0), EXIT);
    VERIFIED(BYZLAB_REFUSED, BYZLAB_V11_HELPER, 0, UNIT(0x85, 0, 0, 99), EXIT);
    VERIFIED(BYZLAB_REFUSED, BYZLAB_V12_ARGUMENT, 1, UNIT(0xb7, 1, 0, 64), UNIT(0x85, 0, 0, 1), EXIT);
    VERIFIED(BYZLAB_REFUSED, BYZLAB_V13_EXIT_POINTER, 1, UNIT(0xbf, 0x10, 0, 0), EXIT);
}

/* r7 = the context; r0 = board_add(3, 5); r6 = the context's first byte; r0 += r6; exit */
static const uint8_t adds[56] = {
    UNIT(0xbf, 0x17, 0, 0), UNIT(0xb7, 1, 0, 3),    UNIT(0xb7, 2, 0, 5), UNIT(0x85, 0, 0, 3),
    UNIT(0x71, 0x76, 0, 0), UNIT(0x0f, 0x60, 0, 0), EXIT,
};

static void run_once(void) {
    uint8_t *program = copied(adds, 56), context[BYZLAB_CONTEXT_BYTES] = {9}, *lent = copied(context, sizeof context);
    uint64_t words[BYZLAB_BOARD_WORDS] = {[3] = 1000, [63] = UINT64_MAX}, *board = copied(words, sizeof words);
    struct byzlab_fault fault = {777, 888};
    struct byzlab_outcome outcome = {111, 222};
    WANT(byzlab_run(program, 56, lent, 4096, board, &fault, &outcome) == BYZLAB_DONE);
    WANT(outcome.r0 == 1009 && outcome.steps == 7 && board[3] == 1005 && board[63] == UINT64_MAX && board[0] == 0);
    WANT(byzlab_run(program, 56, lent, 4096, board, &fault, &outcome) == BYZLAB_DONE);
    WANT(outcome.r0 == 1014 && board[3] == 1010 && fault.number == 777 && fault.unit == 888);
    outcome.r0 = 111;
    WANT(byzlab_run(program, 56, lent, 4095, board, &fault, &outcome) == BYZLAB_LENGTH);
    WANT(byzlab_run(program, 56, lent, 0, board, &fault, &outcome) == BYZLAB_LENGTH);
    WANT(fault.number == 777 && fault.unit == 888);
    WANT(byzlab_run(program, 48, lent, 4096, board, &fault, &outcome) == BYZLAB_REFUSED);
    WANT(outcome.r0 == 111 && board[3] == 1010 && fault.number == BYZLAB_V4_LAST_NOT_EXIT && fault.unit == 5);
    WANT(byzlab_run(program, 55, lent, 4096, board, &fault, &outcome) == BYZLAB_MISSPELT && fault.unit == 6);
    WANT(outcome.r0 == 111 && board[3] == 1010 && !memcmp(lent, context, sizeof context));
    free(program);
    free(lent);
    free(board);
}

/* board_swap(0, 5); board_cas(0, 5, 9); board_copy(60, r10 - 32, 4); r6 = word 63; r0 = board_get(0); r0 += r6; exit */
static const uint8_t exchanges[] = {
    UNIT(0xb7, 1, 0, 0),  UNIT(0xb7, 2, 0, 5),    UNIT(0x85, 0, 0, 2), UNIT(0xb7, 1, 0, 0),
    UNIT(0xb7, 2, 0, 5),  UNIT(0xb7, 3, 0, 9),    UNIT(0x85, 0, 0, 4), UNIT(0xb7, 1, 0, 60),
    UNIT(0xbf, 0xa2, 0, 0), 0x07, 2, 0, 0, 0xe0, 0xff, 0xff, 0xff, UNIT(0xb7, 3, 0, 4), UNIT(0x85, 0, 0, 5),
    0x79, 0xa6, 0xf8, 0xff, 0, 0, 0, 0, UNIT(0xb7, 1, 0, 0), UNIT(0x85, 0, 0, 1), UNIT(0x0f, 0x60, 0, 0), EXIT,
};

static void exchange(void) {
    uint8_t context[BYZLAB_CONTEXT_BYTES] = {0};
    uint64_t board[BYZLAB_BOARD_WORDS] = {[0] = 1000, [1] = 2000, [63] = 7};
    struct byzlab_fault fault = {777, 888};
    struct byzlab_outcome outcome = {111, 222};
    WANT(byzlab_run(exchanges, sizeof exchanges, context, 4096, board, &fault, &outcome) == BYZLAB_DONE);
    WANT(outcome.r0 == 16 && outcome.steps == 17 && board[0] == 9 && board[1] == 2000 && board[63] == 7);
}

static void run_many(void) {
    uint8_t *program = copied(adds, 56), *contexts = calloc(3, BYZLAB_CONTEXT_BYTES);
    struct byzlab_outcome none[3] = {{111, 222}, {111, 222}, {111, 222}}, *outcomes = copied(none, sizeof none);
    struct byzlab_fault fault = {777, 888};
    if (!contexts) exit(2);
    contexts[0] = 9;
    contexts[4096] = 200;
    WANT(byzlab_run_many(program, 56, contexts, 3 * 4096, &fault, outcomes, 2) == BYZLAB_LENGTH);
    WANT(byzlab_run_many(program, 56, contexts, 3 * 4096 - 1, &fault, outcomes, 3) == BYZLAB_LENGTH);
    WANT(byzlab_run_many(program, 56, contexts, 0, &fault, outcomes, 0) == BYZLAB_DONE && fault.number == 777);
    WANT(outcomes[0].r0 == 111 && outcomes[2].steps == 222);
    WANT(byzlab_run_many(program, 56, contexts, 3 * 4096, &fault, outcomes, 3) == BYZLAB_DONE);
    WANT(outcomes[0].r0 == 9 && outcomes[1].r0 == 200 && outcomes[2].r0 == 0 && outcomes[2].steps == 7);
    WANT(byzlab_run_many(program, 48, contexts, 0, &fault, outcomes, 0) == BYZLAB_REFUSED && fault.unit == 5);
    WANT(byzlab_run_many(program, 55, contexts, 3 * 4096, &fault, outcomes, 3) == BYZLAB_MISSPELT && fault.unit == 6);
    WANT(outcomes[0].r0 == 9 && outcomes[1].r0 == 200);
    free(program);
    free(contexts);
    free(outcomes);
}

/* r0 = the context's last byte; exit */
static const uint8_t last[16] = {0x71, 0x10, 0xff, 0x0f, 0, 0, 0, 0, EXIT};

/* The status of a run in a context of so many bytes, in a block of its own that holds no more, and what it wrote. */
static uint32_t run_in(struct byzlab_program *loaded, size_t length, uint8_t each, uint64_t *board,
                       struct byzlab_outcome *outcome) {
    uint8_t context[BYZLAB_CONTEXT_BYTES + 1], *lent;
    memset(context, each, sizeof context);
    lent = copied(context, length);
    uint32_t status = byzlab_run_loaded(loaded, lent, length, board, outcome);
    WANT(!memcmp(lent, context, length));
    free(lent);
    return status;
}

static void load(void) {
    uint64_t words[BYZLAB_BOARD_WORDS] = {[3] = 1000, [63] = UINT64_MAX}, *board = copied(words, sizeof words);
    struct byzlab_program loaded = {0};
    struct byzlab_fault fault = {777, 888};
    struct byzlab_outcome outcome = {111, 222};
    WANT(run_in(&loaded, 4096, 9, board, &outcome) == BYZLAB_UNLOADED);
    WANT(run_in(&loaded, 4097, 9, board, &outcome) == BYZLAB_LENGTH);
    byzlab_unload(&loaded);
    WANT(byzlab_load(unset, 16, BYZLAB_NO_HELPERS, &loaded, &fault) == BYZLAB_REFUSED && fault.number == BYZLAB_V5_UNSET && fault.unit == 0);
    WANT(byzlab_load(answer, 15, BYZLAB_NO_HELPERS, &loaded, &fault) == BYZLAB_MISSPELT && fault.number == 1 && fault.unit == 1);
    WANT(!loaded.full && !loaded.at && outcome.r0 == 111 && outcome.steps == 222 && board[3] == 1000);
    fault = (struct byzlab_fault){777, 888};
    uint8_t *program = copied(adds, 56);
    WANT(byzlab_load(program, 56, BYZLAB_BOARD_HELPERS, &loaded, &fault) == BYZLAB_DONE && fault.number == 777 && fault.unit == 888);
    free(program);
    WANT(run_in(&loaded, 4096, 9, board, &outcome) == BYZLAB_DONE && outcome.r0 == 1009 && outcome.steps == 7);
    WANT(board[3] == 1005 && board[0] == 0 && board[63] == UINT64_MAX);
    WANT(run_in(&loaded, 1, 8, board, &outcome) == BYZLAB_DONE && outcome.r0 == 1013 && board[3] == 1010);
    WANT(run_in(&loaded, 0, 8, board, &outcome) == BYZLAB_DONE && outcome.r0 == 1010 && board[3] == 1015);
    WANT(run_in(&loaded, 4097, 8, board, &outcome) == BYZLAB_LENGTH && outcome.r0 == 1010 && board[3] == 1015);
    WANT(byzlab_load(unset, 16, BYZLAB_NO_HELPERS, &loaded, &fault) == BYZLAB_REFUSED);
    WANT(run_in(&loaded, 1, 8, board, &outcome) == BYZLAB_DONE && outcome.r0 == 1023);
    /* Of each earlier context nothing is left behind a shorter one. */
    WANT(byzlab_load(last, 16, BYZLAB_NO_HELPERS, &loaded, &fault) == BYZLAB_DONE);
    for (int i = 0; i < 3; i++) {
        WANT(run_in(&loaded, 4096, 5, board, &outcome) == BYZLAB_DONE && outcome.r0 == 5 && outcome.steps == 2);
        WANT(run_in(&loaded, 4095, 6, board, &outcome) == BYZLAB_DONE && outcome.r0 == 0);
        WANT(run_in(&loaded, (size_t)i, 7, board, &outcome) == BYZLAB_DONE && outcome.r0 == 0);
    }
    WANT(byzlab_load(exchanges, sizeof exchanges, BYZLAB_ALL_HELPERS, &loaded, &fault) == BYZLAB_DONE);
    memcpy(board, words, sizeof words);
    board[0] = 1000;
    board[63] = 7;
    WANT(run_in(&loaded, 0, 0, board, &outcome) == BYZLAB_DONE && outcome.r0 == 16 && board[0] == 9 && board[3] == 1000);
    byzlab_unload(&loaded);
    byzlab_unload(&loaded);
    WANT(run_in(&loaded, 0, 0, board, &outcome) == BYZLAB_UNLOADED && outcome.r0 == 16);
    free(board);
}

/* r0 = 0; goto the exit; send(); exit: a call that is never reached, behind a wide instruction */
static const uint8_t sends[40] = {
    UNIT(0x18, 0, 0, 0), UNIT(0, 0, 0, 0), UNIT(0x05, 0, 1, 0), UNIT(0x85, 0, 0, 6), EXIT,
};

static void forbid(void) {
    struct byzlab_program loaded = {0};
    struct byzlab_fault fault = {777, 888};
    WANT(byzlab_load(adds, 56, BYZLAB_NO_HELPERS, &loaded, &fault) == BYZLAB_FORBIDDEN && !loaded.full);
    WANT(fault.number == 3 && fault.unit == 3);
    WANT(byzlab_load(adds, 56, UINT64_C(1) << 3, &loaded, &fault) == BYZLAB_DONE && loaded.full);
    WANT(byzlab_load(adds, 56, ~(UINT64_C(1) << 3), &loaded, &fault) == BYZLAB_FORBIDDEN && loaded.full);
    WANT(byzlab_load(sends, 40, BYZLAB_ALL_HELPERS, &loaded, &fault) == BYZLAB_DONE && fault.number == 3);
    WANT(byzlab_load(sends, 40, BYZLAB_BOARD_HELPERS, &loaded, &fault) == BYZLAB_FORBIDDEN);
    WANT(fault.number == 6 && fault.unit == 3);
    WANT(byzlab_load(exchanges, sizeof exchanges, BYZLAB_BOARD_HELPERS - 32, &loaded, &fault) == BYZLAB_FORBIDDEN);
    WANT(fault.number == 5 && fault.unit == 11);
    byzlab_unload(&loaded);
}

static uint32_t drawn(uint32_t *seed) {
    *seed ^= *seed << 13;
    *seed ^= *seed >> 17;
    return *seed ^= *seed << 5;
}

/* A loaded program does in each of many contexts what byzlab_run does in the same context, padded. */
static void alike(void) {
    static const struct {
        const uint8_t *bytes;
        size_t length;
    } programs[] = {{adds, sizeof adds}, {exchanges, sizeof exchanges}, {last, sizeof last}, {sends, sizeof sends}};
    uint32_t seed = 1;
    for (size_t which = 0; which < sizeof programs / sizeof *programs; which++) {
        uint64_t one[BYZLAB_BOARD_WORDS] = {0}, other[BYZLAB_BOARD_WORDS] = {0};
        struct byzlab_program loaded = {0};
        struct byzlab_fault fault;
        const uint8_t *bytes = programs[which].bytes;
        size_t length = programs[which].length;
        WANT(byzlab_load(bytes, length, BYZLAB_ALL_HELPERS, &loaded, &fault) == BYZLAB_DONE);
        for (int i = 0; i < 100; i++) {
            uint8_t padded[BYZLAB_CONTEXT_BYTES] = {0}, *lent;
            size_t given = drawn(&seed) % (i % 2 ? 16 : BYZLAB_CONTEXT_BYTES + 1);
            struct byzlab_outcome was = {111, 222}, is = {333, 444};
            for (size_t at = 0; at < given; at++) padded[at] = (uint8_t)drawn(&seed);
            one[0] = one[drawn(&seed) % 64] = drawn(&seed);
            memcpy(other, one, sizeof one);
            lent = copied(padded, given);
            WANT(byzlab_run(bytes, length, padded, sizeof padded, one, &fault, &was) == BYZLAB_DONE);
            WANT(byzlab_run_loaded(&loaded, lent, given, other, &is) == BYZLAB_DONE);
            WANT(was.r0 == is.r0 && was.steps == is.steps && !memcmp(one, other, sizeof one));
            free(lent);
        }
        byzlab_unload(&loaded);
    }
}

static void *loaded_elsewhere(void *loaded) {
    uint64_t board[BYZLAB_BOARD_WORDS] = {0};
    struct byzlab_outcome outcome = {111, 222};
    WANT(run_in(loaded, 1, 9, board, &outcome) == BYZLAB_DONE && outcome.r0 == 9);
    return loaded;
}

/* A program that one thread loads, another runs, and the first unloads. */
static void passed(void) {
    struct byzlab_program loaded = {0};
    struct byzlab_fault fault;
    pthread_t other;
    WANT(byzlab_load(adds, 56, BYZLAB_BOARD_HELPERS, &loaded, &fault) == BYZLAB_DONE);
    if (pthread_create(&other, NULL, loaded_elsewhere, &loaded)) exit(2);
    pthread_join(other, NULL);
    byzlab_unload(&loaded);
}

static void texts(void) {
    static const char whole[] = "mov r0, 42\nexit\n";
    struct byzlab_fault fault = {777, 888};
    size_t needed = 0;
    for (size_t room = 0; room < 40; room++) {
        char *text = malloc(room ? room : 1);
        if (!text) exit(2);
        memset(text, '#', room);
        needed = 0;
        WANT(byzlab_disassemble(answer, 16, text, room, &needed, &fault) == BYZLAB_DONE);
        WANT(needed == sizeof whole - 1);
        for (size_t i = 0; i < room; i++) WANT(text[i] == (i < needed ? whole[i] : '#'));
        free(text);
    }
    char text[256] = {0};
    WANT(byzlab_explain(unset, 16, text, sizeof text, &needed, &fault) == BYZLAB_REFUSED);
    WANT(fault.number == BYZLAB_V5_UNSET && fault.unit == 0 && needed < sizeof text && text[0] == '\n');
    WANT(strstr(text, "r2 is read, but may be unset") && strlen(text) == needed);
    fault.number = 777;
    WANT(byzlab_explain(answer, 16, text, 0, &needed, &fault) == BYZLAB_DONE && fault.number == 777 && needed > 10);
    needed = 55;
    WANT(byzlab_explain(answer, 15, text, sizeof text, &needed, &fault) == BYZLAB_MISSPELT && needed == 55);
    WANT(byzlab_disassemble(answer, 15, text, sizeof text, &needed, &fault) == BYZLAB_MISSPELT && needed == 55);
    WANT(byzlab_disassemble(unset, 16, text, sizeof text, &needed, &fault) == BYZLAB_DONE);
}

static void message(uint32_t status, uint32_t number, const char *wanted) {
    char text[128];
    size_t needed = 99;
    memset(text, '#', sizeof text);
    byzlab_message(status, number, text, sizeof text, &needed);
    WANT(needed == strlen(wanted) && !memcmp(text, wanted, needed) && text[needed] == '#');
    byzlab_message(status, number, text, 3, &needed);
    WANT(needed == strlen(wanted));
}

static void messages(void) {
    message(BYZLAB_DONE, 7, "the call has done its work");
    message(BYZLAB_MEMORY, BYZLAB_V1_BACK_JUMP, "out of memory");
    message(BYZLAB_FORBIDDEN, 1, "a helper is called that is not allowed");
    message(BYZLAB_MISSPELT, BYZLAB_C1_LENGTH, "the length is not a multiple of 8");
    message(BYZLAB_MISSPELT, BYZLAB_C8_COUNT, "a program has 1 to 4,096 units");
    message(BYZLAB_REFUSED, BYZLAB_V1_BACK_JUMP, "a jump leads to its own unit or backward");
    message(BYZLAB_REFUSED, BYZLAB_V13_EXIT_POINTER, "the program ends with a pointer in r0");
    message(BYZLAB_OBJECT_FAULT, BYZLAB_O3_NO_FUNCTION, "there is no function with this name, or no global function");
    message(BYZLAB_OBJECT_FAULT, BYZLAB_O2_RELOCATIONS,
            "the relocations of this section name a symbol that does not exist");
    message(BYZLAB_ROOM, 0, "the buffer is too short for the program");
    message(BYZLAB_OBJECT_FAULT, 0, "");
    message(BYZLAB_OBJECT_FAULT, 200, "");
    message(BYZLAB_OBJECT_FAULT, 210, "");
    message(9, 0, "");
    message(UINT32_MAX, UINT32_MAX, "");
    message(BYZLAB_MISSPELT, 0, "");
    message(BYZLAB_MISSPELT, 9, "");
    message(BYZLAB_REFUSED, 99, "");
    message(BYZLAB_REFUSED, 114, "");
    message(BYZLAB_REFUSED, UINT32_MAX, "");
}

/* The object's functions by name: status, and number and unit of the fault or the program's length. */
static const struct {
    const char *entry;
    uint32_t status, number;
    size_t unit;
} entries[] = {
    {"plain", BYZLAB_DONE, 0, 16},
    {"tells", BYZLAB_DONE, 0, 48},
    {"thrice", BYZLAB_DONE, 0, 40},
    {"none", BYZLAB_OBJECT_FAULT, BYZLAB_O3_NO_FUNCTION, 0},
    {"plai", BYZLAB_OBJECT_FAULT, BYZLAB_O3_NO_FUNCTION, 0},
    {"", BYZLAB_OBJECT_FAULT, BYZLAB_O4_SEVERAL, 0},
    {"reads", BYZLAB_OBJECT_FAULT, BYZLAB_O5_NAMES, 3},
    {"calls", BYZLAB_OBJECT_FAULT, BYZLAB_O6_LEAVES, 1},
};

/* The bytes of the object, which the second word names. */
static uint8_t object[4096];
static size_t object_length;

static void read_object(const char *path) {
    FILE *file = fopen(path, "rb");
    if (!file) exit(2);
    object_length = fread(object, 1, sizeof object, file);
    fclose(file);
}

/* Reads an entry into a buffer of its own, behind which nothing may be written. */
static void entered(size_t which, size_t capacity) {
    struct byzlab_fault fault = {777, 888};
    uint8_t before[64], *program, *lent = copied(object, object_length);
    char *entry = copied(entries[which].entry, strlen(entries[which].entry));
    size_t needed = 55, length = strlen(entries[which].entry);
    memset(before, '#', sizeof before);
    program = copied(before, capacity);
    uint32_t status = byzlab_object(lent, object_length, entry, length, program, capacity, &needed, &fault);
    if (entries[which].status == BYZLAB_DONE) {
        WANT(status == (entries[which].unit > capacity ? BYZLAB_ROOM : BYZLAB_DONE) && needed == entries[which].unit);
        WANT(fault.number == 777 && fault.unit == 888);
        size_t filled = status == BYZLAB_DONE ? needed : 0;
        WANT(!memcmp(program + filled, before, capacity - filled));
        if (filled) WANT(!memcmp(program + filled - 8, (const uint8_t[]){EXIT}, 8));
    } else {
        WANT(status == BYZLAB_OBJECT_FAULT && needed == 55 && !memcmp(program, before, capacity));
        WANT(fault.number == entries[which].number && fault.unit == entries[which].unit);
    }
    free(lent);
    free(entry);
    free(program);
}

static void objects(void) {
    uint8_t program[64];
    struct byzlab_fault fault = {777, 888};
    struct byzlab_program loaded = {0};
    size_t needed = 55;
    for (size_t which = 0; which < sizeof entries / sizeof *entries; which++)
        for (size_t capacity = 0; capacity <= 64; capacity += 8) entered(which, capacity);
    for (size_t length = 0; length <= object_length; length++) {
        uint8_t *part = copied(object, length);
        uint32_t status = byzlab_object(part, length, "plain", 5, program, sizeof program, &needed, &fault);
        WANT(status == (length < object_length ? BYZLAB_OBJECT_FAULT : BYZLAB_DONE));
        free(part);
    }
    WANT(needed == 16 && byzlab_load(program, needed, BYZLAB_NO_HELPERS, &loaded, &fault) == BYZLAB_DONE);
    byzlab_unload(&loaded);
    WANT(byzlab_object(answer, 16, NULL, 0, program, 64, &needed, &fault) == BYZLAB_OBJECT_FAULT);
    WANT(fault.number == BYZLAB_O1_NO_OBJECT && fault.unit == 0);
    WANT(byzlab_object(object, object_length - 1, NULL, 0, program, 64, &needed, &fault) == BYZLAB_OBJECT_FAULT);
    WANT(fault.number == BYZLAB_O2_SECTIONS && fault.unit == 0 && needed == 16);
}

/* No bytes spell no program. The fault is set back for the next call. */
static void refused_as_none(uint32_t status, struct byzlab_fault *fault) {
    WANT(status == BYZLAB_MISSPELT && fault->number == BYZLAB_C8_COUNT && fault->unit == 0);
    *fault = (struct byzlab_fault){777, 888};
}

/* NULL for a program of no bytes: only the fault is written. */
static void without_program(void) {
    static const uint8_t context[BYZLAB_CONTEXT_BYTES];
    uint64_t board[BYZLAB_BOARD_WORDS] = {[0] = 7};
    struct byzlab_fault fault = {777, 888};
    struct byzlab_outcome outcome = {111, 222};
    struct byzlab_program loaded = {0};
    size_t needed = 55;
    refused_as_none(byzlab_verify(NULL, 0, &fault), &fault);
    refused_as_none(byzlab_run(NULL, 0, context, sizeof context, board, &fault, &outcome), &fault);
    refused_as_none(byzlab_run_many(NULL, 0, NULL, 0, &fault, NULL, 0), &fault);
    refused_as_none(byzlab_load(NULL, 0, BYZLAB_ALL_HELPERS, &loaded, &fault), &fault);
    refused_as_none(byzlab_explain(NULL, 0, NULL, 0, &needed, &fault), &fault);
    refused_as_none(byzlab_disassemble(NULL, 0, NULL, 0, &needed, &fault), &fault);
    WANT(board[0] == 7 && outcome.r0 == 111 && outcome.steps == 222 && !loaded.full && !loaded.at && needed == 55);
}

/* NULL beside the size 0, of all that has a size but the program. */
static void without(void) {
    uint64_t board[BYZLAB_BOARD_WORDS] = {0};
    struct byzlab_fault fault = {777, 888};
    struct byzlab_outcome outcome = {111, 222};
    struct byzlab_program loaded = {0};
    size_t needed = 0;
    WANT(byzlab_run(answer, 16, NULL, 0, board, &fault, &outcome) == BYZLAB_LENGTH);
    WANT(byzlab_run(NULL, 0, NULL, 0, board, &fault, &outcome) == BYZLAB_LENGTH && outcome.r0 == 111);
    WANT(byzlab_run_many(answer, 16, NULL, 0, &fault, NULL, 0) == BYZLAB_DONE);
    WANT(byzlab_run_many(unset, 16, NULL, 0, &fault, NULL, 0) == BYZLAB_REFUSED && fault.number == BYZLAB_V5_UNSET);
    WANT(byzlab_load(answer, 16, BYZLAB_NO_HELPERS, &loaded, &fault) == BYZLAB_DONE);
    WANT(byzlab_load(NULL, 0, BYZLAB_NO_HELPERS, &loaded, &fault) == BYZLAB_MISSPELT && loaded.full);
    WANT(byzlab_run_loaded(&loaded, NULL, 0, board, &outcome) == BYZLAB_DONE && outcome.r0 == 42);
    WANT(byzlab_load(last, 16, BYZLAB_NO_HELPERS, &loaded, &fault) == BYZLAB_DONE);
    WANT(byzlab_run_loaded(&loaded, NULL, 0, board, &outcome) == BYZLAB_DONE && outcome.r0 == 0 && outcome.steps == 2);
    byzlab_unload(&loaded);
    WANT(byzlab_run_loaded(&loaded, NULL, 0, board, &outcome) == BYZLAB_UNLOADED);
    WANT(byzlab_explain(answer, 16, NULL, 0, &needed, &fault) == BYZLAB_DONE && needed > 10);
    WANT(byzlab_explain(unset, 16, NULL, 0, &needed, &fault) == BYZLAB_REFUSED && needed > 10 && fault.unit == 0);
    WANT(byzlab_disassemble(answer, 16, NULL, 0, &needed, &fault) == BYZLAB_DONE && needed == 16);
    fault = (struct byzlab_fault){777, 888};
    WANT(byzlab_object(NULL, 0, NULL, 0, NULL, 0, &needed, &fault) == BYZLAB_OBJECT_FAULT && needed == 16);
    WANT(fault.number == BYZLAB_O1_NO_OBJECT && fault.unit == 0);
    WANT(byzlab_object(object, object_length, "tells", 5, NULL, 0, &needed, &fault) == BYZLAB_ROOM && needed == 48);
    byzlab_message(BYZLAB_DONE, 0, NULL, 0, &needed);
    WANT(needed == 26);
    byzlab_message(9, 0, NULL, 0, &needed);
    WANT(needed == 0);
}

/* NULL for the fault: all is as with a fault, which is not written. */
static void without_fault(void) {
    static const uint8_t context[BYZLAB_CONTEXT_BYTES];
    uint64_t board[BYZLAB_BOARD_WORDS] = {0};
    struct byzlab_outcome outcome = {111, 222};
    struct byzlab_program loaded = {0};
    uint8_t program[64];
    size_t needed = 0;
    WANT(byzlab_verify(answer, 16, NULL) == BYZLAB_DONE && byzlab_verify(unset, 16, NULL) == BYZLAB_REFUSED);
    WANT(byzlab_verify(answer, 15, NULL) == BYZLAB_MISSPELT && byzlab_verify(NULL, 0, NULL) == BYZLAB_MISSPELT);
    WANT(byzlab_run(answer, 16, context, sizeof context, board, NULL, &outcome) == BYZLAB_DONE && outcome.r0 == 42);
    WANT(byzlab_run(answer, 16, context, 1, board, NULL, &outcome) == BYZLAB_LENGTH);
    WANT(byzlab_run(unset, 16, context, sizeof context, board, NULL, &outcome) == BYZLAB_REFUSED);
    WANT(byzlab_run_many(answer, 16, context, sizeof context, NULL, &outcome, 1) == BYZLAB_DONE && outcome.steps == 2);
    WANT(byzlab_run_many(unset, 16, NULL, 0, NULL, NULL, 0) == BYZLAB_REFUSED);
    WANT(byzlab_load(adds, 56, BYZLAB_NO_HELPERS, &loaded, NULL) == BYZLAB_FORBIDDEN && !loaded.full);
    WANT(byzlab_load(adds, 55, BYZLAB_NO_HELPERS, &loaded, NULL) == BYZLAB_MISSPELT && !loaded.full);
    WANT(byzlab_load(adds, 56, BYZLAB_ALL_HELPERS, &loaded, NULL) == BYZLAB_DONE && loaded.full);
    byzlab_unload(&loaded);
    WANT(byzlab_explain(unset, 16, NULL, 0, &needed, NULL) == BYZLAB_REFUSED && needed > 10);
    WANT(byzlab_explain(unset, 15, NULL, 0, &needed, NULL) == BYZLAB_MISSPELT);
    WANT(byzlab_disassemble(unset, 16, NULL, 0, &needed, NULL) == BYZLAB_DONE && needed == 16);
    WANT(byzlab_disassemble(unset, 15, NULL, 0, &needed, NULL) == BYZLAB_MISSPELT && needed == 16);
    WANT(byzlab_object(object, object_length, "plain", 5, program, 64, &needed, NULL) == BYZLAB_DONE && needed == 16);
    WANT(byzlab_object(object, object_length, "none", 4, program, 64, &needed, NULL) == BYZLAB_OBJECT_FAULT);
}

static void *all(void *none) {
    misspelt();
    refused();
    run_once();
    exchange();
    run_many();
    load();
    forbid();
    alike();
    texts();
    messages();
    objects();
    without_program();
    without();
    without_fault();
    WANT(byzlab_version() == BYZLAB_VERSION);
    return none;
}

int main(int count, char **words) {
    enum { MOST = 64 };
    pthread_t threads[MOST];
    int further = count > 2 ? atoi(words[1]) - 1 : -1;
    if (further < 0 || further > MOST) return 2;
    read_object(words[2]);
    for (int i = 0; i < further; i++)
        if (pthread_create(threads + i, NULL, all, NULL)) return 2;
    all(NULL);
    for (int i = 0; i < further; i++) pthread_join(threads[i], NULL);
    passed();
    printf("%s\n", wrong ? "wrong" : "as wanted");
    return wrong != 0;
}
