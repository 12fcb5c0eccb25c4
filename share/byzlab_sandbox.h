/*
 * byzlab_sandbox.h: a proved verifier and interpreter of BPF programs (RFC 9669; no loops, no maps), called from C.
 *
 *     cc program.c $(pkg-config --cflags --libs byzlab)
 *
 * A program that is accepted (status 0) never traps, never leaves its memory, and ends within as many steps as it has
 * instructions, whatever its context and board contain. What is said here about each status is proved
 * (docs/EMBEDDING.md says by which clause of a contract). Of these, only the cause of status 3, that malloc or realloc
 * returned NULL, is tested and not proved.
 *
 * The caller must ensure the following, which nothing checks:
 *
 * - Each pointer points to memory of the given size, is aligned for its type, and is not NULL, with two exceptions. The
 *   fault may always be NULL: it is then not written (this is proved). And a pointer with a size next to it may be NULL if
 *   this size is 0. It then has the effect that is described for the function, and nothing else is read or written at it
 *   (this is tested, and not proved).
 * - So NULL for board, outcome, needed or loaded is undefined, at every status. It most likely ends the process.
 * - The memory that a function writes (fault, outcome, outcomes, board, text, needed, loaded, and byzlab_object's
 *   program) does not overlap any other argument, and no other thread reads or writes it during the call. No other thread
 *   writes the memory that a function only reads (program, context, contexts, object, entry) during the call.
 * - A struct byzlab_program is all zeros before the first call, and only the functions below write it afterwards. It is
 *   not copied.
 * - malloc, realloc and free come from one allocator. malloc and realloc align a block to each power of two up to 16
 *   that divides its size, for instance to 8 for 24 bytes. Those of glibc do.
 * - No function is called from a signal handler, or from the forked child of a process with threads.
 *
 * A call keeps no state and no memory for the next, except in a struct byzlab_program. Threads may call at the same
 * time if malloc allows that.
 */
#ifndef BYZLAB_SANDBOX_H
#define BYZLAB_SANDBOX_H

#include <stddef.h>
#include <stdint.h>

#ifdef __cplusplus
extern "C" {
#endif

/* What a function returns. */
enum byzlab_status {
    BYZLAB_DONE = 0,     /* the call has done its work, and (except in byzlab_disassemble) the program is accepted */
    BYZLAB_MISSPELT = 1, /* the bytes do not spell a program; the fault has a number from 1 to 8 */
    BYZLAB_REFUSED = 2,  /* the program is not accepted; the fault has a number from 101 to 113 */
    BYZLAB_MEMORY = 3,   /* malloc or realloc returned NULL; the bytes spell a program */
    BYZLAB_LENGTH = 4,   /* the context is not 4,096 bytes long, or the contexts not 4,096 for each outcome; in
                          * byzlab_run_loaded, the context is longer */
    BYZLAB_UNLOADED = 5, /* no program is loaded */
    BYZLAB_FORBIDDEN = 6, /* the program is accepted, and calls a helper that is not allowed; the fault has the helper's
                           * number and the unit of the first such call */
    BYZLAB_OBJECT_FAULT = 7, /* the object has no program for this entry; the fault has a number from 201 to 209 */
    BYZLAB_ROOM = 8          /* the object's program is longer than the buffer */
};

/* The numbers of the faults. Each comes with the unit in which the faulty instruction begins. Units have 8
 * bytes and are counted from 0. */
enum byzlab_number {
    BYZLAB_C1_LENGTH = 1,   /* the length is not a multiple of 8; the unit is the one that is cut off */
    BYZLAB_C2_OPCODE = 2,   /* no instruction has this opcode */
    BYZLAB_C3_RESERVED = 3, /* an unused field, or the reserved bits of a wide instruction, are not zero */
    BYZLAB_C4_WIDE_CUT = 4, /* the second half of a wide instruction is missing */
    BYZLAB_C5_REGISTER = 5, /* a register above r10 is used */
    BYZLAB_C6_LEFT_OUT = 6, /* an instruction of the standard that is not supported */
    BYZLAB_C7_OPERAND = 7,  /* the offset of a DIV, MOD or MOV, or the width of a byte swap, selects no instruction */
    BYZLAB_C8_COUNT = 8,    /* no unit, or more than 4,096; the unit is 0 */

    BYZLAB_V1_BACK_JUMP = 101,      /* a jump leads to its own unit or backward */
    BYZLAB_V2_JUMP_OUT = 102,       /* a jump leads past the end */
    BYZLAB_V3_JUMP_IN_WIDE = 103,   /* a jump leads into the second half of a wide instruction */
    BYZLAB_V4_LAST_NOT_EXIT = 104,  /* the last instruction is not the exit */
    BYZLAB_V5_UNSET = 105,          /* a register is read that may be unset, or of different kinds on different paths */
    BYZLAB_V6_FRAME_WRITE = 106,    /* the frame pointer is written */
    BYZLAB_V7_POINTER_USE = 107,    /* a pointer is misused, a number is used as an address, or the number added to a
                                     * pointer has too wide bounds */
    BYZLAB_V8_BOUNDS = 108,         /* an access may leave its region */
    BYZLAB_V9_STACK_UNSET = 109,    /* a stack cell is read that may be unset */
    BYZLAB_V10_CONTEXT_WRITE = 110, /* the context is written */
    BYZLAB_V11_HELPER = 111,        /* a helper is called that does not exist */
    BYZLAB_V12_ARGUMENT = 112,      /* a helper is called with an argument that it does not accept */
    BYZLAB_V13_EXIT_POINTER = 113,  /* the program ends with a pointer in r0 */

    BYZLAB_O1_NO_OBJECT = 201,   /* this is not a relocatable ELF object for BPF of 64 bits, little-endian; the unit is 0 */
    BYZLAB_O2_SECTIONS = 202,    /* the header is cut off, or the section headers are not within the file; the unit is 0 */
    BYZLAB_O3_NO_FUNCTION = 203, /* there is no function with this name, or no global function; the unit is 0 */
    BYZLAB_O4_SEVERAL = 204,     /* there are several functions with this name, or several global ones; the unit is 0 */
    BYZLAB_O5_NAMES = 205,       /* this unit of the program uses data, or a function that is not in the object */
    BYZLAB_O6_LEAVES = 206,      /* this unit of the program calls or uses another function of the object */
    BYZLAB_O2_SECTION = 207,     /* a section is not within the file; the unit is the section's index */
    BYZLAB_O2_SYMBOL = 208,      /* a function's name is not among the strings, or its code is not within its section; the
                                  * unit is the symbol's index */
    BYZLAB_O2_RELOCATIONS = 209  /* relocations use another symbol table, or a symbol that does not exist; the unit is the
                                  * index of their section */
};

#define BYZLAB_VERSION 10000      /* the version of this header; byzlab_version returns the library's */
#define BYZLAB_CONTEXT_BYTES 4096 /* the size of the context, which a program only reads: r1 points to it */
#define BYZLAB_BOARD_WORDS 64     /* how many words the helpers 1 to 5 read and write */
#define BYZLAB_MOST_BYTES 32768   /* the longest program: 4,096 units */

/* Which helpers a loaded program may call: bit n is for helper n. Outside of a campaign only those of the board do
 * anything. */
#define BYZLAB_NO_HELPERS UINT64_C(0)
#define BYZLAB_BOARD_HELPERS UINT64_C(0x3e)
#define BYZLAB_ALL_HELPERS UINT64_C(0xffe)

/*
 * Why bytes are not accepted (at the statuses 1 and 2), which helper is not allowed and where it is called (at 6), or why
 * an object has no program (at 7). At other statuses it is unchanged. A caller that does not ask passes NULL.
 */
struct byzlab_fault {
    uint32_t number;
    size_t unit;
};

/* How a run ended: r0 at the exit, and the number of instructions that were run. */
struct byzlab_outcome {
    uint64_t r0;
    uint32_t steps;
};

/*
 * A loaded program, or none: struct byzlab_program loaded = {0}. C code reads and writes neither field. While a program
 * is loaded it holds about 8 KB and 32 to 48 bytes for each unit.
 */
struct byzlab_program {
    uint8_t full;
    void *at;
};

/*
 * Checks whether the program is accepted. Returns 0 to 3.
 *
 * NULL: the program, if length is 0. The status is then 1, and the number BYZLAB_C8_COUNT.
 */
uint32_t byzlab_verify(const uint8_t *program, size_t length, struct byzlab_fault *fault);

/*
 * Verifies the program and runs it once. Returns 0 to 4. The helpers 1 to 5 read and write the board; after the call it
 * has the words that the program left. Board and outcome are written only at status 0.
 *
 * NULL: the context, if context_length is 0. The status is then 4, whatever the program is. And the program, if length is
 * 0. The status is then 1, and the number BYZLAB_C8_COUNT, if the context has 4,096 bytes.
 */
uint32_t byzlab_run(const uint8_t *program, size_t length, const uint8_t *context, size_t context_length,
                    uint64_t board[BYZLAB_BOARD_WORDS], struct byzlab_fault *fault, struct byzlab_outcome *outcome);

/*
 * Verifies the program once and runs it in each of `count` contexts, which follow one another in memory. Each run has a
 * board of zeros. contexts_length is 4,096 * count. Returns 0 to 4. At status 0 all outcomes are written. At 3, if a run
 * had not enough memory, each outcome is either that of its run or unchanged.
 *
 * NULL: contexts and outcomes, if contexts_length and count are 0. The program is then only verified. And the program, if
 * length is 0. The status is then 1, and the number BYZLAB_C8_COUNT, if contexts_length is 4,096 * count.
 */
uint32_t byzlab_run_many(const uint8_t *program, size_t length, const uint8_t *contexts, size_t contexts_length,
                         struct byzlab_fault *fault, struct byzlab_outcome *outcomes, size_t count);

/*
 * Verifies the program and, at status 0, loads it in place of one that is loaded there. The program may only call helpers
 * that the mask allows. Returns 0 to 3, or 6. The bytes are not needed any more.
 *
 * NULL: the program, if length is 0. The status is then 1, and the number BYZLAB_C8_COUNT. What was loaded stays loaded.
 */
uint32_t byzlab_load(const uint8_t *program, size_t length, uint64_t helpers, struct byzlab_program *loaded,
                     struct byzlab_fault *fault);

/*
 * Runs the loaded program once, as byzlab_run does. Returns 0, 3, 4 or 5. The context has at most 4,096 bytes; the program
 * finds zeros after them. Board and outcome are written only at status 0. The program stays loaded.
 *
 * A loaded program is for one call at a time. It may be passed to another thread. Threads that run the same program at
 * the same time load it once each, so each spends the time of a verification and the memory of a loaded program.
 *
 * NULL: the context, if context_length is 0. The program then finds only zeros.
 */
uint32_t byzlab_run_loaded(struct byzlab_program *loaded, const uint8_t *context, size_t context_length,
                           uint64_t board[BYZLAB_BOARD_WORDS], struct byzlab_outcome *outcome);

/* Frees the memory of the loaded program. If none is loaded, it does nothing. NULL: never allowed. */
void byzlab_unload(struct byzlab_program *loaded);

/*
 * Returns the same as byzlab_verify, 0 to 3. At 0 and 2 it writes what the verifier knows at each unit about the
 * registers that are read, and at 2 why it rejects the program: at most `room` bytes into text, and the length of the
 * whole text into needed. Each line begins with a line feed, and there is no terminating 0. At 1 and 3 it writes neither.
 * For each access at most eight groups of stack cells are named, so time and length grow linearly with the program. A call
 * that asks for the length takes as long as one that writes.
 *
 * NULL: text, if room is 0. The call then asks for the length. And the program, if length is 0. The status is then 1, and
 * the number BYZLAB_C8_COUNT.
 */
uint32_t byzlab_explain(const uint8_t *program, size_t length, char *text, size_t room, size_t *needed,
                        struct byzlab_fault *fault);

/*
 * Writes at status 0, in the same way, the program's assembly text: a line for each instruction, which ends with a line
 * feed. The program need not be accepted. Returns 0, 1 or 3. NULL: the same as for byzlab_explain.
 */
uint32_t byzlab_disassemble(const uint8_t *program, size_t length, char *text, size_t room, size_t *needed,
                            struct byzlab_fault *fault);

/*
 * Reads an ELF object, which clang makes of C for BPF. Its program is the function with the name `entry` or, if
 * entry_length is 0, the only global function. Returns 0, 7 or 8. At 0 it writes the program and, into needed, how many
 * bytes it has. At 8 these are more than capacity, and only needed is written. At 7 only the fault is. The bytes may spell
 * no program, or one that is not accepted: byzlab_load tells.
 *
 * NULL: the object, if length is 0. The status is then 7, and the number BYZLAB_O1_NO_OBJECT. The entry, if entry_length
 * is 0. And the program, if capacity is 0. The call then asks for the length.
 */
uint32_t byzlab_object(const uint8_t *object, size_t length, const char *entry, size_t entry_length, uint8_t *program,
                       size_t capacity, size_t *needed, struct byzlab_fault *fault);

/*
 * Writes, as byzlab_explain does its text, a sentence that describes the status or, at 1, 2 and 7, the fault with this
 * number. It is empty if there is no such status or fault. NULL: text, if room is 0. The call then asks for the length.
 */
void byzlab_message(uint32_t status, uint32_t number, char *text, size_t room, size_t *needed);

/* Returns 10,000 * major + 100 * minor + patch. */
uint32_t byzlab_version(void);

#ifdef __cplusplus
}
#endif
#endif
