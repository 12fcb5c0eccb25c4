/*
 * A plugin in the convention of the project bpf_conformance: the program in hex on standard input, or after --program;
 * the memory in hex as an argument; r0 in hex on standard output. Status 0, or 1 with a line on standard error: the
 * code and unit of a refusal, or what is wrong with the words.
 *
 * The convention wants the memory's address in r1, memory that can be written, and its length in r2. Here r1 points to a
 * context that is only read, and r2 is unset. So a prolog goes before the program, as in the plugin for the kernel: it
 * copies the memory from the context to the stack, and sets r1 and r2.
 *
 * The copy is at the low end of the stack, whose 512 bytes it shares with the program's own stack, which grows downward
 * from r10. Its address is a multiple of 8. (The sandbox takes loads and stores at any address.) Memory of more than 512
 * bytes stays in the context, where it is only read, and zeros follow; so does empty memory. The prolog then sets only
 * r2. A program that with its prolog would have more than 4,096 units gets none, and r2 is unset.
 */
#include <byzlab_sandbox.h>
#include <ctype.h>
#include <stdio.h>
#include <string.h>

/* The bytes of the stack, of a unit, and of the longest prolog: that for 511 bytes, of 63 + 3 copies and 3 units. */
enum { STACK = 512, UNIT = 8, LONGEST_PROLOG = (2 * (63 + 3) + 3) * UNIT };

static int digit(int c) {
    return isdigit(c) ? c - '0' : isxdigit(c) ? tolower(c) - 'a' + 10 : -1;
}

/* Reads bytes in hex, which may have white space between them. Returns their number, or -1 if the text is not hex or
 * there is no room for them. */
static long from_hex(const char *text, uint8_t *bytes, size_t room) {
    for (size_t count = 0;; text += 2) {
        while (isspace((unsigned char)*text)) text++;
        if (!*text) return (long)count;
        int high = digit((unsigned char)text[0]), low = high < 0 ? -1 : digit((unsigned char)text[1]);
        if (low < 0 || count == room) return -1;
        bytes[count++] = (uint8_t)(high << 4 | low);
    }
}

static int failed(const char *what) {
    fprintf(stderr, "%s\n", what);
    return 1;
}

/* Prints why the program is refused. The unit is that of the given program, which `prolog` bytes precede. */
static int refused(uint32_t status, const struct byzlab_fault *fault, size_t prolog) {
    if (status == BYZLAB_MEMORY) return failed("out of memory");
    char letter = status == BYZLAB_MISSPELT ? 'C' : 'V';
    fprintf(stderr, "refused %c%u unit %zu\n", letter, fault->number % 100, fault->unit - prolog / UNIT);
    return 1;
}

/* Writes an instruction, and returns the place after it. */
static uint8_t *put(uint8_t *at, int opcode, int dst, int src, int offset, int immediate) {
    const uint16_t low = (uint16_t)offset;
    const uint32_t word = (uint32_t)immediate;
    const uint8_t unit[UNIT] = {
        (uint8_t)opcode, (uint8_t)(src << 4 | dst), (uint8_t)low, (uint8_t)(low >> 8),
        (uint8_t)word, (uint8_t)(word >> 8), (uint8_t)(word >> 16), (uint8_t)(word >> 24),
    };
    memcpy(at, unit, UNIT);
    return at + UNIT;
}

/* Writes the instructions that copy the memory from the context to the stack, by way of r2: words of 8 bytes, then at
 * most one of 4, 2 and 1. Returns the place after them. */
static uint8_t *put_copies(uint8_t *at, int memory) {
    static const struct {
        int bytes, size;
    } words[] = {{8, 0x18}, {4, 0x00}, {2, 0x08}, {1, 0x10}};
    int done = 0;
    for (size_t kind = 0; kind < sizeof words / sizeof *words; kind++) {
        for (; memory - done >= words[kind].bytes; done += words[kind].bytes) {
            at = put(at, 0x61 | words[kind].size, 2, 1, done, 0);          /* r2 = the word at r1 + done */
            at = put(at, 0x63 | words[kind].size, 10, 2, done - STACK, 0); /* the word at r10 - 512 + done = r2 */
        }
    }
    return at;
}

/* Writes the prolog for so many bytes of memory, and returns its length in bytes. */
static size_t put_prolog(uint8_t *units, int memory) {
    uint8_t *at = units;
    if (memory > 0 && memory <= STACK) {
        at = put_copies(at, memory);
        at = put(at, 0xbf, 1, 10, 0, 0);     /* r1 = r10 */
        at = put(at, 0x07, 1, 0, 0, -STACK); /* r1 += -512 */
    }
    at = put(at, 0xb7, 2, 0, 0, memory); /* r2 = the length of the memory */
    return (size_t)(at - units);
}

int main(int count, char **words) {
    static uint8_t program[BYZLAB_MOST_BYTES + UNIT], code[sizeof program + LONGEST_PROLOG];
    static uint8_t context[BYZLAB_CONTEXT_BYTES];
    static char text[4 * BYZLAB_MOST_BYTES];
    uint64_t board[BYZLAB_BOARD_WORDS] = {0};
    const char *given = NULL;
    long memory = 0;
    for (int i = 1; i < count; i++) {
        if (!strcmp(words[i], "--program") && i + 1 < count) given = words[++i];
        else if (!strcmp(words[i], "--elf")) return failed("no ELF is read");
        else if (strncmp(words[i], "--", 2)) memory = from_hex(words[i], context, sizeof context);
        if (memory < 0) return failed("the memory is no hex of at most 4,096 bytes");
    }
    if (!given) text[fread(text, 1, sizeof text - 1, stdin)] = 0;
    long length = from_hex(given ? given : text, program, sizeof program);
    if (length < 0) return failed("the program is no hex of at most 32,776 bytes");
    size_t prolog = put_prolog(code, (int)memory);
    if (length == 0 || (size_t)length + prolog > BYZLAB_MOST_BYTES) prolog = 0;
    memcpy(code + prolog, program, (size_t)length);
    struct byzlab_fault fault;
    struct byzlab_outcome outcome;
    uint32_t status = byzlab_run(code, (size_t)length + prolog, context, sizeof context, board, &fault, &outcome);
    if (status) return refused(status, &fault, prolog);
    printf("%llx\n", (unsigned long long)outcome.r0);
    return 0;
}
