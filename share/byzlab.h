/*
 * The sandbox of byzlab for programs in C: the context, which is the only argument, and the helpers. See docs/SANDBOX-C.md.
 *
 *     clang -O2 --target=bpf -mcpu=v3 -I share -c traitor.c -o traitor.o
 *     ./byzlab check --elf traitor.o
 */
#ifndef BYZLAB_H
#define BYZLAB_H

typedef unsigned int u32;
typedef unsigned long long u64;

/* A chain as its holder receives it, if messages are signed: an order, and who has signed it. */
struct chain {
    u32 order;
    u32 signers; /* bit g for general g */
};

/* What a program receives: 4,096 bytes that it can only read. */
struct context {
    u32 generals;  /* n, 2 to 13; they are numbered from 0 */
    u32 bound;     /* m, 0 to 4 */
    u32 general;   /* this general's own number */
    u32 commander;
    u32 round;     /* 1 to m + 1 */
    union {
        u32 labels; /* oral messages: how many labels he relays in this round, 0 to 1,016 */
        u32 chains; /* signed messages: how many chains he holds, 0 to 384 */
    };
    u32 receivers; /* oral messages: how many receivers each label has; signed messages: n - 1 */
    u32 is_signed; /* 0 if messages are oral, 1 if they are signed */
    union {
        u32 taken[1016];        /* oral messages: the order that he took for each label, by rank */
        struct chain held[384]; /* signed messages: the chains that he received, by round, sender and the sender's calls */
    };
};

/* The board: 64 words that all traitors' programs share. Each call is atomic. */
static u64 (*const board_get)(u64 slot) = (void *)1;                          /* returns the word */
static u64 (*const board_swap)(u64 slot, u64 value) = (void *)2;              /* the old word */
static u64 (*const board_add)(u64 slot, u64 value) = (void *)3;               /* the old word */
static u64 (*const board_cas)(u64 slot, u64 expected, u64 value) = (void *)4; /* the old word */
static u64 (*const board_copy)(u64 slot, u64 *words, u64 count) = (void *)5;  /* the count */

/*
 * The outbox: what this general sends in this round, if messages are oral. An order is the low 32 bits. A rank is the
 * place of a label in `taken`. sway sets this order to this receiver for every label. honest sets, for every label, the
 * order that was taken for it.
 */
static u64 (*const send)(u64 rank, u64 receiver, u64 order) = (void *)6;          /* 0 set, 1 no such place */
static u64 (*const send_row)(u64 rank, const u32 *orders, u64 count) = (void *)7; /* how many were set */
static u64 (*const sway)(u64 receiver, u64 order) = (void *)8;                     /* how many were set */
static u64 (*const honest)(u64 receiver) = (void *)9;                              /* how many were set */

/*
 * What this general sends in this round, in the order of the calls, if messages are signed. At most 8 calls send something.
 * Bit g of the receivers, 0 to 8,191, means general g. A receiver who is not a general, or who is on the chain that is
 * sent, is left out. If messages are signed, the calls of the outbox above set nothing. If they are oral, these two send
 * nothing and return 1.
 *
 * sign_order begins a chain: this order (its low 32 bits), signed by this general. It is sent if he is the commander.
 * pass_on sends the chain at this place of `held`, 0 to 383, with his signature at its end. It is sent if he holds a
 * chain there that he has not signed. He holds a chain from the round after he received it.
 */
static u64 (*const sign_order)(u64 order, u64 receivers) = (void *)10; /* 0 sent, 1 not */
static u64 (*const pass_on)(u64 held, u64 receivers) = (void *)11;     /* 0 sent, 1 not */

#endif
