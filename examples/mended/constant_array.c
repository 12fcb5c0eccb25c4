/* The array is written to the stack. (The empty line of assembly keeps clang from moving it back to .rodata.) */
#include "byzlab.h"

u64 constant_array(const struct context *context)
{
    u64 place = context->round;
    u32 orders[8];

    orders[0] = 5;
    orders[1] = 7;
    orders[2] = 1;
    orders[3] = 9;
    orders[4] = 2;
    orders[5] = 6;
    orders[6] = 5;
    orders[7] = 3;
    asm volatile("" : : "r"(orders) : "memory");
    if (place > 7)
        return 0;
    return orders[place];
}
