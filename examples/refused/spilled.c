/* The index is stored to the stack after its test, and a load gives any number of its size. */
#include "byzlab.h"

u64 spilled(const struct context *context)
{
    volatile u64 kept;
    u64 place = board_get(0);

    if (place > 15)
        return 0;
    kept = place;
    return context->taken[kept];
}
