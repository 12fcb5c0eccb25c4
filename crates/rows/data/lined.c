/* Moves a place in the stack by an order that may be anything. */
#include "byzlab.h"

u64 moved(const struct context *context)
{
    volatile unsigned char cells[8];
    u64 place = board_get(3);

    cells[place] = 1;
    return 0;
}

u64 kept(const struct context *context)
{
    return context->generals
        + context->bound;
}
