/* The array is in .rodata, which is not part of the program. */
#include "byzlab.h"

static const u32 orders[8] = {5, 7, 1, 9, 2, 6, 5, 3};

u64 constant_array(const struct context *context)
{
    u64 place = context->round;

    if (place > 7)
        return 0;
    return orders[place];
}
