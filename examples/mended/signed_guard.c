/* One test of an unsigned type is enough: a number that was below 0 is now above 15. */
#include "byzlab.h"

u64 signed_guard(const struct context *context)
{
    u64 place = board_get(0);

    if (place > 15)
        return 0;
    return context->taken[place];
}
