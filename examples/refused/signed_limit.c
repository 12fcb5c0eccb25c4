/* For a signed test a number of 2^63 or more is below 0, so it passes. */
#include "byzlab.h"

u64 signed_limit(const struct context *context)
{
    long long place = board_get(0);

    if (place > 15)
        return 0;
    return context->taken[place];
}
