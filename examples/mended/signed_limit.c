/* The mask comes before the test, since a signed test bounds only numbers that are known to be below 2^63. */
#include "byzlab.h"

u64 signed_limit(const struct context *context)
{
    long long place = board_get(0) & 0xffffffff;

    if (place > 15)
        return 0;
    return context->taken[place];
}
