/* Two signed tests of a number that may be 2^63 or more. They give it no bounds. */
#include "byzlab.h"

u64 signed_guard(const struct context *context)
{
    long long place = board_get(0);

    if (place < 0 || place > 15)
        return 0;
    return context->taken[place];
}
