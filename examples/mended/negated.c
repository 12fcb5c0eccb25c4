/* The difference of 16 and 0 to 7 has known bounds, 9 to 16. */
#include "byzlab.h"

u64 negated(const struct context *context)
{
    u64 back = board_get(0) & 7;

    return context->taken[16 - back];
}
