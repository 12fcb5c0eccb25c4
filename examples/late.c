/* Keeps the first chain that he received until the last round, and then sends it, too late, to general 1. */
#include "byzlab.h"

u64 late(const struct context *context)
{
    if (context->round <= context->bound)
        return 1;
    return pass_on(0, 1 << 1);
}
