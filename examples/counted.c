/* Sends general 1 what this traitor took, and the others 0 in one round and 1 in the next, by a counter on the board. */
#include "byzlab.h"

u64 counted(const struct context *context)
{
    u64 turn = board_add(0, 1);

    honest(1);
#pragma unroll
    for (u64 receiver = 2; receiver < 13; receiver++)
        if (receiver < context->generals)
            sway(receiver, turn & 1);
    return 0;
}
