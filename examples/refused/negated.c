/* Nothing is known of a negated number. (The line of assembly keeps clang from computing a difference instead.) */
#include "byzlab.h"

u64 negated(const struct context *context)
{
    u64 back = -(board_get(0) & 7);

    asm volatile("" : "+r"(back));
    return context->taken[back + 16];
}
