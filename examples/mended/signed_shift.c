/* The upper four bits as an unsigned number are 0 to 15. `^ 8` gives the same as `+ 8` of a signed number. */
#include "byzlab.h"

u64 signed_shift(const struct context *context)
{
    u64 word = board_get(0);

    return context->taken[(word >> 60) ^ 8];
}
