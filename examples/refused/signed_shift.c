/* A shift of a signed type copies the sign. The result is -8 to 7, but the verifier knows nothing of it. */
#include "byzlab.h"

u64 signed_shift(const struct context *context)
{
    long long word = board_get(0);

    return context->taken[(word >> 60) + 8];
}
