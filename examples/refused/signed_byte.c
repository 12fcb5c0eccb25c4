/* A signed byte, -128 to 127, is loaded with its sign. Nothing is known of the result. */
#include "byzlab.h"

u64 signed_byte(const struct context *context)
{
    const signed char *bytes = (const signed char *)context->taken;

    return context->taken[bytes[context->round & 7] + 128];
}
