/* An unsigned byte is 0 to 255. `^ 128` gives the same as `+ 128` of a signed byte. */
#include "byzlab.h"

u64 signed_byte(const struct context *context)
{
    const unsigned char *bytes = (const unsigned char *)context->taken;

    return context->taken[bytes[context->round & 7] ^ 128];
}
