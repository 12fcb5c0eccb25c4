/* Tells himself an order, which puts nothing. */
#include "byzlab.h"

u64 told(const struct context *context)
{
    return sway(context->general & 7, 7);
}
